# Functions of bin/flat, bin/flat-unproved and .ci/run: what the program is built from, and whether it is
# current. The caller sets `top`, the folder of the repository, and `call`, its own name in messages.
out=$top/crates/flat/out
program=$out/flat
# What the program was built from: names and checksums of sources, and its own.
record=$out/flat.sources
CANNOT_BUILD=70

say() {
    echo "$call: $*" >&2
}

fail() {
    say "$@"
    exit "$CANNOT_BUILD"
}

need_rt() {
    command -v rt >/dev/null 2>&1 ||
        fail "$1 needs the command rt of the toolchain Rattle, which isn't on the path; README.md says more"
}

# Prints what rt said on standard error: without the lines of what is proved, and of a traceback the last line.
tell() {
    awk '/^Traceback / { inside = 1; next } inside && /^  / { next } { inside = 0 }
        !/^(fn|struct|enum|trait|impl) .*: proved$/' >&2
}

# Names and checksums of the files that the program is built from.
sources() {
    local crate folders=()
    for crate in $("$top/tools/below" flat); do
        folders+=("crates/$crate/src" "crates/$crate/specs" "crates/$crate/proofs")
    done
    (cd "$top" && find crates.txt HANDLES "${folders[@]}" -type f -print0 2>/dev/null | LC_ALL=C sort -z | xargs -0 sha256sum)
}

# The checksum of the built program.
built() {
    (cd "$top" && sha256sum crates/flat/out/flat 2>/dev/null)
}

is_current() {
    [ -x "$program" ] && [ -r "$record" ] && [ "$(sources; built)" = "$(cat "$record")" ]
}

# Notes that the program was built from these sources.
note_built() {
    { echo "$1"; built; } >"$record.$$" && mv -f "$record.$$" "$record"
}
