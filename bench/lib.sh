# Functions of the scripts in this folder: a temporary folder, which goes in the end, the program `flat`,
# programs that are built in a copy of the repository, and the least of three times.
set -euo pipefail
here=$(cd "$(dirname "$0")" && pwd)
top=$(dirname "$here")
work=$(mktemp -d)
trap 'rm -rf "$work"' EXIT

# Stops where a command is missing.
need() {
    local name
    for name in "$@"; do
        type -P "$name" >/dev/null || {
            echo "$(basename "$0"): it needs the command $name" >&2
            exit 2
        }
    done
}

# Stops where bin/flat has no program or gives another answer to the square.
program() {
    local status=0
    "$top/bin/flat" <"$top/examples/square.flat" >"$work/square.out" || status=$?
    # (70 is bin/flat's own: it has said why there is no program)
    [ "$status" != 70 ] || exit 1
    cmp "$work/square.out" "$top/examples/square.out" || exit 1
}

# Proves and builds NAME.rattle over some crates, in a copy of the repository that has only them and those
# that they use: build NAME CRATE..; the program is $work/crates/NAME/out/NAME.
build() {
    local name=$1 crate part
    shift
    for crate in $("$top/tools/below" "$@"); do
        mkdir -p "$work/crates/$crate"
        for part in src specs proofs; do
            [ ! -e "$top/crates/$crate/$part" ] || cp -r "$top/crates/$crate/$part" "$work/crates/$crate/"
        done
        grep -E "^$crate( |:|\$)" "$top/crates.txt"
    done >"$work/crates.txt"
    echo "$name: $*" >>"$work/crates.txt"
    mkdir -p "$work/crates/$name/src"
    cp "$here/$name.rattle" "$work/crates/$name/src/main.rt"
    # the answers of its function F are in NAME.F, since the gate reads any file .antt
    for part in "$here/$name".*; do
        case $part in *.rattle | *.rs | *.py) continue ;; esac
        mkdir -p "$work/crates/$name/proofs/${part##*.}"
        cp "$part" "$work/crates/$name/proofs/${part##*.}/Answers.antt"
    done
    (cd "$work/crates/$name" && rt run) >"$work/log" 2>&1 || {
        cat "$work/log" >&2
        exit 1
    }
}

# Runs a command three times. Of lines 'KEY KEY NANOSECONDS RESULT' prints one for each two keys, with
# the least time; it stops where the results differ.
least_of_three() {
    for _ in 1 2 3; do "$@"; done | awk '
        {
            key = $1 " " $2
            if (!(key in least) || $3 < least[key]) least[key] = $3
            if ((key in result) && result[key] != $4) {
                print "the results of " key " differ" >"/dev/stderr"
                exit 1
            }
            result[key] = $4
        }
        END { for (key in least) print key, least[key], result[key] }' | sort
}

# Of the lines of least_of_three, with the keys 'proved NAME' and 'plain NAME', prints for each name the seconds of
# both, and their ratio; it stops where the results of both differ.
compared() {
    awk '{ least[$1, $2] = $3; result[$1, $2] = $4; names[$2] }
        END {
            for (name in names) {
                if (result["proved", name] != result["plain", name]) {
                    print "the results of " name " differ" >"/dev/stderr"
                    exit 1
                }
                proved = least["proved", name] / 1e9; plain = least["plain", name] / 1e9
                printf "%s: proved %.2f s, plain %.2f s, ratio %.2f\n", name, proved, plain, proved / plain
            }
        }' | sort
}
