"""What the scripts of this folder read of the repository: crates.txt, files, imports and types."""

import difflib
import os
import re
import signal
import sys

TOP = os.path.dirname(os.path.dirname(os.path.realpath(__file__)))
# A token of a specification or a proof, and its comments.
TOKEN = re.compile(r'[^\s(){}.;,@"«»]+')
COMMENT = re.compile(r'(?<![^ \n(){}.;,@"»])--[^\n]*|\{-.*?-\}', re.S)
IMPORT = (
    r"\s+(?P<path>[^\s.{}();]+(?:\.[^\s.{}();]+)*)"
    r"(?:\.\{(?P<names>[^{}]*)\}|\s+as\s+(?P<alias>[\w'-]+))?(?P<rest>[^\n]*)"
)
IMPORTS = {".antt": re.compile(r"^ *(?:pub )?use" + IMPORT, re.M), ".rt": re.compile(r"^ *ghost use" + IMPORT, re.M)}
TYPE = re.compile(r"^(?:pub )?(?:struct|enum|trait) (\w+)", re.M)


class Unexpected(Exception):
    """The repository isn't as a script expects it."""


class Crate:
    def __init__(self, name, layer, purpose, uses):
        self.name, self.layer, self.purpose, self.uses = name, layer, purpose, uses
        self.folder = f"crates/{name}"

    def files(self, part, ending):
        """The paths of a part's files (src, specs, proofs, must-fail), sorted."""
        found = []
        for at, _, names in os.walk(f"{TOP}/{self.folder}/{part}"):
            found += [os.path.relpath(f"{at}/{it}", TOP) for it in names if it.endswith(ending)]
        return sorted(found)


def crates():
    """The crates in the order of crates.txt, by name."""
    found, layer, purpose = {}, None, None
    for number, line in enumerate(read("crates.txt").splitlines(), 1):
        text, _, _ = line.partition("#")
        name, _, uses = text.partition(":")
        if line.startswith("## "):
            layer, purpose = line[3:].strip(), None
        elif line.startswith("# "):
            purpose = line[2:].strip()
        elif name.split():
            if layer is None or purpose is None:
                raise Unexpected(f"crates.txt:{number}: a crate has a heading '## LAYER' and a line '# WHAT IT IS FOR' above it")
            name = name.split()[0]
            found[name] = Crate(name, layer, purpose, uses.replace(",", " ").split())
            purpose = None
            if not os.path.isdir(f"{TOP}/crates/{name}/src"):
                raise Unexpected(f"crates.txt:{number}: there is no folder crates/{name}/src")
    return found


def lowest_first(known):
    """The crates, each after those that it uses, else in the order of crates.txt."""
    found = []

    def visit(crate):
        for name in crate.uses:
            if name in known and known[name] not in found:
                visit(known[name])
        if crate not in found:
            found.append(crate)

    for crate in known.values():
        visit(crate)
    return found


def read(path):
    try:
        with open(f"{TOP}/{path}", encoding="utf-8") as it:
            return it.read()
    except OSError as error:
        raise Unexpected(f"{path}: {error.strerror}") from None


def lines_of(paths):
    return sum(read(it).count("\n") for it in paths)


def without_comments(path):
    text = read(path)
    return re.sub(r"//[^\n]*", "", text) if path.endswith(".rt") else COMMENT.sub("", text)


def first_comment(path):
    line = read(path).split("\n", 1)[0]
    if not line.startswith("-- "):
        raise Unexpected(f"{path}: its first line is no comment that says what is in it")
    return line[3:].strip()


def is_list_of_modules(path):
    return os.path.basename(path) in ("Lib.antt", "Mod.antt")


def imports(path, text=None):
    """Each import of a file: the path's parts, the pairs of a name and its name here, and the alias."""
    kind = os.path.splitext(path)[1]
    for found in IMPORTS[kind].finditer(without_comments(path) if text is None else text):
        names = []
        for word in (found["names"] or "").split(","):
            name, _, here = (it.strip() for it in word.partition(" as "))
            names += [(name, here or name)] if name else []
        if found["rest"].strip() not in ("", ";"):
            raise Unexpected(f"{path}: an import of a form that this script doesn't know: {found[0].strip()}")
        yield found["path"].split("."), names, found["alias"]


def file_of(parts):
    """The file of specs/ or proofs/ that an import's path leads to, and how many of its parts; or None and 0."""
    if len(parts) > 3 and parts[0] == "Rattle" and parts[2] in ("specs", "proofs"):
        for many in range(len(parts), 3, -1):
            path = "/".join(["crates", *parts[1:many]])
            for ending in (".antt", "/Mod.antt"):
                if os.path.isfile(f"{TOP}/{path}{ending}"):
                    return f"{path}{ending}", many
    return None, 0


def write_or_compare(path, text, is_check):
    """Writes a page; or, to check it, prints how it differs. Returns the exit status."""
    if not is_check:
        with open(f"{TOP}/{path}", "w", encoding="utf-8") as it:
            it.write(text)
        return 0
    old = read(path) if os.path.isfile(f"{TOP}/{path}") else ""
    changes = difflib.unified_diff(old.splitlines(True), text.splitlines(True), path, f"{path}, made anew")
    sys.stdout.writelines(changes)
    return int(old != text)


def run(name, main):
    """Ends with main's status, or with 2 where the repository isn't as it expects."""
    # (whoever reads the output may have enough of it)
    signal.signal(signal.SIGPIPE, signal.SIG_DFL)
    try:
        sys.exit(main())
    except Unexpected as error:
        print(f"{name}: {error}", file=sys.stderr)
        sys.exit(2)
