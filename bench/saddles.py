"""Makes jobs with long saddle lists in a folder, and times a program on each: saddles.py PROGRAM FOLDER."""

import subprocess
import sys
from math import gcd, isqrt

from timing import least_seconds, memory

LENGTHS = (125, 1250, 12500, 125000)
LIMITS = (60, 600, 6000)


def rectangle(height, limit):
    """A rectangle of width 1, opposite sides glued, and the list up to a limit."""
    polygon = f"polygon 1,0 0,{height} -1,0 0,{-height}"
    return "\n".join(["flatsurf 1", "field 2", polygon, "glue 0.0 0.2", "glue 0.1 0.3", f"saddles {limit}", "end"]) + "\n"


def chains(length):
    """A list of two connections, for which words go on up to that length: 8 for each unit of it."""
    return rectangle(1000000, length * length), 2, 8 * length


def disc(limit):
    """The list of the unit square: the vectors without a common factor."""
    most = isqrt(limit)
    vectors = range(-most, most + 1)
    count = sum(1 for x in vectors for y in vectors if x * x + y * y <= limit and gcd(x, y) == 1)
    return rectangle(1, limit), count, None


def main(program, folder):
    command = [program, "--steps", "1000000"]
    for kind, make, sizes in (("chains", chains, LENGTHS), ("unit square", disc, LIMITS)):
        for size in sizes:
            job, count, live = make(size)
            name = f"{folder}/{kind.replace(' ', '-')}-{size}.flat"
            with open(name, "w") as it:
                it.write(job)
            with open(name) as text:
                ran = subprocess.run(command, stdin=text, capture_output=True, check=True, text=True)
            words = ran.stdout.split("\n")[0].split()
            if words[3] != str(count) or live not in (None, int(words[5])):
                sys.exit(f"another answer than the right one to {kind} of {size}: {' '.join(words)}")
            live = int(words[5])
            least = least_seconds(command, name)
            print(f"{kind:11s} {live:8d} words {count:8d} entries {least:8.4f} s {least / live * 1e9:10.1f} ns/word {memory(command, name):8d} kB at most")


main(*sys.argv[1:])
