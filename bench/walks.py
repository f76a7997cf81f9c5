"""Makes jobs with long straight paths in a folder, and times a program on each: walks.py PROGRAM FOLDER."""

import subprocess
import sys

from timing import least_seconds, memory

LENGTHS = (2, 1000, 10000, 100000, 1000000)


def job(n):
    """The unit square, and the path along (n,1)."""
    lines = ["flatsurf 1", "field 2", "polygon 1,0 0,1 -1,0 0,-1", "glue 0.0 0.2", "glue 0.1 0.3"]
    return "\n".join([*lines, f"segment 0.0 {n},1", "end"]) + "\n"


def answer(n):
    """Its answer: from one copy of the square to the next on its right, and to corner 2 of the last."""
    return f"segment 0.0 {n},1 yes end 0.2 word " + " ".join(["0.1"] * (n - 1)) + "\n"


def main(program, folder):
    command = [program, "--steps", "1000000"]
    for n in LENGTHS:
        name = f"{folder}/walk-{n}.flat"
        with open(name, "w") as it:
            it.write(job(n))
        with open(name) as text:
            ran = subprocess.run(command, stdin=text, capture_output=True, check=True, text=True)
        if ran.stdout != answer(n):
            sys.exit(f"another answer than the right one where n is {n}")
        crossings, least = n - 1, least_seconds(command, name)
        print(f"{crossings:8d} crossings {least:8.4f} s {least / crossings * 1e9:12.1f} ns/crossing {memory(command, name):8d} kB at most")


main(*sys.argv[1:])
