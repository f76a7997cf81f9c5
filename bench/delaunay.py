"""Makes jobs that take many flips in a folder, and times a program on each: delaunay.py PROGRAM FOLDER."""

import subprocess
import sys

from timing import least_seconds, memory

FLIPS = (1000, 10000, 100000, 1000000)
SQUARES = 255


def torus(flips):
    """A parallelogram with the sides 1,0 and FLIPS,1 is a torus, and takes so many flips."""
    lines = ["flatsurf 1", "field 2", f"polygon 1,0 {flips},1 -1,0 {-flips},-1", "glue 0.0 0.2", "glue 0.1 0.3"]
    return "\n".join([*lines, "cells", "end"]) + "\n"


def among_squares(flips):
    """A row of squares, of which the first is glued to such a parallelogram."""
    lines = ["flatsurf 1", "field 2"]
    lines += ["polygon 1,0 0,1 -1,0 0,-1"] * SQUARES
    lines += [f"polygon 1,0 {flips},1 -1,0 {-flips},-1"]
    lines += [f"glue {i}.1 {(i + 1) % SQUARES}.3" for i in range(SQUARES)]
    lines += [f"glue {i}.0 {i}.2" for i in range(1, SQUARES)]
    lines += [f"glue 0.0 {SQUARES}.2", f"glue 0.2 {SQUARES}.0", f"glue {SQUARES}.1 {SQUARES}.3"]
    return "\n".join([*lines, "cells", "end"]) + "\n"


def main(program, folder):
    command = [program, "--steps", "1000000"]
    for kind, job, cells in (("torus", torus, 1), ("among squares", among_squares, SQUARES + 1)):
        for flips in FLIPS:
            name = f"{folder}/{kind.replace(' ', '-')}-{flips}.flat"
            with open(name, "w") as it:
                it.write(job(flips))
            with open(name) as text:
                ran = subprocess.run(command, stdin=text, capture_output=True, check=True, text=True)
            if ran.stdout.split("\n")[0] != f"cells {cells} flips {flips}":
                sys.exit(f"another answer than the right one to {kind} with {flips} flips")
            least = least_seconds(command, name)
            print(f"{kind:13s} {flips:8d} flips {least:8.4f} s {least / flips * 1e9:12.1f} ns/flip {memory(command, name):8d} kB at most")


main(*sys.argv[1:])
