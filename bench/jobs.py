"""Makes large jobs in a folder, and times a program on each: jobs.py PROGRAM FOLDER."""

import os
import sys

from timing import least_seconds, memory

MOST = 1048576


def chain(polygons, wide):
    """Squares in a row, closed up to a torus; numbers with leading zeros where they are to be wide."""
    one, zero, minus = ("0" * 17 + "1", "0" * 18, "-" + "0" * 17 + "1") if wide else ("1", "0", "-1")
    lines = ["flatsurf 1", "field 2"]
    lines += [f"polygon {one},{zero} {zero},{one} {minus},{zero} {zero},{minus}"] * polygons
    for i in range(polygons):
        lines += [f"glue {i}.1 {(i + 1) % polygons}.3", f"glue {i}.0 {i}.2"]
    return lines


def pair(n):
    """Two polygons of n sides: half of the sides have width 1 and are convex, the others are their opposites."""
    half = [(1, j) for j in range(-(n // 4), n // 4)]
    sides = " ".join(f"{x},{y}" for x, y in half + [(-x, -y) for x, y in half])
    glues = [f"glue 0.{j} 1.{(j + n // 2) % n}" for j in range(n)]
    return ["flatsurf 1", "field 2", f"polygon {sides}", f"polygon {sides}", *glues]


def padded(lines, length):
    """The text of the lines, after a line of blanks that makes it so long."""
    text = "\n".join(lines) + "\n"
    text = " " * (length - len(text) - 1) + "\n" + text
    assert len(text) == length
    return text


def jobs():
    """The texts of the jobs, by name."""
    found = {}
    for k in (16, 4, 1):
        found[f"blanks-{MOST // k:07d}"] = padded([*chain(256, False), "check", "end"], MOST // k)
    found["commands-256"] = padded([*chain(256, True), *["check"] * 256, "end"], MOST)
    found["polygons-256"] = "\n".join([*chain(256, False), "check", "end"]) + "\n"
    found["polygons-016"] = "\n".join([*chain(16, False), "check", "end"]) + "\n"
    for n in (32, 128, 512):
        found[f"strata-{n:03d}"] = "\n".join([*pair(n), *["stratum"] * 256, "end"]) + "\n"
    found["strata-squares"] = "\n".join([*chain(256, False), *["stratum"] * 256, "end"]) + "\n"
    return found


def main(program, folder):
    for name, text in sorted(jobs().items()):
        job = f"{folder}/{name}.flat"
        with open(job, "w") as it:
            it.write(text)
        size, least = os.path.getsize(job), least_seconds([program], job)
        print(f"{name:16} {size:8d} bytes {least:8.4f} s {least / size * 1e9:8.1f} ns/byte {memory([program], job):8d} kB at most")


main(*sys.argv[1:])
