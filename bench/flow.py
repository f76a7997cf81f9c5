"""Makes jobs with long flows in a folder, and times programs on each: flow.py FOLDER PROGRAM [OTHER]."""

import subprocess
import sys

from timing import least_seconds, memory

RECTANGLES = 200


def text(d, polygons, glue, direction):
    """A job of one flow."""
    lines = ["flatsurf 1", f"field {d}"]
    lines += ["polygon " + " ".join(sides) for sides in polygons]
    lines += [f"glue {a} {b}" for a, b in glue]
    return "\n".join(lines + [f"flow {direction}", "end"]) + "\n"


def square():
    """The unit square, opposite sides glued, in a direction with 1,000,000 steps."""
    return text(2, [("1,0", "0,1", "-1,0", "0,-1")], [("0.0", "0.2"), ("0.1", "0.3")], "1,1000000")


def octagon():
    """The regular octagon, opposite sides glued, in a long direction."""
    half = "0+1/2r"
    sides = ("1,0", f"{half},{half}", "0,1", f"-1/2r,{half}", "-1,0", "-1/2r,-1/2r", "0,-1", f"{half},-1/2r")
    return text(2, [sides], [(f"0.{i}", f"0.{i + 4}") for i in range(4)], "1000000,1r")


def staircase():
    """Rectangles, each glued to the next one in turn along its right and its upper side."""
    polygons, glue = [], []
    width, height = "1", "1"
    for i in range(RECTANGLES):
        polygons.append((f"{width},0", f"0,{height}", f"-{width},0", f"0,-{height}"))
        if i % 2 == 0:
            width = "1r" if i % 4 == 0 else "1"
        else:
            height = "1r" if i % 4 == 1 else "1"
    for i in range(0, RECTANGLES, 2):
        glue += [(f"{i}.1", f"{i + 1}.3"), (f"{i + 1}.1", f"{i}.3")]
    glue += [("0.0", "0.2"), (f"{RECTANGLES - 1}.0", f"{RECTANGLES - 1}.2")]
    for i in range(1, RECTANGLES - 1, 2):
        glue += [(f"{i}.2", f"{i + 1}.0"), (f"{i + 1}.2", f"{i}.0")]
    return text(2, polygons, glue, "1,1000")


def steps(command, name):
    """How many steps the induction took."""
    with open(name) as job:
        ran = subprocess.run(command, stdin=job, capture_output=True, check=True, text=True)
    words = ran.stdout.split()
    if words[0] != "flow" or words[2] != "steps":
        sys.exit(f"no whole answer to {name}: {' '.join(words[:6])}")
    return int(words[3])


def main(folder, *programs):
    for kind, make in (("square", square), ("octagon", octagon), ("staircase", staircase)):
        name = f"{folder}/flow-{kind}.flat"
        with open(name, "w") as it:
            it.write(make())
        times = []
        for program in programs:
            command = [program, "--steps", "1000000"]
            count = steps(command, name)
            times.append(least_seconds(command, name))
            print(f"{kind:9s} {count:8d} steps {times[-1]:8.4f} s {times[-1] / count * 1e9:10.1f} ns/step {memory(command, name):8d} kB at most")
        if len(times) > 1:
            print(f"{kind:9s} {times[0] / times[1]:.2f} times the other")


main(*sys.argv[1:])
