"""Makes jobs of squares in a row, and prints what an exchange costs for each side and each letter."""

import subprocess
import sys
from pathlib import Path

import timing

ROUNDS = 1000


def job(squares, direction):
    """A torus of so many squares in a row, and a path along the direction."""
    lines = ["flatsurf 1", "field 2"]
    lines += ["polygon 1,0 0,1 -1,0 0,-1"] * squares
    for i in range(squares):
        lines += [f"glue {i}.0 {i}.2", f"glue {i}.1 {(i + 1) % squares}.3"]
    lines += [f"segment 0.0 {direction}", "end", ""]
    return "\n".join(lines)


def run(program, path):
    """The nanoseconds and the letters of all rounds, and the most memory that was held, in kB."""
    with open(path) as text:
        told = subprocess.run([program], stdin=text, stdout=subprocess.PIPE, check=True).stdout.split()
    return int(told[0]), int(told[1]), timing.memory([program], path)


def main():
    program, folder = sys.argv[1:]
    for squares in [32, 64, 128, 256]:
        ran = {}
        for direction in ["1,1r", "1,0"]:
            path = Path(folder) / "exchanges.flat"
            path.write_text(job(squares, direction))
            ran[direction] = min(run(program, path) for _ in range(3))
        time, letters, most = ran["1,1r"]
        _, fewer, less = ran["1,0"]
        print(
            f"{4 * squares} sides: {time / ROUNDS / (4 * squares):.0f} ns a side, "
            f"{letters // ROUNDS} letters, {1024 * (most - less) / (letters - fewer):.0f} bytes a letter"
        )


main()
