#!/usr/bin/env python3
"""What losses of power cost: each of the ten examples with power for so many times its longest gap K, over the same run with
power that stays. Prints the table of docs/performance.md; each run has to show what the run with power that stays shows.
No part of the gate.

    bench/power.py            prints the table
    bench/power.py --page     puts it into docs/performance.md
"""
import argparse
import glob
import math
import os
import re
import subprocess
import sys
import tempfile

import program
from program import TOP

TIMES = (1, 2, 5, 20, 100)
HEAD = "| Example | K | Power that stays | " + " | ".join("K" if it == 1 else f"{it} K" for it in TIMES) + " |"
PAGE = f"{TOP}/docs/performance.md"


def number(lines, name):
    return next(int(line.split()[1]) for line in lines if line.startswith(name + " "))


def run(image, given, trace):
    """What a run shows, and the instructions that it takes."""
    words = [PROGRAM, "exec", image, "--input", given, "--trace", "/dev/stdin"]
    done = subprocess.run(words, input=trace.encode(), capture_output=True)
    lines = done.stderr.decode().splitlines()
    return (done.returncode, done.stdout, lines[0]), number(lines, "instructions")


def row_of(source, image):
    """An example's name, its longest gap, the instructions with power that stays, and those of each length over these."""
    given = source[:-2] + ".in"
    built = subprocess.run([PROGRAM, "build", source, image], check=True, capture_output=True, text=True)
    gap = number(built.stdout.splitlines(), "gap")
    wanted, whole = run(image, given, "4294967295\n")
    ratios = []
    for times in TIMES:
        shown, instructions = run(image, given, f"{times * gap} 7 1000000\n")
        if shown != wanted:
            sys.exit(f"power.py: {source} with power for {times * gap}: {shown}, and not {wanted}")
        ratios.append(instructions / whole)
    return os.path.basename(source)[:-2], gap, whole, ratios


def table():
    with tempfile.TemporaryDirectory() as path:
        rows = [row_of(source, f"{path}/image") for source in sorted(glob.glob(f"{TOP}/crates/im_examples/data/*.c"))]
    lines = [HEAD, "|---" * (3 + len(TIMES)) + "|"]
    for name, gap, whole, ratios in rows:
        lines.append(f"| {name} | {gap} | {whole} | " + " | ".join(f"{it:.2f}" for it in ratios) + " |")
    means = [math.exp(sum(math.log(ratios[at]) for *_, ratios in rows) / len(rows)) for at in range(len(TIMES))]
    lines.append("| geometric mean | | | " + " | ".join(f"{it:.2f}" for it in means) + " |")
    return "\n".join(lines) + "\n"


def main():
    words = argparse.ArgumentParser(description=__doc__, formatter_class=argparse.RawDescriptionHelpFormatter)
    words.add_argument("--page", action="store_true", help="puts the table into docs/performance.md")
    asked = words.parse_args()
    global PROGRAM
    PROGRAM = program.path()
    made = table()
    if not asked.page:
        print(made, end="")
        return 0
    with open(PAGE) as file:
        text, found = re.subn(re.escape(HEAD) + r"\n(\|[^\n]*\n)*", lambda _: made, file.read())
    if found != 1:
        sys.exit(f"power.py: {found} tables of the page begin with {HEAD}")
    with open(PAGE, "w") as file:
        file.write(text)
    return 0


if __name__ == "__main__":
    sys.exit(main())
