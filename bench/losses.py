#!/usr/bin/env python3
"""Power is lost after each instruction of an image's run, within the next store by each mask, and a second time in the
recovery that follows. Each run has to show what the run without a loss shows: output, status, commits and variables. As power
comes all registers hold a word that is another one each time. No part of the gate.

    bench/losses.py examples/upper.img examples/in.txt      an image or a source, and its input
    bench/losses.py --small                                 three small programs
    bench/losses.py --examples --turns --every 97           the ten examples, by one loss in turn at each 97th instruction

A run that shows something else is told with its trace. --every and --turns make fewer runs.
"""
import argparse
import glob
import itertools
import multiprocessing
import os
import subprocess
import sys
import tempfile
import time

import program
from program import TOP

ENDLESS = 4294967295
MASKS = range(16)
SECOND = (None, 0, 1, 17, 32, 33)  # instructions of the recovery, of which there are 33, up to a second loss
LOSSES = list(itertools.product(SECOND, MASKS))
SMALL = {
    "two increments": ("int x; int main(void) { x++; x++; return x; }", b""),
    "one variable by two pointers": (
        "int x; void f(int *p, int *q) { *p = *q + 1; } int main(void) { f(&x, &x); f(&x, &x); return x; }",
        b"",
    ),
    "a copy of the input": (
        "int main(void) { int c; c = getchar(); while (c >= 0) { putchar(c); c = getchar(); } return 3; }",
        b"abc",
    ),
}


def run(image, given, trace):
    """What a run shows, and the instructions that it made."""
    words = [PROGRAM, "exec", image, "--input", given, "--trace", "/dev/stdin", "--vars"]
    done = subprocess.run(words, input=trace.encode(), capture_output=True)
    lines = done.stderr.decode().splitlines()
    counted = [int(line.split()[1]) for line in lines if line.startswith("instructions ")]
    shown = [line for line in lines if not line.startswith("instructions ")]
    return (done.stdout, done.returncode, shown), sum(counted)


def trace_of(place, second, mask):
    """Power for so many instructions and part of a store, perhaps once more for a part of recovery, and then for good."""
    periods = [(place, mask), (ENDLESS, 0)] if second is None else [(place, mask), (second, 0), (ENDLESS, 0)]
    words = ((place * 16 + mask + number) * 2654435761 % 2**32 for number in itertools.count())
    return "".join(f"{length} {next(words)} 1 {mask}\n" for length, mask in periods)


def losses_at(task):
    """The traces with a loss at this place after which something else is shown."""
    image, given, place, losses, wanted = task
    traces = [trace_of(place, *loss) for loss in losses]
    return [(trace, shown) for trace in traces if (shown := run(image, given, trace)[0]) != wanted]


def tried(name, image, given, asked):
    """Loses power at the places of the run, tells what comes of it, and gives how many runs show something else."""
    begun = time.monotonic()
    wanted, instructions = run(image, given, f"{ENDLESS}\n")
    places = range(0, instructions + 1, asked.every)
    turns = itertools.cycle(LOSSES)
    tasks = [(image, given, place, [next(turns)] if asked.turns else LOSSES, wanted) for place in places]
    wrong = 0
    with multiprocessing.get_context("fork").Pool(asked.jobs) as pool:
        for found in pool.imap_unordered(losses_at, tasks):
            for trace, shown in found:
                wrong += 1
                print(f"{name}: other than {wanted}: {shown}, by the trace {trace!r}", flush=True)
    runs = sum(len(losses) for _, _, _, losses, _ in tasks)
    print(f"{name}: {instructions} instructions, {runs} runs, {wrong} wrong ({time.monotonic() - begun:.0f} s)", flush=True)
    return wrong


def tasks_of(asked, folder):
    """A name, an image or a source, and an input for each program that is asked for."""
    if asked.small:
        for number, (name, (source, given)) in enumerate(SMALL.items()):
            for kind, text in ("c", source.encode()), ("in", given):
                with open(f"{folder}/{number}.{kind}", "wb") as file:
                    file.write(text)
            yield name, f"{folder}/{number}.c", f"{folder}/{number}.in"
    if asked.examples:
        for source in sorted(glob.glob(f"{TOP}/crates/im_examples/data/*.c")):
            yield os.path.basename(source), source, source[:-2] + ".in"
    if asked.image:
        yield asked.image, asked.image, asked.input


def main():
    words = argparse.ArgumentParser(description=__doc__, formatter_class=argparse.RawDescriptionHelpFormatter)
    words.add_argument("--small", action="store_true", help="three small programs")
    words.add_argument("--examples", action="store_true", help="the ten examples")
    words.add_argument("--turns", action="store_true", help="one run at each place, by the masks and second losses in turn")
    words.add_argument("--every", type=int, default=1, metavar="N", help="at each Nth place (default: 1)")
    words.add_argument("--jobs", type=int, default=os.cpu_count(), metavar="N", help="runs side by side (default: all processors)")
    words.add_argument("image", nargs="?", help="an image, or a source whose name ends with .c")
    words.add_argument("input", nargs="?", default=os.devnull)
    asked = words.parse_args()
    if not (asked.small or asked.examples or asked.image):
        words.error("nothing to try: --small, --examples or an image")
    global PROGRAM
    PROGRAM = program.path()
    wrong = 0
    with tempfile.TemporaryDirectory() as folder:
        for name, image, given in tasks_of(asked, folder):
            if image.endswith(".c"):
                subprocess.run([PROGRAM, "build", image, f"{folder}/image"], check=True, capture_output=True)
                image = f"{folder}/image"
            wrong += tried(name, image, given, asked)
    return 1 if wrong else 0


if __name__ == "__main__":
    sys.exit(main())
