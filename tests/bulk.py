"""What bench/ has to try the program in bulk: each runs a little here, finds nothing of the program, and what is wrong of one
that is made wrong. Power is lost at each instruction of three programs, by the masks and second losses in turn."""
import os
import subprocess
import sys

from base import holds, same, test, text_of

FEW_LOSSES = "losses.py --small --turns --every 50 --jobs 1"
CHANCE = "fuzz.py --runs 140 --jobs 1"
LITTLE = (
    "losses.py --small --turns",
    "refused.py --only dump --every 10",
    CHANCE,
)
# writes a byte more where the trace on its standard input has a loss
FORGETS = """#!/bin/sh
trace=$(cat)
printf '%s\\n' "$trace" | {program} "$@"
status=$?
[ "$(printf '%s\\n' "$trace" | wc -l)" -lt 2 ] || printf x
exit $status
"""
# is ended by a signal where an image is shown
FALLS = """#!/bin/sh
[ "$1" != dump ] || kill -SEGV $$
exec {program} "$@"
"""


def bench(room, line, program=None):
    name, *words = line.split()
    return subprocess.run(
        [sys.executable, "-B", f"bench/{name}", *words],
        cwd=room.folder,
        env={**os.environ, "INTERMIT": program or room.program},
        capture_output=True,
        text=True,
    )


@test("bench: losses at each instruction of three programs, refused memory and chance find nothing")
def little(room):
    for line in LITTLE:
        done = bench(room, line)
        same(f"{line}: {done.stdout[-300:]}{done.stderr[-300:]}", done.returncode, 0)
        holds(f"{line}: {done.stdout}", " 0 wrong" in done.stdout)


@test("bench: a program that forgets, and one that falls, are found")
def found(room):
    for line, text, told in ((FEW_LOSSES, FORGETS, "other than"), (CHANCE, FALLS, "ended by signal 11")):
        room.file("wrong", text.format(program=room.program))
        os.chmod(room.path("wrong"), 0o755)
        done = bench(room, line, room.path("wrong"))
        holds(f"{line}: {done.returncode}: {done.stdout[-300:]}{done.stderr[-300:]}", done.returncode == 1 and told in done.stdout)


@test("docs/performance.md has the table that bench/power.py prints")
def power(room):
    holds("another table", bench(room, "power.py").stdout in text_of("docs/performance.md"))
