"""The tests of what stands beside the program, each a script of its own, and what the pages list."""
import os
import subprocess
import sys

from base import TOP, Skipped, holds, test


def script(room, *words):
    """Runs a script of the repository over the program, and gives what it prints."""
    ran = subprocess.run(
        words,
        cwd=TOP,
        env={**os.environ, "INTERMIT": room.program},
        stdin=subprocess.DEVNULL,
        stdout=subprocess.PIPE,
        stderr=subprocess.STDOUT,
        timeout=900,
    )
    told = ran.stdout.decode(errors="replace")
    holds(f"{words[0]}: {told[-1500:]}", ran.returncode == 0)
    return told


@test("tests/tools: listings, traces, plots and counts say what the program says")
def tools(room):
    script(room, "tests/tools")


@test("tests/adapt: ordinary programs, adapted, do under losses of power what gcc's code of them does")
def adapted(room):
    told = script(room, "tests/adapt/run")
    if "skipped" in told:
        raise Skipped(told.strip().splitlines()[0])


@test("tools/crates: the page of the architecture lists each crate by its own first line")
def listed(room):
    script(room, sys.executable, "tools/crates", "--check")
