#!/usr/bin/env python3
"""End-to-end tests of the program, over real files, pipes and limits. Each prints a line; the last line is
`N passed, M failed`.

    tests/run                    tests the proved program, crates/intermit/out/intermit
    tests/run PROGRAM            tests that program
    tests/run [PROGRAM] --only WORD      makes the tests alone whose names have the word
    tests/run [PROGRAM] --readme         prints README.md with the output that its commands have now
    tests/run [PROGRAM] --page PAGE      prints another page so
    tests/run --list             lists the tests
"""
import argparse
import os
import sys
import time

from base import TESTS, TOP, Failed, Room, Skipped
import beside  # noqa: F401  (each module registers its tests)
import bulk  # noqa: F401
import check_messages  # noqa: F401
import cuts  # noqa: F401
import failing  # noqa: F401
import hostile  # noqa: F401
import made_sources  # noqa: F401
import pages
import power  # noqa: F401
import saving  # noqa: F401
import script  # noqa: F401
import sizes  # noqa: F401
import statuses  # noqa: F401
import streams  # noqa: F401
import tool_tests  # noqa: F401


def made(what, function, program):
    """Makes a test, tells how it went, and gives whether it failed."""
    begun = time.monotonic()
    try:
        with Room(program) as room:
            function(room)
        word, why = "passed", ""
    except Skipped as cause:
        word, why = "skipped", f": {cause}"
    except Failed as cause:
        word, why = "FAILED", f": {cause}"
    except Exception as cause:  # a test that can't go on has failed
        word, why = "FAILED", f": {type(cause).__name__}: {cause}"
    print(f"{word} {what} ({time.monotonic() - begun:.1f} s){why}", flush=True)
    return word


def main():
    words = argparse.ArgumentParser(description=__doc__, formatter_class=argparse.RawDescriptionHelpFormatter)
    words.add_argument("program", nargs="?", default=os.path.join(TOP, "crates/intermit/out/intermit"))
    words.add_argument("--only", default="", metavar="WORD")
    words.add_argument("--readme", dest="page", action="store_const", const="README.md")
    words.add_argument("--page", metavar="PAGE")
    words.add_argument("--list", action="store_true")
    asked = words.parse_args()
    program = os.path.abspath(asked.program)
    if asked.list:
        print("\n".join(what for what, _ in TESTS))
        return 0
    if not os.access(program, os.X_OK):
        print(f"tests/run: there is no program {program}: `rt ci` makes the proved one\n0 passed, 1 failed")
        return 1
    if asked.page:
        with Room(program) as room:
            sys.stdout.write(pages.renewed(room, asked.page))
        return 0
    words = [made(what, function, program) for what, function in TESTS if asked.only in what]
    failed = words.count("FAILED")
    print(f"{len(words) - failed - words.count('skipped')} passed, {failed} failed")
    return 1 if failed else 0


if __name__ == "__main__":
    sys.exit(main())
