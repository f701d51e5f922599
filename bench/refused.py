#!/usr/bin/env python3
"""Each growth of memory is refused in turn: a command runs under a limit of address space that is a page higher each time,
until it has what it needs. Each run has to end with status 9 and its line alone, or as it does with ample memory; after
status 9 IMG is as it was, or whole, and nothing else was written. The host's allocator is told (GLIBC_TUNABLES) to take pages
from the host for each piece that it gives, so a limit of a page more lets one piece more through. No part of the gate.

    bench/refused.py                   run, eval, report, exec, dump and upgrade on a small source
    bench/refused.py --only eval --every 50
"""
import argparse
import os
import resource
import subprocess
import sys
import tempfile

import program

PAGE = resource.getpagesize()
AMPLE = 1 << 30
PIECES = "glibc.malloc.mmap_threshold=0:glibc.malloc.mmap_max=1000000:glibc.malloc.top_pad=0"
NO_MEMORY = (9, b"", b"intermit: no memory\n")
SOURCE = "int x; char *s = \"ab\"; int main(void) { int c; while ((c = getchar()) >= 0) { putchar(c + s[x]); x = x + 1; } return x; }"
COMMANDS = {
    "run": "run a.c new --input in --trace periods --vars",
    "eval": "eval a.c --input in --vars",
    "report": "report a.c",
    "exec": "exec a.img --input in --trace periods --vars",
    "dump": "dump a.img",
    "upgrade": "upgrade old.img new",
}


class Folder:
    """The files of the commands, and calls there under a limit."""

    def __init__(self, path):
        self.path = path
        self.file("a.c", SOURCE.encode())
        self.file("in", b"\0\1")
        self.file("periods", b"100 7 3 5\n4294967295\n")
        if self.call("build a.c a.img", AMPLE)[0] != 0:
            sys.exit("refused.py: the source isn't built")
        old = self.read("a.img")
        # version 1 of the same image: without the form that stands behind field 8
        self.file("old.img", old[:4] + b"\1\0\0\0" + old[8:32] + old[36:])

    def file(self, name, text):
        with open(f"{self.path}/{name}", "wb") as file:
            file.write(text)

    def read(self, name):
        try:
            with open(f"{self.path}/{name}", "rb") as file:
                return file.read()
        except FileNotFoundError:
            return None

    def call(self, words, limit):
        """The status, the output and the errors of a command."""
        done = subprocess.run(
            [PROGRAM, *words.split()],
            cwd=self.path,
            env={"GLIBC_TUNABLES": PIECES},
            stdin=subprocess.DEVNULL,
            capture_output=True,
            preexec_fn=lambda: resource.setrlimit(resource.RLIMIT_AS, (limit, limit)),
        )
        return done.returncode, done.stdout, done.stderr

    def ended(self, words, limit):
        """What a command gives, and what then stands under the name of its image."""
        self.file("new", b"before")
        return self.call(words, limit), self.read("new")


def loads(folder, pages):
    """Whether the host loads the program into so many pages, so that it answers for itself."""
    return folder.call("--help", pages * PAGE)[0] in (2, 9)


def least_pages(folder):
    low, high = 0, AMPLE // PAGE
    while low + 1 < high:
        middle = (low + high) // 2
        low, high = (low, middle) if loads(folder, middle) else (middle, high)
    return high


def tried(name, words, folder, every):
    """Runs a command under each limit, tells of the answers, and gives how many are wrong."""
    wanted, image = folder.ended(words, AMPLE)
    counts = {"refused before IMG": 0, "refused behind IMG": 0}
    pages, wrong = least_pages(folder), 0
    while True:
        found, stored = folder.ended(words, pages * PAGE)
        if found == wanted and stored == image:
            break
        if found == NO_MEMORY and stored in (b"before", image):
            counts["refused before IMG" if stored == b"before" else "refused behind IMG"] += 1
        else:
            wrong += 1
            print(f"{name} in {pages} pages: {found}, image {stored and stored[:40]}", flush=True)
        if pages * PAGE > AMPLE:
            break
        pages += every
    told = ", ".join(f"{count} {what}" for what, count in counts.items())
    print(f"{name}: status {wanted[0]} in {pages} pages; with fewer {told}, {wrong} wrong", flush=True)
    return wrong


def main():
    words = argparse.ArgumentParser(description=__doc__, formatter_class=argparse.RawDescriptionHelpFormatter)
    words.add_argument("--only", default="", metavar="COMMAND", help="this command alone")
    words.add_argument("--every", type=int, default=1, metavar="N", help="limits that are N pages apart (default: 1)")
    asked = words.parse_args()
    global PROGRAM
    PROGRAM = program.path()
    wrong = 0
    with tempfile.TemporaryDirectory() as path:
        folder = Folder(path)
        for name, line in COMMANDS.items():
            if asked.only in name:
                wrong += tried(name, line, folder, asked.every)
    return 1 if wrong else 0


if __name__ == "__main__":
    sys.exit(main())
