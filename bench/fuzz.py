#!/usr/bin/env python3
"""Changes the repository's sources, images and traces by chance and gives them to the program, which runs with limits of time
(10 s of processor), memory (512 MiB) and stack (2 MiB). Stops at the first answer that docs/commands.md doesn't give: a signal,
a run without end, a status that the command doesn't have, a refusal of another form than one line. The files of that run then
stand in a folder of out/, with the words of the command. No part of the gate.

    bench/fuzz.py --runs 2000 --seed 1
    bench/fuzz.py --seed 1 --first 1234 --runs 1       one run again

The run of a number depends on the seed and that number alone, as long as the repository stays as it is.
"""
import argparse
import collections
import glob
import multiprocessing
import os
import random
import re
import resource
import shutil
import signal
import subprocess
import sys
import tempfile
import time

import program
from program import TOP

SECONDS, MEMORY, STACK = 10, 512 << 20, 2 << 20
WAIT = 600  # seconds by the clock, of a machine that has other work too
REFUSALS = {3, 5, 6, 7, 8, 9, 13, 14, 16}
FOLDERS = ("examples", "examples/field", "crates/im_examples/data")  # of the sources, each below 4 KiB
# the commands in turn, each with what is changed
TURNS = (
    ("eval a.c --input in --fuel 20000 --vars", "a.c"),
    ("report a.c", "a.c"),
    ("exec a.img --input in --steps 20000 --vars", "a.img"),
    ("exec halt.img --trace periods --vars", "periods"),
    ("run a.c new.img --input in --steps 20000 --vars", "a.c"),
    ("dump a.img", "a.img"),
    ("upgrade a.img new.img", "a.img"),
)
TOKEN = re.compile(rb"\s+|//[^\n]*|/\*.*?\*/|\"[^\"\n]*\"|'[^'\n]*'|\w+|<<=|>>=|\.\.\.|->|\+\+|--|&&|\|\||<<|>>|[-+*/%&|^<>=!]=|.", re.S)
KEYWORDS = (
    b"auto break case char const continue default do else enum extern for if int long return short signed sizeof static struct "
    b"switch typedef unsigned void while"
).split()
PIECES = KEYWORDS + (
    b"int32_t uint8_t size_t main getchar putchar 0 1 -1 255 2147483647 2147483648 4294967295u 0x80000000 07 'a' \"ab\" "
    b"( ) [ ] { } ; , . -> ++ -- & * + - ~ ! / % << >> < > <= >= == != ^ | && || ? : = += <<= ... # 08 '\\x"
).split()
# tokens of which one may stand where another does
ALIKE = [
    re.compile(it)
    for it in (
        rb"(?!(?:%s)$)[A-Za-z_]\w*" % b"|".join(KEYWORDS),
        rb"\d\w*",
        rb"[-+*/%&|^]|<<|>>|[<>=!]=|<|>|&&|\|\|",
        rb"[-+*/%&|^]?=|<<=|>>=",
        rb"char|int|short|long|unsigned|signed|int32_t|uint8_t",
        rb"\+\+|--|[-+~!]",
    )
]
TRACES = (b"1\n", b"70 0 1000\n", b"; a word\n1 2 3 4\n0 0 5 15\n", b"0 0 1000000\n", b"2 4294967295 7\r\n\t3\n")
NUMBERS = (0, 1, 2, 3, 255, 256, 4095, 4096, 4100, 65536, 261120, 261121, 1 << 20, (1 << 20) + 1, 0x300000, 0x400000, 0x4FFFFC, 0x500000,
           0x7FFFFFFF, 0x80000000, 0xFFFFFFFC, 0xFFFFFFFF, 0x00100073, 0x00000073, 0x0000000F, 0x00002203, 0x00402023, 0x00008067)  # fmt: skip
HALT = b"IMRV" + b"".join(it.to_bytes(4, "little") for it in (1, 1, 0, 256, 0, 4096, 0, 0x00100073))


def statuses():
    """The statuses of each command, from the page's table."""
    page = bytes_of(f"{TOP}/docs/commands.md").decode().split("## Exit statuses")[1].split("\n## ")[0]
    rows = re.findall(r"^\| (\d+) \|.*?\| ([^|]*) \|$", page, re.M)
    names = {words.split()[0] for words, _ in TURNS}
    return {name: {int(status) for status, of in rows if f"`{name}`" in of or of in ("all commands", "all words")} for name in names}


def changed_bytes(chance, text, others):
    """The text with a few bytes changed, put in, taken out, doubled or brought in from another text."""
    text = bytearray(text)
    for _ in range(chance.choice((1, 1, 2, 3, 8))):
        at, end = sorted(chance.randrange(len(text) + 1) for _ in range(2))
        end = min(end, at + chance.choice((1, 4, 16, 256)))
        kind = chance.randrange(6)
        if kind == 0 and at < len(text):
            text[at] ^= 1 << chance.randrange(8)
        elif kind == 1:
            text[at:at] = chance.randbytes(chance.choice((1, 4)))
        elif kind == 2:
            del text[at:end]
        elif kind == 3:
            text[at:at] = text[at:end] * chance.choice((1, 1, 2, 50))
        elif kind == 4:
            del text[at:]
        else:
            other = chance.choice(others)
            start = chance.randrange(len(other) + 1)
            text[at:end] = other[start : start + chance.choice((4, 16, 256))]
    return bytes(text)


def changed_words(chance, image, others):
    """The image with a few words of four bytes replaced, a third of them within the header."""
    image = bytearray(image)
    for _ in range(chance.choice((1, 1, 2, 8))):
        at = 4 * chance.randrange(min(9, len(image) // 4) if chance.random() < 0.3 else len(image) // 4)
        other = chance.choice(others)
        there = 4 * chance.randrange(len(other) // 4)
        image[at : at + 4] = chance.choice((chance.choice(NUMBERS).to_bytes(4, "little"), other[there : there + 4]))
    return bytes(image)


def changed_kindly(chance, text, _):
    """The text with a few names, numbers or operators replaced by others: most of what comes of it is still a program."""
    tokens = TOKEN.findall(text)
    for _ in range(chance.choice((1, 1, 2, 3))):
        alike = chance.choice(ALIKE)
        places = [at for at, token in enumerate(tokens) if alike.fullmatch(token)]
        if places:
            more = [piece for piece in PIECES if alike.fullmatch(piece)]
            tokens[chance.choice(places)] = chance.choice((tokens[chance.choice(places)], chance.choice(more)))
    return b"".join(tokens)


def changed_tokens(chance, text, others):
    """The text with a few tokens swapped, replaced, put in, taken out, repeated or brought in from another text."""
    tokens = TOKEN.findall(text)
    for _ in range(chance.choice((1, 1, 2, 4))):
        at, other = (chance.randrange(len(tokens)) if tokens else 0 for _ in range(2))
        kind = chance.randrange(6)
        if kind == 0 and tokens:
            tokens[at], tokens[other] = tokens[other], tokens[at]
        elif kind == 1:
            tokens[at : at + 1] = [b" ", chance.choice(PIECES), b" "]
        elif kind == 2:
            tokens.insert(at, chance.choice(PIECES) + b" ")
        elif kind == 3:
            del tokens[at : at + chance.choice((1, 1, 2, 8))]
        elif kind == 4:
            tokens[at:at] = tokens[at : at + chance.choice((1, 2, 8))] * chance.choice((1, 2, 60, 600))
        else:
            there = TOKEN.findall(chance.choice(others))
            start = chance.randrange(len(there))
            tokens[at : at + 1] = there[start : start + chance.choice((1, 4, 16))]
    return b"".join(tokens)


CHANGES = {
    "a.c": (changed_kindly, changed_kindly, changed_kindly, changed_tokens, changed_bytes),
    "a.img": (changed_words, changed_words, changed_bytes),
    "periods": (changed_tokens, changed_bytes),
}


def bytes_of(name):
    with open(name, "rb") as file:
        return file.read()


class Given:
    """The texts that are changed: by the name of the file that they become."""

    def __init__(self, path):
        sources = sorted(it for folder in FOLDERS for it in glob.glob(f"{TOP}/{folder}/*.c"))
        images = [HALT, bytes_of(f"{TOP}/examples/upper.img")]
        for source in sources:
            if subprocess.run([PROGRAM, "build", source, f"{path}/a.img"], capture_output=True).returncode == 0:
                images.append(bytes_of(f"{path}/a.img"))
        self.texts = {"a.c": [bytes_of(it) for it in sources], "a.img": images, "periods": TRACES}
        self.inputs = (b"", b"abc\n", b"12 3\n", bytes(range(256)))

    def files(self, chance, name):
        """The files of a run, of which one is changed."""
        texts = self.texts[name]
        change = chance.choice(CHANGES[name])
        return {name: change(chance, chance.choice(texts), texts), "in": chance.choice(self.inputs), "halt.img": HALT}


def call(path, words):
    """The status of a command and its errors; a signal's status is negative."""
    process = subprocess.Popen(
        [PROGRAM, *words.split()], cwd=path, stdin=subprocess.DEVNULL, stdout=subprocess.PIPE, stderr=subprocess.PIPE
    )
    resource.prlimit(process.pid, resource.RLIMIT_CPU, (SECONDS, SECONDS + 1))
    try:
        _, errors = process.communicate(timeout=WAIT)
    except subprocess.TimeoutExpired:
        process.kill()
        _, errors = process.communicate()
    return process.returncode, errors


def fault(command, status, errors):
    """What is wrong with an answer, or nothing."""
    if status in (-signal.SIGXCPU, -signal.SIGKILL):
        return f"no end in {SECONDS} s"
    if status < 0:
        return f"ended by signal {-status}"
    if status not in ALLOWED[command]:
        return f"status {status}, which {command} doesn't have"
    if status in REFUSALS and not re.fullmatch(rb"intermit: [^\n]+\n", errors):
        return f"status {status}, and not one line: {errors[:200]!r}"
    return None


def tried(task):
    """Makes the run of a number; gives its command and status, and where it is wrong what and the folder that is kept."""
    seed, number = task
    chance = random.Random(f"{seed}:{number}")
    words, name = TURNS[number % len(TURNS)]
    with tempfile.TemporaryDirectory() as path:
        for file, text in GIVEN.files(chance, name).items():
            with open(f"{path}/{file}", "wb") as out:
                out.write(text)
        status, errors = call(path, words)
        wrong = fault(words.split()[0], status, errors)
        kept = f"{TOP}/out/fuzz-{seed}-{number}"
        if wrong:
            shutil.copytree(path, kept, dirs_exist_ok=True)
            with open(f"{kept}/command", "w") as out:
                out.write(f"intermit {words}\n")
    return words.split()[0], status, wrong and f"run {number} of seed {seed}: {words}: {wrong}; its files: {kept}"


def within_limits():
    """Lowers the limits of a process that makes runs; its calls inherit them."""
    for kind, most in ((resource.RLIMIT_AS, MEMORY), (resource.RLIMIT_STACK, STACK), (resource.RLIMIT_CORE, 0)):
        resource.setrlimit(kind, (most, most))


def main():
    words = argparse.ArgumentParser(description=__doc__, formatter_class=argparse.RawDescriptionHelpFormatter)
    words.add_argument("--runs", type=int, default=2000, metavar="N", help="how many runs (default: 2000)")
    words.add_argument("--seed", type=int, default=1, metavar="S", help="begins the chance (default: 1)")
    words.add_argument("--first", type=int, default=0, metavar="N", help="the number of the first run (default: 0)")
    words.add_argument("--jobs", type=int, default=os.cpu_count(), metavar="N", help="runs side by side (default: all processors)")
    asked = words.parse_args()
    global PROGRAM, GIVEN, ALLOWED
    PROGRAM, ALLOWED = program.path(), statuses()
    with tempfile.TemporaryDirectory() as path:
        GIVEN = Given(path)
    print(f"seed {asked.seed}, runs {asked.first} to {asked.first + asked.runs - 1}", flush=True)
    begun, counts = time.monotonic(), collections.Counter()
    tasks = ((asked.seed, asked.first + number) for number in range(asked.runs))
    with multiprocessing.get_context("fork").Pool(asked.jobs, within_limits) as pool:
        for command, status, wrong in pool.imap_unordered(tried, tasks, chunksize=20):
            counts[command, status] += 1
            if wrong:
                print(wrong)
                return 1
    seconds = time.monotonic() - begun
    for (command, status), count in sorted(counts.items()):
        print(f"{command}: status {status}: {count}")
    print(f"{asked.runs} runs, 0 wrong ({seconds:.0f} s, {asked.runs / seconds:.1f} a second)")
    return 0


if __name__ == "__main__":
    sys.exit(main())
