"""Each exit status of docs/commands.md, by words, files and limits that give it."""
import os
import re
import resource

from base import Failed, Skipped, holds, same, test, text_of
from words import FAULT, HALT, image, memory

HELLO = "int main(void) { putchar(72); return 7; }\n"
CODE = HALT.to_bytes(4, "little") + bytes(4092)
DEEP = "int f(int n) { return f(n + 1) + 1; }\nint main(void) { return f(0); }\n"


# What is tried, the words, the status, and the last line on standard error (None: any).
ROWS = [
    ("a run that halts", "run hello.c x.img", 0, None),
    ("a build", "build hello.c x.img", 0, None),
    ("a dump", "dump halt.img", 0, None),
    ("an upgrade", "upgrade halt.img x.img", 0, None),
    ("a made source", "gen 1", 0, None),
    ("a source that is right", "check hello.c", 0, None),
    ("a run without stack", "run deep.c x.img", 1, None),
    ("an evaluation without stack", "eval deep.c --fuel 4294967295", 1, "intermit: stack exhausted"),
    ("no words", "", 2, None),
    ("a request for help", "--help", 2, None),
    ("an unknown word", "compile hello.c", 2, None),
    ("a word too few", "build hello.c", 2, None),
    ("a stack out of bounds", "build hello.c x.img --stack 255", 2, None),
    ("a number with a zero before it", "run hello.c x.img --steps 07", 2, None),
    ("a longest gap under 160", "report hello.c --max-gap 159", 2, None),
    ("a longest gap over 1000000", "run hello.c x.img --max-gap 1000001", 2, None),
    ("a longest gap of a stored image", "exec halt.img --max-gap 160", 2, None),
    ("a build of a longest gap", "build hello.c x.img --max-gap 160", 0, None),
    ("a made source of no function", "gen 0", 2, None),
    ("a made source over 300 functions", "gen 301", 2, None),
    ("a made source's number with a zero before it", "gen 01", 2, None),
    ("a source with a syntax error", "build broken.c x.img", 3, "intermit: broken.c:2: syntax"),
    ("a source with a rule broken", "report ruled.c", 3, "intermit: ruled.c:1: rule 18"),
    ("a source with a rule broken, checked", "check ruled.c", 3, None),
    ("a source over a limit", "eval sized.c", 3, "intermit: sized.c: size 1048577 over 1048576"),
    ("periods that are used up", "run hello.c x.img --steps 5", 4, None),
    ("bytes that are no image", "exec hello.c", 5, "intermit: hello.c: bad magic"),
    ("an image that is cut", "dump short.img", 5, "intermit: short.img: short image at 20"),
    ("an image with bytes behind it", "exec long.img", 5, "intermit: long.img: trailing bytes at 36"),
    ("a line that is no period", "exec halt.img --trace bad.trace", 6, "intermit: bad.trace: bad line 2"),
    ("a period no times", "exec halt.img --trace zero.trace", 6, "intermit: zero.trace: zero repeat at line 1"),
    ("too many periods", "exec halt.img --trace many.trace", 6, "intermit: many.trace: too many periods 1000001"),
    ("a file that isn't there", "build absent.c x.img", 7, "intermit: cannot read absent.c"),
    ("a folder for a file", "exec examples", 7, "intermit: cannot read examples"),
    ("an input that isn't there", "exec halt.img --input absent", 7, "intermit: cannot read absent"),
    ("a file that can't be written", "build hello.c absent/x.img", 8, "intermit: cannot write absent/x.img"),
    ("a word that is no instruction", "exec fault.img", 10, None),
    ("a division by zero", "eval zero.c", 11, "intermit: undefined U5"),
    ("an endless loop without fuel", "eval endless.c --fuel 100", 12, "intermit: out of fuel"),
    ("an input over its limit", "exec halt.img --input big", 13, "intermit: input of 1048577 bytes over 1048576"),
    ("a trace over its limit", "exec halt.img --trace huge", 14, "intermit: huge over 16777216 bytes"),
    ("a run that is saved", "run hello.c x.img --save x.mem", 0, None),
    ("a run that goes on", "exec halt.img --resume old.mem", 0, None),
    ("an upgrade of a memory", "upgrade old.mem x.mem", 0, None),
    ("a build that would be saved", "build hello.c x.img --save x.mem", 2, None),
    ("a new run that would go on", "run hello.c x.img --resume old.mem", 2, None),
    ("a memory that can't be written", "exec halt.img --save absent/x", 8, "intermit: cannot write absent/x"),
    ("a memory over its limit", "exec halt.img --resume huge", 14, "intermit: huge over 5248016 bytes"),
    ("bytes that are no memory", "exec halt.img --resume hello.c", 15, "intermit: hello.c: bad magic"),
    ("a memory that is cut", "upgrade short.mem x.mem", 15, "intermit: short.mem: short memory at 100"),
    ("a torn store under form 0", "exec halt.img --trace torn.trace", 16, "intermit: torn stores need form 1"),
    ("a memory of another form", "exec halt.img --resume new.mem", 17, "intermit: halt.img is form 0, new.mem is form 1"),
]

FILES = {
    "hello.c": HELLO,
    "deep.c": DEEP,
    "broken.c": "int main(void) {\n  return 1 +; }\n",
    "ruled.c": "int main(void) { return x; }\n",
    "sized.c": "char a[1048577];\nint main(void) { return 0; }\n",
    "zero.c": "int main(void) { int x = 0; return 1 / x; }\n",
    "endless.c": "int main(void) { for (;;) ; }\n",
    "halt.img": image(HALT),
    "fault.img": image(FAULT),
    "short.img": image(HALT)[:20],
    "long.img": image(HALT) + b"x",
    "old.mem": memory([(1, CODE)], form=0),
    "new.mem": memory([(1, CODE)], form=1),
    "short.mem": memory([(1, CODE)])[:100],
    "bad.trace": "10 0 5\nten\n",
    "zero.trace": "10 0 0\n",
    "many.trace": "10 0 1000001\n",
    "torn.trace": "10 0 1 5\n",
    "big": b"x" * 1_048_577,
    "huge": b"; " + b"x" * 16_777_216,
}


@test("each row of words gives its exit status and its line")
def rows(room):
    for name, text in FILES.items():
        room.file(name, text)
    for what, words, status, last in ROWS:
        done = room.call(*words.split())
        same(f"{what}: the status", done.status, status)
        if last:
            same(f"{what}: the last line", done.lines[-1:], [last])
        elif status > 2 and status not in (4, 10):
            holds(f"{what}: no line", done.err)


@test("a word that isn't UTF-8 is told by status 2")
def not_text(room):
    room.call("build", b"a\xff.c", "x.img").wants("the word", 2, b"", "intermit: a word isn't UTF-8")


@test("a run tells how it ended: out of power, a machine fault, without stack")
def endings(room):
    for name, text in FILES.items():
        room.file(name, text)
    ended = {
        "exec fault.img": "intermit: machine fault at 0x00001000",
        "run hello.c x.img --steps 5": "intermit: out of power",
        "run deep.c x.img": "intermit: stack exhausted",
    }
    for words, line in ended.items():
        holds(f"{words}: no line {line}", line in room.call(*words.split()).lines)


@test("memory that runs out is told by status 9, and leaves no image")
def no_memory(room):
    numbers = ",".join(map(str, range(100_000)))
    room.file("wide.c", f"int t[] = {{{numbers}}};\nint main(void) {{ return 0; }}\n")
    found = set()
    for room_of in (4, 8, 12, 16, 20, 24, 32, 48, 64, 96, 128, 192):
        limit = room_of * 1024 * 1024
        done = room.call("build", "wide.c", "x.img", ready=lambda: resource.setrlimit(resource.RLIMIT_AS, (limit, limit)))
        found.add(done.status)
        if done.status == 9:
            same("the line", done.lines, ["intermit: no memory"])
            holds("there is an image", not os.path.exists(room.path("x.img")))
        elif done.status not in (0, 127):  # 127: the host didn't load the program
            raise Failed(f"{room_of} MiB: status {done.status}: {done.err!r}")
        elif done.status == 0:
            break
    if 9 not in found:
        raise Skipped("this host starts no program under a limit of memory") if found != {0} else Failed("no limit gave 9")


@test("docs/commands.md names each exit status that is tested here, and no other")
def statuses_of_page(_):
    page = text_of("docs/commands.md").split("## Exit statuses")[1].split("\n## ")[0]
    named = {int(it) for it in re.findall(r"^\| (\d+) \|", page, re.M)}
    # 9 has a test above, 70 one among those of the script
    same("the statuses", named, {row[2] for row in ROWS} | {9, 70})
