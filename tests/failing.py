"""Files that can't be read, images that can't be written and streams that take nothing, for each command: the status, the line,
and what then stands under the image's name."""
import os

from base import holds, same, test
from words import HALT, image

HELLO = "int main(void) { putchar(72); return 7; }\n"
LONG = "x" * 300
UNREADABLE = ("absent", "examples", "hello.c/x", "loop", "", LONG, "/proc/self/mem")
UNWRITABLE = ("absent/x", "examples", "hello.c/x", "loop", "", LONG, "/dev/full")
# words with the place of a file that is read, and whether the image is stored before that
READS = [
    ("build * new.img", False),
    ("run * new.img", False),
    ("report *", False),
    ("check *", False),
    ("eval *", False),
    ("exec *", False),
    ("dump *", False),
    ("upgrade * new.img", False),
    ("exec halt.img --input *", False),
    ("exec halt.img --trace *", False),
    ("exec halt.img --resume *", False),
    ("eval hello.c --input *", False),
    ("run hello.c new.img --input *", True),
    ("run hello.c new.img --trace *", True),
]
WRITES = ("build hello.c *", "run hello.c *", "upgrade halt.img *", "exec halt.img --save *")
# of two things that are wrong, which is told
ORDER = [
    ("run hello.c absent/x --input in --trace t", 8, "cannot write absent/x"),
    ("run hello.c new.img --input in --trace t", 7, "cannot read in"),
    ("run broken.c absent/x --input in", 3, "broken.c:1: syntax"),
    ("exec hello.c --input in", 5, "hello.c: bad magic"),
    ("exec halt.img --trace t --input big", 13, "input of 1048577 bytes over 1048576"),
    ("exec halt.img --trace t --input in", 7, "cannot read in"),
    ("exec halt.img --trace hello.c --input in", 7, "cannot read in"),
    ("upgrade hello.c absent/x", 5, "hello.c: bad magic"),
    ("upgrade in absent/x", 7, "cannot read in"),
]
# what a command shows: its words, and the streams that it writes to
SHOWS = [
    ("build hello.c new.img", (1,)),
    ("run hello.c new.img", (1, 2)),
    ("exec hello.img", (1, 2)),
    ("eval hello.c", (1, 2)),
    ("report hello.c", (1,)),
    ("dump hello.img", (1,)),
    ("upgrade hello.img new.img", (1,)),
]
REFUSED = [("report broken.c", 3), ("exec hello.c", 5), ("build absent new.img", 7), ("build hello.c absent/x", 8), ("report", 2)]


def words_of(line, name):
    return [name if it == "*" else it for it in line.split()]


def prepared(room):
    """Files of the rows; gives the image of the first."""
    room.file("hello.c", HELLO)
    room.file("broken.c", "int main(void) { return +; }\n")
    room.file("halt.img", image(HALT))
    room.file("big", b"x" * 1_048_577)
    os.symlink("loop", room.path("loop"))
    room.build("hello.c", "hello.img")
    return room.read("hello.img")


def taken(room, name):
    """The bytes of a file, which goes again, if it is there."""
    if not os.path.exists(room.path(name)):
        return None
    text = room.read(name)
    os.remove(room.path(name))
    return text


@test("files that can't be read are told by status 7, by each command")
def unreadable(room):
    built = prepared(room)
    for line, is_stored in READS:
        for name in UNREADABLE:
            done = room.call(*words_of(line, name)).wants(f"{line}, {name[:20]!r}", 7, b"")
            same(f"{line}, {name[:20]!r}: the lines", done.lines, [f"intermit: cannot read {name}"])
            same(f"{line}, {name[:20]!r}: the image", taken(room, "new.img"), built if is_stored else None)


@test("images that can't be written are told by status 8, by each command, and change no file")
def unwritable(room):
    prepared(room)
    for line in WRITES:
        for name in UNWRITABLE:
            done = room.call(*words_of(line, name)).wants(f"{line}, {name[:20]!r}", 8, b"")
            same(f"{line}, {name[:20]!r}: the lines", done.lines, [f"intermit: cannot write {name}"])
    same("the source", room.read("hello.c"), HELLO.encode())
    same("the image", room.read("halt.img"), image(HALT))


@test("of two files that fail, the one that is looked at first is told")
def order(room):
    prepared(room)
    for line, status, text in ORDER:
        done = room.call(*line.split()).wants(line, status, b"")
        same(f"{line}: the lines", done.lines, [f"intermit: {text}"])


def failing(number):
    """The ways in which a stream takes nothing: what a call is given for each."""
    name = {1: "stdout", 2: "stderr"}[number]
    full = os.open("/dev/full", os.O_WRONLY)
    reader, pipe = os.pipe()
    os.close(reader)
    yield "full", {name: full}
    yield "without a reader", {name: pipe}
    yield "closed", {"ready": lambda: os.close(number)}
    os.close(full)
    os.close(pipe)


@test("streams that take nothing are told by status 8, by each command, and the image is whole")
def streams(room):
    built = prepared(room)
    for line, numbers in SHOWS:
        for number in numbers:
            for how, given in failing(number):
                what = f"{line}, stream {number} {how}"
                done = room.call(*line.split(), **given).wants(what, 8)
                if number == 1:
                    same(f"{what}: the last line", done.lines[-1:], ["intermit: cannot write output"])
                if "new.img" in line:
                    same(f"{what}: the image", taken(room, "new.img"), built)


@test("a refusal keeps its status where its line can't be sent")
def refused(room):
    prepared(room)
    for line, status in REFUSED:
        for how, given in failing(2):
            room.call(*line.split(), **given).wants(f"{line}, {how}", status, b"")
            holds(f"{line}: there is an image", taken(room, "new.img") is None)
