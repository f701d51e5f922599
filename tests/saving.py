"""Memory files: runs that are saved and resumed, hostile files, older versions, and other forms."""
import os
import struct

from base import holds, same, test
from words import HALT, image, memory

FLIP = [0x00002203, 0x00124213, 0x00402023]  # INDEX changes by its third instruction
PAGE = b"\x07" + bytes(4095)
VAST = 0xFFFFFFFF
LIMIT = 5_248_016

# The bytes of a memory's file, and the refusal; N is how many there are.
HOSTILE = [
    (b"", "short memory at N"),
    (b"IM", "short memory at N"),
    (b"IMM", "short memory at N"),
    (b"IMMN", "bad magic"),
    (b"IMRV" + bytes(32), "bad magic"),
    (b"IMMM", "short memory at N"),
    *((b"IMMM" + struct.pack("<I", it), f"bad version {it}") for it in (0, 3, VAST)),
    (b"IMMM" + struct.pack("<I", 2), "short memory at N"),
    *((b"IMMM" + struct.pack("<2I", 2, it), f"bad form {it}") for it in (2, 256, VAST)),
    (b"IMMM" + struct.pack("<2I", 2, 1) + bytes(3), "short memory at N"),
    *((b"IMMM" + struct.pack("<3I", 2, 1, it), f"bad pages {it}") for it in (1281, VAST)),
    *((b"IMMM" + struct.pack("<2I", 1, it), f"bad pages {it}") for it in (1281, VAST)),
    (b"IMMM" + struct.pack("<3I", 2, 1, 1), "short memory at N"),
    *((b"IMMM" + struct.pack("<4I", 2, 1, 1, it), f"bad page {it}") for it in (1280, VAST)),
    (memory([(1279, PAGE)])[:-1], "short memory at N"),
    (memory([(1, bytes(4096))]), "bad page 1"),
    (memory([(0, PAGE), (0, PAGE)]), "bad page 0"),
    (memory([(5, PAGE), (4, PAGE)]), "bad page 4"),
    (memory([(5, PAGE), (6, bytes(4096))]), "bad page 6"),
    (memory([(5, PAGE), (6, PAGE)])[: 16 + 4100 + 3], "short memory at N"),
    (memory([(5, PAGE), (6, PAGE)], count=3), "short memory at N"),
    (memory([(5, PAGE), (6, PAGE)], count=1), "trailing bytes at 4116"),
    (memory([]) + b"\0", "trailing bytes at 16"),
    (memory([], version=1) + b"\0", "trailing bytes at 12"),
]


def exec_done(room, what, status, *words):
    return room.call("exec", *words).wants(what, status, b"")


@test("the memory that a run leaves is saved, and a run begins with it")
def saved(room):
    room.file("halt.img", image(HALT))
    exec_done(room, "the first", 0, "halt.img", "--save", "m")
    text = room.read("m")
    same("bytes", len(text), 16 + 2 * 4100)
    same("the header", text[:16], b"IMMM" + struct.pack("<3I", 2, 0, 2))
    same("the pages", [struct.unpack("<I", text[at : at + 4])[0] for at in (16, 4116)], [0, 1])
    done = exec_done(room, "the second", 0, "halt.img", "--resume", "m")
    same("the lines", done.lines, ["status 0", "commits 0", "instructions 1"])
    done = exec_done(room, "no input is looked at", 0, "halt.img", "--resume", "m", "--input", "absent")
    same("the lines", done.lines, ["status 0", "commits 0", "instructions 1"])
    room.file("cut", text[:100])
    done = exec_done(room, "a cut one", 15, "halt.img", "--resume", "cut")
    same("its line", done.lines, ["intermit: cut: short memory at 100"])


@test("two runs over a saved memory leave what one run under both traces leaves")
def joined(room):
    room.file("one", "3\n")
    room.file("both", "3 0 2\n")
    for form in (None, 0, 1):
        room.file("flip.img", image(*FLIP, form=form))
        exec_done(room, "the first", 4, "flip.img", "--trace", "one", "--save", "m")
        done = exec_done(room, "the second", 4, "flip.img", "--trace", "one", "--resume", "m", "--save", "m")
        same("the second's lines", done.lines, ["intermit: out of power", "commits 1", "instructions 3"])
        exec_done(room, "both", 4, "flip.img", "--trace", "both", "--save", "n")
        same("the memories", room.read("m"), room.read("n"))


@test("a program that is saved at any place goes on to the same end")
def program(room):
    gap = room.build("examples/sums.c").number("gap")
    room.file("steady", "4294967295\n")
    whole = room.call("exec", "made.img", "--vars", "--save", "end").wants("with power", 0)
    end = room.read("end")
    for turn in range(12):
        steps, mask = room.random.randrange(6 * gap), room.random.randrange(16)
        first = f"{steps} {room.random.randrange(2**32)} 1 {mask}\n" * (turn + 1)
        second = f"{gap} {room.random.randrange(2**32)} 900000 {mask}\n"
        room.file("first", first)
        room.file("second", second)
        room.file("both", first + second)
        begun = room.call("exec", "made.img", "--trace", "first", "--save", "m")
        holds(f"status {begun.status}", begun.status in (0, 4))
        holds("the output is no prefix", whole.out.startswith(begun.out))
        done = room.call("exec", "made.img", "--resume", "m", "--trace", "second", "--save", "m", "--vars")
        done.wants("the rest", 0, whole.out)
        same("the variables", done.lines[-1], whole.lines[-1])
        if begun.status == 4:
            room.call("exec", "made.img", "--trace", "both", "--save", "n").wants("both", 0, whole.out)
            same("the memories", room.read("m"), room.read("n"))
    same("the end is saved once", room.read("end"), end)


@test("run stores its image and its last memory, and shows what it shows without")
def run_saves(room):
    plain = room.call("run", "examples/sums.c", "a.img", "--vars").wants("plain", 0)
    saving = room.call("run", "examples/sums.c", "b.img", "--vars", "--save", "m").wants("saving", 0, plain.out)
    same("the lines", saving.lines, plain.lines)
    same("the images", room.read("a.img"), room.read("b.img"))
    done = room.call("exec", "b.img", "--resume", "m", "--vars").wants("resumed", 0, plain.out)
    same("the variables", done.lines[-1], plain.lines[-1])


@test("memory files of version 1 are read, and upgraded; upgrading twice gives the same bytes")
def versions(room):
    room.file("halt.img", image(HALT))
    exec_done(room, "the first", 0, "halt.img", "--save", "m")
    new = room.read("m")
    old = new[:4] + struct.pack("<I", 1) + new[12:]
    room.file("old", old)
    same("bytes of version 1", len(old), 12 + 2 * 4100)
    done = exec_done(room, "resumed", 0, "halt.img", "--resume", "old")
    same("the lines", done.lines, ["status 0", "commits 0", "instructions 1"])
    room.call("upgrade", "old", "new").wants("the first upgrade", 0, b"version 1 to 2\n")
    same("its bytes", room.read("new"), new)
    room.call("upgrade", "new", "again").wants("the second", 0, b"version 2 to 2\n")
    same("its bytes", room.read("again"), new)
    room.call("upgrade", "again", "again").wants("onto itself", 0, b"version 2 to 2\n")
    same("its bytes", room.read("again"), new)


@test("hostile memory files: each is refused by the first thing that is wrong, and makes no file")
def hostile(room):
    room.file("halt.img", image(HALT, form=1))
    for text, line in HOSTILE:
        room.file("m", text)
        line = "intermit: m: " + line.replace("at N", f"at {len(text)}")
        what = f"{text[:20]!r} of {len(text)}"
        done = exec_done(room, what, 15, "halt.img", "--resume", "m", "--save", "new")
        same(f"{what}: the lines", done.lines, [line])
        if text[:4] == b"IMMM":
            done = room.call("upgrade", "m", "new").wants(f"{what}: upgrade", 15, b"")
            same(f"{what}: upgrade: the lines", done.lines, [line])
        holds(f"{what}: there is a new file", not os.path.exists(room.path("new")))
    room.file("m", b"IMM")
    done = room.call("upgrade", "m", "new").wants("no memory's front", 5, b"")
    same("no memory's front: the lines", done.lines, ["intermit: m: short image at 3"])


@test("all 1280 pages are a memory, and a byte more is over the limit")
def whole(room):
    room.file("halt.img", image(HALT, form=1))
    code = struct.pack("<I", HALT) + b"\1" * 4092
    text = memory([(it, code if it == 1 else b"\1" * 4096) for it in range(1280)])
    same("bytes", len(text), LIMIT)
    room.file("m", text)
    done = room.call("exec", "halt.img", "--resume", "m", "--save", "n")
    same("the status line", done.lines[0], "status 16843009")
    same("the memory", room.read("n"), text)
    room.file("m", text + b"\1")
    done = exec_done(room, "a byte more", 14, "halt.img", "--resume", "m")
    same("the lines", done.lines, [f"intermit: m over {LIMIT} bytes"])
    done = room.call("upgrade", "m", "n").wants("upgrade", 15, b"")
    same("upgrade: the lines", done.lines, [f"intermit: m: trailing bytes at {LIMIT}"])


@test("an image and a memory of other forms are told by status 17, behind the memory and before the trace")
def forms(room):
    room.file("old.img", image(HALT))
    room.file("new.img", image(HALT, form=1))
    for name in ("old", "new"):
        exec_done(room, name, 0, f"{name}.img", "--save", f"{name}.mem")
    for one, form, two, other in (("old", 0, "new", 1), ("new", 1, "old", 0)):
        line = f"intermit: {one}.img is form {form}, {two}.mem is form {other}"
        done = exec_done(room, one, 17, f"{one}.img", "--resume", f"{two}.mem", "--trace", "absent", "--save", "m")
        same("the lines", done.lines, [line])
    room.file("cut", room.read("old.mem")[:100])
    done = exec_done(room, "a cut one", 15, "new.img", "--resume", "cut")
    same("the lines", done.lines, ["intermit: cut: short memory at 100"])
    room.file("torn", "1 0 1 5\n")
    exec_done(room, "a torn store", 16, "old.img", "--resume", "old.mem", "--trace", "torn", "--save", "m")
    holds("there is a memory", not os.path.exists(room.path("m")))


@test("a memory that can't be stored is told by its line alone, before the output; it is stored where that can't be sent")
def unwritable(room):
    for name in ("absent/m", "examples", "", "/dev/full"):
        done = room.call("run", "examples/sums.c", "it.img", "--vars", "--save", name).wants(f"save {name!r}", 8, b"")
        same(f"save {name!r}: the lines", done.lines, [f"intermit: cannot write {name}"])
        holds("the image is stored", room.read("it.img"))
    with open("/dev/full", "wb") as full:
        done = room.call("exec", "it.img", "--save", "m", stdout=full).wants("no output", 8)
    same("no output: the lines", done.lines, ["intermit: cannot write output"])
    room.call("exec", "it.img", "--resume", "m").wants("resumed", 0)
