"""Images, traces and sources that no compiler or tool makes: each has its one answer, and leaves no file behind."""
import os
import struct

from base import holds, same, test
from words import HALT, add_number, constant, image, store, upper

NOTHING = add_number(0, 0, 0)
FORMS = (None, 0, 1)  # version 1, and both forms of version 2
VAST = 0xFFFFFFFF

# Code words, the exit status, and the lines of the run.
CODE = [
    ("no instruction", [0], 10, "intermit: machine fault at 0x00001000", 0, 1),
    ("no instruction behind the code", [NOTHING], 10, "intermit: machine fault at 0x00001004", 0, 2),
    ("a jump into register buffer 0", [0x08000067], 10, "intermit: machine fault at 0x00000080", 0, 2),
    ("a jump to 2, where no instruction can stand", [0x00200067], 10, "intermit: machine fault at 0x00000002", 0, 2),
    ("a jump to behind all memory", [0xFFF00067], 10, "intermit: machine fault at 0xfffffffe", 0, 2),
    ("a word that is loaded from 2", [0x00202283], 10, "intermit: machine fault at 0x00001000", 0, 1),
    ("a load from behind memory", [0xFFFFF2B7, 0x0002A303], 10, "intermit: machine fault at 0x00001004", 0, 2),
    ("a store behind memory", [upper(5, 0x500), store(0, 5, 0)], 10, "intermit: machine fault at 0x00001004", 0, 2),
    ("INDEX made 7", [0x00700213, 0x00402023, HALT], 0, "status 0", 1, 3),
    ("a word of code that the code itself writes", [*constant(5, HALT), upper(6, 1), store(5, 6, 16), 0], 0, "status 0", 0, 5),
    ("a length of output without end", [0xFFF00293, 0x00502623, HALT], 0, "status 0", 0, 3),
    ("a jump to itself", [0x0000006F], 4, "intermit: out of power", 0, 1000),
]

# Fields of the header by their numbers, with other values, and the refusal; N is the length of the image.
HEADERS = [
    ({1: 0}, "bad magic"),
    *(({2: it}, f"bad version {it}") for it in (0, 3, VAST)),
    *(({3: it}, "bad field 3") for it in (0, 261121, VAST)),
    ({3: 2}, "short image at N"),
    *(({4: it}, "bad field 4") for it in (2, 1048580, VAST)),
    ({4: 4}, "short image at N"),
    *(({5: it}, "bad field 5") for it in (0, 255, 1048577, VAST)),
    *(({6: it}, "bad field 6") for it in (1048577, VAST)),
    *(({7: it}, "bad field 7") for it in (0, 4092, 4097, 4100, VAST)),
    *(({8: it}, "bad field 8") for it in (1, VAST)),
    ({3: 0, 4: 2, 5: 0}, "bad field 3"),
]
VERSIONS = [
    (None, {2: 2}, "bad field 9"),
    (0, {2: 1}, "trailing bytes at 36"),
    (0, {9: 2}, "bad field 9"),
    (0, {9: VAST}, "bad field 9"),
]

# An object over eight bytes of statics: address, size, bytes of the name, name, number of runs, runs; the refusal, if there
# is one. F is the number of the field that objects are.
WHOLE = [(0, 4, 2)]
OBJECTS = [
    ((0x100000, 8, 1, b"x", 1, WHOLE), None),
    ((0xFFFFF, 8, 1, b"x", 1, WHOLE), "bad field F"),
    ((0x100001, 8, 1, b"x", 1, WHOLE), "bad field F"),
    ((0x100000, 0, 1, b"x", 1, WHOLE), "bad field F"),
    ((0x100000, VAST, 1, b"x", 1, WHOLE), "bad field F"),
    ((0xFFFFFFFC, 0x100008, 1, b"x", 1, WHOLE), "bad field F"),
    ((0x100000, 8, 0, b"", 1, WHOLE), "bad field F"),
    ((0x100000, 8, 3, b"a b", 1, WHOLE), "bad field F"),
    ((0x100000, 8, VAST, b"x", 1, WHOLE), "short image at N"),
    ((0x100000, 8, 1, b"x", 0, []), "bad field F"),
    ((0x100000, 8, 1, b"x", VAST, WHOLE), "short image at N"),
    ((0x100000, 8, 1, b"x", 1, [(0, 7, 1)]), "bad field F"),
    ((0x100000, 8, 1, b"x", 1, [(0, 4, 0)]), "bad field F"),
    ((0x100000, 8, 1, b"x", 1, [(0, 4, 3)]), "bad field F"),
    ((0x100000, 8, 1, b"x", 1, [(0, 4, 0x40000001)]), "bad field F"),
    ((0x100000, 8, 1, b"x", 1, [(VAST - 3, 4, 1)]), "bad field F"),
    ((0x100000, 8, 1, b"x", 1, [(1, 4, 1)]), "bad field F"),
    ((0x100000, 8, 1, b"x", 2, [(0, 4, 1), (4, 4, 1)]), "bad field F"),
    ((0x100000, 8, 1, b"x", 2, [(4, 4, 1), (0, 0, 1)]), "bad field F"),
]

# A trace over two instructions, of which the second halts, and the refusal or how many were executed.
TRACES = [
    *((it, "bad line 1") for it in (b"1 2 3 4 5", b"-1", b"+1", b"1,2", b"0x1", b"1e3", b"1.", b"\0", b"1\0", b"\xd9\xa1", b"1;")),
    *((it, "bad line 1") for it in (b"4294967296", b"18446744073709551617", b"1 4294967296", b"1 0 1 16", b"1 0 0 16")),
    (b"1\n\n;x\nx\n1 0 0\n", "bad line 4"),
    (b"1 0 0\nx\n", "zero repeat at line 1"),
    (b"1 0 1000001", "too many periods 1000001"),
    (b"1 0 1000000\n1", "too many periods 1000001"),
    (b"1 0 4294967295\n" * 3, "too many periods 12884901885"),
    (b"", 0),
    (b"0" * 20 + b"1", 1),
    (b"0" * 1_000_000 + b"1", 1),
    (b" " * 1_000_000 + b"1", 1),
    (b" ;x\n \t\r\n1\r\n", 1),
    (b"1 4294967295\r\r\n", 1),
    (b"0 0 1000000", 0),
]

# A source, and its refusal.
SOURCES = [
    (b"(" * 1_048_576, ":1: nesting over 200"),
    (b" " * 4_194_305, ": source 4194305 over 4194304"),
    (b"int a" + b"[1]" * 500_000 + b";", ":1: dimensions over 512"),
    (b"int a;\nint b=a" + b"[0]" * 500_000 + b";", ":2: dimensions over 512"),
    (b"int a=(1;\nint b" + b"[1]" * 500_000 + b";", ":1: syntax"),
    (b"typedef int t" + b"[1]" * 251 + b";", ": derivations 251 over 250"),
    (b"", ":1: syntax"),
    (b"\n" * 1_000_000, ":1000001: syntax"),
    (b"\0", ":1: bad byte"),
    (b"int x;\n\xef\xbb\xbf", ":2: bad byte"),
    (b"int x;\n/*", ":2: open comment"),
    (b"\"", ":1: open literal"),
    (b"'ab'", ":1: open literal"),
    (b"'\\x100'", ":1: bad escape"),
    (b"08", ":1: bad number"),
    (b"9" * 1_000_000, ":1: bad number"),
    (b"\n#x", ":2: bad directive"),
]


def with_fields(text, fields):
    """An image with other words in its header."""
    text = bytearray(text)
    for field, value in fields.items():
        struct.pack_into("<I", text, 4 * (field - 1), value)
    return bytes(text)


def with_object(form, parts):
    """An image that halts, with this object."""
    at, size, length, name, count, runs = parts
    text = with_fields(image(HALT, form=form), {4: 8, 8: 1}) + bytes(8)
    return text + struct.pack("<4I", at, size, length, count) + name + b"".join(struct.pack("<3I", *it) for it in runs)


def refused(room, what, text, line):
    """Sees that each command on images refuses these bytes by this line, and makes no file."""
    room.file("x.img", text)
    line = "intermit: x.img: " + line.replace("at N", f"at {len(text)}")
    for words in ("exec x.img", "dump x.img", "upgrade x.img new.img"):
        done = room.call(*words.split()).wants(f"{what}: {words}", 5, b"")
        same(f"{what}: {words}: the lines", done.lines, [line])
    holds(f"{what}: there is a new image", not os.path.exists(room.path("new.img")))


@test("hostile code: each run has its one end, in each version and form")
def code(room):
    for what, words, status, ending, commits, instructions in CODE:
        for form in FORMS:
            room.file("x.img", image(*words, form=form))
            done = room.call("exec", "x.img", "--steps", "1000")
            done.wants(what, status, bytes(1_048_576) if what.startswith("a length") else b"")
            same(f"{what}: the lines", done.lines, [ending, f"commits {commits}", f"instructions {instructions}"])


@test("hostile headers: each image is refused by the first field that is wrong, in each version and form")
def headers(room):
    rows = [(form, fields, line) for fields, line in HEADERS for form in FORMS] + VERSIONS
    for form, fields, line in rows:
        refused(room, f"fields {fields} of form {form}", with_fields(image(HALT, form=form), fields), line)


@test("hostile objects: no sum wraps, no count is believed")
def objects(room):
    for parts, line in OBJECTS:
        for form in (None, 1):
            text = with_object(form, parts)
            if line:
                refused(room, f"object {parts}", text, line.replace("F", "9" if form is None else "10"))
            else:
                room.file("x.img", text)
                room.call("exec", "x.img", "--vars").wants("an object", 0, b"", "var x 0 0")


@test("fronts of an image are short, and a byte more is one too many")
def fronts(room):
    for form in FORMS:
        text = image(HALT, form=form)
        for length in range(0, len(text), 5):
            refused(room, "a front", text[:length], "short image at N")
        refused(room, "a byte more", text + b"\0", f"trailing bytes at {len(text)}")


@test("hostile traces: each is refused by its first wrong line, or its periods are those that it says")
def traces(room):
    room.file("x.img", image(NOTHING, HALT))
    for text, answer in TRACES:
        room.file("t", text)
        done = room.call("exec", "x.img", "--trace", "t")
        what = f"trace {text[:20]!r}"
        if isinstance(answer, str):
            same(what, (done.status, done.lines), (6, [f"intermit: t: {answer}"]))
        else:
            same(what, (done.status, done.lines), (4, ["intermit: out of power", "commits 0", f"instructions {answer}"]))


@test("torn stores: of INDEX the lowest byte counts, and form 0 has none")
def torn(room):
    flip = [0x00002203, 0x00124213, 0x00402023]
    for mask in range(16):
        room.file("t", f"2 0 1 {mask}\n")
        for form in FORMS:
            room.file("x.img", image(*flip, form=form))
            done = room.call("exec", "x.img", "--trace", "t")
            ending = ["intermit: out of power", f"commits {mask & 1}", "instructions 2"]
            wanted = (4, ending) if form or not mask else (16, ["intermit: torn stores need form 1"])
            same(f"mask {mask} of form {form}", (done.status, done.lines), wanted)


@test("hostile sources: each is refused by its line, or its count, and makes no image")
def sources(room):
    for text, line in SOURCES:
        room.file("s.c", text)
        for words in ("build s.c x.img", "report s.c", "eval s.c"):
            done = room.call(*words.split()).wants(f"source {text[:20]!r}: {words}", 3, b"")
            same(f"source {text[:20]!r}: {words}", done.lines, [f"intermit: s.c{line}"])
        holds("there is an image", not os.path.exists(room.path("x.img")))
