"""What `gen` tells of the made sources, by their definition in docs/commands.md, and as any C compiler would run them."""
from base import same, test


def words(first):
    """The words of the sequence behind the first one."""
    while True:
        first = (1664525 * first + 1013904223) % 2**32
        yield first


def output(count):
    """The bytes that the made source of so many functions writes."""
    cells, x, written = [0] * 16, 1, []
    for word, _ in zip(words(count), range(count)):
        to, other, factor = word >> 28, word >> 24 & 15, word >> 8 & 65535
        cells[to] = (cells[other] + x * factor) % 2**32
        x ^= cells[to]
        written.append(x & 255)
    return written


@test("gen tells how long the output of a made source is and what it adds up to")
def sums(room):
    # 88, and 190 and 2, are worked out by hand
    same("the bytes of the first two", [output(1), output(2)], [[88], [190, 2]])
    for count in (1, 2, 3, 16, 17, 100):
        line = f"gen {count}: output {count} sum {sum(output(count))} status 0\n"
        room.call("gen", str(count)).wants(f"gen {count}", 0, line.encode(), None)


@test("gen 300 tells the same line each time")
def largest(room):
    line = f"gen 300: output 300 sum {sum(output(300))} status 0\n"
    for turn in ("first", "second"):
        done = room.call("gen", "300").wants(f"the {turn} time", 0, line.encode())
        same(f"standard error, the {turn} time", done.err, b"")


@test("gen touches no file, and tells a closed output")
def outside(room):
    with open("/dev/full", "wb") as full:
        process = room.start("gen", "1", stdout=full)
        err = process.communicate()[1]
    same("the status", process.returncode, 8)
    same("the line", err, b"intermit: cannot write output\n")
