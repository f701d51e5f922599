"""Streams and files as the host gives them: short writes, slow readers, full disks, closed streams."""
import fcntl
import os
import resource
import signal
import struct
import termios
import threading
import time

from base import Failed, holds, same, test
from words import WRITER, WRITTEN

NUMBERS = [it * 2654435761 % 2**31 for it in range(30_000)]
TABLE = "int t[] = {" + ",".join(map(str, NUMBERS)) + "};\nint main(void) { return t[0]; }\n"


def drained(descriptor, most, pause):
    """All bytes of a pipe, at most so many at a time, with a pause between them."""
    taken = []
    while text := os.read(descriptor, most):
        taken.append(text)
        time.sleep(pause)
    os.close(descriptor)
    return b"".join(taken)


def queued(descriptor):
    return struct.unpack("i", fcntl.ioctl(descriptor, termios.FIONREAD, b"\0" * 4))[0]


def interrupt(process, descriptor):
    """Stops and continues a process whose write waits for a full pipe: the host then tells it of a short write."""
    room_of = fcntl.fcntl(descriptor, getattr(fcntl, "F_GETPIPE_SZ", 1032))
    for _ in range(2000):
        if queued(descriptor) >= room_of:
            break
        time.sleep(0.005)
    else:
        raise Failed("the pipe was never full")
    time.sleep(0.05)
    process.send_signal(signal.SIGSTOP)
    time.sleep(0.05)
    process.send_signal(signal.SIGCONT)
    time.sleep(0.05)


def run_into(room, taking):
    """Runs the program with its output into a pipe, which `taking` empties; gives the bytes and the exit status."""
    ours, theirs = os.pipe()
    room.file("writer.img", WRITER)
    process = room.start("exec", "writer.img", stdout=theirs)
    os.close(theirs)
    text = taking(process, ours)
    process.communicate()
    return text, process.returncode


@test("output to a reader that is slow is whole")
def slow_reader(room):
    text, status = run_into(room, lambda _, pipe: drained(pipe, 4096, 0.002))
    same("status", status, 0)
    same("output", text, WRITTEN)


@test("output by short writes to a pipe is whole")
def short_output(room):
    def taking(process, pipe):
        interrupt(process, pipe)
        first = os.read(pipe, 65536)
        interrupt(process, pipe)
        return first + drained(pipe, 65536, 0)

    text, status = run_into(room, taking)
    same("status", status, 0)
    same("output", text, WRITTEN)


@test("an image by short writes to a pipe is whole")
def short_image(room):
    room.file("table.c", TABLE)
    room.build("table.c", "file.img")
    os.mkfifo(room.path("pipe.img"))
    process = room.start("build", "table.c", "pipe.img")
    pipe = os.open(room.path("pipe.img"), os.O_RDONLY)
    interrupt(process, pipe)
    text = drained(pipe, 65536, 0)
    process.communicate()
    same("status", process.returncode, 0)
    same("image", text, room.read("file.img"))


@test("a source and an input in small pieces are read whole")
def pieces(room):
    source = room.file("table.c", TABLE)
    room.build(source, "file.img")
    text = room.read(source)
    process = room.start("build", "/dev/stdin", "piped.img", stdin=-1)

    def give():
        at = 0
        while at < len(text):
            size = room.random.randrange(1, 9000)
            process.stdin.write(text[at : at + size])
            process.stdin.flush()
            at += size
            time.sleep(0.0005)
        process.stdin.close()

    giver = threading.Thread(target=give)
    giver.start()
    process.stderr.read()
    giver.join()
    same("status", process.wait(), 0)
    same("image", room.read("piped.img"), room.read("file.img"))


def limited(size):
    return lambda: resource.setrlimit(resource.RLIMIT_FSIZE, (size, size))


@test("an image that doesn't fit its disk is told by status 8, at each size")
def full_disk(room):
    room.file("table.c", TABLE)
    room.build("table.c", "whole.img")
    whole = room.read("whole.img")
    for size in (0, 4096, 65536, 100_000, len(whole) // 2, len(whole) - 1):
        room.call("build", "table.c", "cut.img", ready=limited(size)).wants(
            f"{size} bytes", 8, b"", "intermit: cannot write cut.img"
        )
        same(f"{size} bytes", room.read("cut.img"), whole[:size])
    room.call("build", "table.c", "cut.img", ready=limited(len(whole))).wants("all bytes", 0)
    same("all bytes", room.read("cut.img"), whole)
    status = room.call("build", "table.c", "cut.img", ready=limited(4096), is_default=True).status
    holds(f"status {status} where the host stops the program", status in (8, -signal.SIGXFSZ))


@test("output that doesn't fit its disk is told by status 8, at each size")
def full_output(room):
    room.file("writer.img", WRITER)
    for size in (0, 1, 4096, 65536, 400_000, len(WRITTEN) - 1, len(WRITTEN)):
        with open(room.path("out"), "wb") as out:
            done = room.call("exec", "writer.img", stdout=out, ready=limited(size))
        done.wants(f"{size} bytes", 0 if size == len(WRITTEN) else 8)
        same(f"{size} bytes", room.read("out"), WRITTEN[:size])


@test("/dev/full is told by status 8: as output, as errors, as IMG")
def dev_full(room):
    with open("/dev/full", "wb") as full:
        room.call("run", "examples/hello.c", "a.img", stdout=full).wants("output", 8, last="intermit: cannot write output")
        room.call("run", "examples/hello.c", "a.img", stderr=full).wants("errors", 8)
        room.call("dump", "examples/upper.img", stdout=full).wants("dump", 8, last="intermit: cannot write output")
    room.call("build", "examples/hello.c", "/dev/full").wants("IMG", 8, b"", "intermit: cannot write /dev/full")


@test("a reader that goes away is told by status 8, or stops the program")
def broken_pipe(room):
    def leaving(_, pipe):
        os.read(pipe, 100)
        os.close(pipe)
        return b""

    same("status", run_into(room, leaving)[1], 8)
    ours, theirs = os.pipe()
    os.close(ours)
    process = room.start("exec", "writer.img", stdout=theirs, is_default=True)
    os.close(theirs)
    process.communicate()
    holds(f"status {process.returncode}", process.returncode in (8, -signal.SIGPIPE))


@test("closed streams: the image is exact, and what can't be sent is told by status 8")
def closed(room):
    done = room.call("run", "examples/hello.c", "exact.img").wants("all open", 0)
    exact = room.read("exact.img")
    for closing, status in (([0], 0), ([1], 8), ([2], 8), ([0, 1], 8), ([0, 2], 8), ([1, 2], 8), ([0, 1, 2], 8)):
        ended = room.call(
            "run", "examples/hello.c", "made.img", stdin=None, ready=lambda it=closing: [os.close(number) for number in it]
        )
        same(f"streams {closing} closed: the status", ended.status, status)
        same(f"streams {closing} closed: the image", room.read("made.img"), exact)
        if 1 not in closing and 2 not in closing:
            same(f"streams {closing} closed: the output", ended.out, done.out)
        os.remove(room.path("made.img"))


@test("an image that is also the source, the input or the trace is a file like any other")
def one_file(room):
    text = room.read("examples/hello.c")
    room.file("a.c", text)
    room.call("build", "a.c", "b.img").wants("build", 0)
    room.call("build", "a.c", "a.c").wants("build over its source", 0)
    same("the image", room.read("a.c"), room.read("b.img"))
    room.file("a.c", text)
    room.call("build", "a.c", "absent/b.img").wants("a folder that isn't there", 8)
    same("the source", room.read("a.c"), text)
