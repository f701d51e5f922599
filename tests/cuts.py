"""Cuts and their causes, as `report` tells them."""
import struct
import sys

from base import TOP, holds, same, test
from power import EXAMPLES

sys.path.insert(0, TOP + "/tools")
from image import Image  # noqa: E402

LOAD, STORE, JAL = 0x03, 0x23, 0x6F


def dependences(room, source):
    """Of each cut by dependence: its own address, its function, and the addresses of its read and its write."""
    lines = room.call("report", source).wants("report", 0).out.decode().splitlines()
    words = [line.split() for line in lines if line.startswith("cut ")]
    return [(int(it[1], 16), it[2], int(it[4], 16), int(it[5], 16)) for it in words if it[3] == "dep"]


class Words:
    """The words of an image's code, numbered from 0x1000 on; what stands beside them is none of it."""

    def __init__(self, code):
        self.words = [word for (word,) in struct.iter_unpack("<I", code)]

    def has(self, k, opcode):
        return 0 <= k < len(self.words) and self.words[k] & 0x7F == opcode

    def links(self, k, register):
        """A jal that puts the address behind it into that register; of x0 it is a jump."""
        return self.has(k, JAL) and self.words[k] >> 7 & 31 == register

    def keeps_return(self, k):
        """sw x1, n(x2), with which a function begins."""
        return self.has(k, STORE) and (self.words[k] >> 12 & 7, self.words[k] >> 15 & 31, self.words[k] >> 20 & 31) == (2, 2, 1)


def number(address):
    """Of the word at an address, in hexadecimal digits."""
    return (int(address, 16) - 0x1000) // 4


# what the words around a cut, which is word k, show of its cause, and of the two addresses of a dependence
SHOWN = {
    "entry": lambda code, k: code.keeps_return(k - 1),
    "return": lambda code, k: code.links(k - 1, 1) or code.links(k + 1, 0),
    "loop": lambda code, k: code.links(k + 1, 0),
    "length": lambda code, k: code.has(k - 1, STORE) or code.has(k - 2, STORE),
    "gap": lambda code, k: True,
    "dep": lambda code, k, read, write: (
        code.has(number(read), LOAD) and code.has(number(write), STORE) and k < number(write) <= k + 3
    ),
}


@test("each cut of the code is told, with a cause that the words around it show")
def caused(room):
    seen = set()
    for name in EXAMPLES:
        for options in ((), ("--max-gap", "160")):
            source = f"crates/im_examples/data/{name}.c"
            room.call("build", source, "it.img", *options).wants(name, 0)
            code = Words(Image(room.read("it.img")).code)
            lines = [line.split() for line in room.call("report", source, *options).wants(name, 0).out.decode().splitlines()]
            cuts = [(number(words[1]), words[3], words[4:]) for words in lines if words[0] == "cut"]
            same(f"{name}: the cuts", [k for k, _, _ in cuts], [k for k in range(len(code.words)) if code.links(k, 3)])
            for k, cause, accesses in cuts:
                holds(f"{name}: word {k} is no {cause}", SHOWN[cause](code, k, *accesses))
                holds(f"{name}: a gap wasn't asked for", cause != "gap" or options)
                seen.add(cause)
    same("the causes that were seen", sorted(seen), sorted(SHOWN))


@test("pointers to two objects need no cut between them, and pointers to one do")
def pointers(room):
    text = "int a,b;int main(void){int*p;int*q;p=&a;q=&%s;*q=*p+1;return 0;}\n"
    for other, wanted in (("b", 0), ("a", 1)):
        room.file("pointers.c", text % other)
        found = [it for it in dependences(room, "pointers.c") if it[1] == "main"]
        same(f"cuts of q=&{other}", len(found), wanted)


def causes(done):
    """The cause of each cut that a report tells."""
    lines = [line.split() for line in done.out.decode().splitlines()]
    return [words[3] for words in lines if words[0] == "cut"]


@test("--max-gap bounds the longest gap, by cuts of their own cause")
def bounded(room):
    room.file("met.c", "int x;void f(int*p,int*q){*p=*q+1;}int main(void){f(&x,&x);f(&x,&x);return x;}\n")
    done = room.call("report", "met.c", "--max-gap", "160").wants("a met pointer", 0)
    holds("a met pointer: a longer gap", done.number("gap") <= 160)
    # no write meets a read, so without the option there is no cut in between
    room.file("long.c", "int a=7,b,c;int main(void){" + "b=a;c=a;" * 1000 + "return b;}\n")
    free = room.call("report", "long.c").wants("no bound", 0)
    holds("no bound: a short gap", free.number("gap") > 1000)
    same("no bound: gap cuts", causes(free).count("gap"), 0)
    for limit in (160, 300, 1000):
        done = room.call("run", "long.c", "it.img", "--max-gap", str(limit), "--vars").wants(f"at most {limit}", 0)
        gap = done.number("gap")
        holds(f"at most {limit}: {gap}", gap <= limit)
        report = room.call("report", "long.c", "--max-gap", str(limit)).wants(f"at most {limit}, reported", 0)
        same(f"at most {limit}, reported: the gap", report.number("gap"), gap)
        holds(f"at most {limit}: no gap cut", "gap" in causes(report))
        room.file("short.trace", f"{gap} 0 1000000\n")
        again = room.call("exec", "it.img", "--trace", "short.trace", "--vars").wants(f"at most {limit}, in short periods", 0)
        same(f"at most {limit}, in short periods: the status", again.number("status"), 7)
