#!/usr/bin/env python3
"""What an image is for a board: the addresses that it touches, a flat binary of the memory that it is loaded with, Intel
HEX of it, or its code alone for a disassembler. docs/image.md has the format, docs/device.md the map of memory.

    tools/image.py map IMG           each range of addresses, what stands there, and its variables
    tools/image.py bin IMG OUT       memory from address 0 to the last byte that loading sets
    tools/image.py hex IMG OUT       the same as Intel HEX, its ranges alone
    tools/image.py code IMG OUT      the code's words, which begin at address 0x1000
"""
import argparse
import struct
import sys

CODE, STATICS, STACK_END, INPUT, OUTPUT = 0x1000, 0x100000, 0x300000, 0x300000, 0x400000
LOW_PAGE = 0x180  # the words of the low page and the two register buffers


class Image:
    """An image's parts, by docs/image.md; the format's rules aren't tested beyond what is read here."""

    def __init__(self, text):
        if len(text) < 32 or text[:4] != b"IMRV":
            raise ValueError("no image: it doesn't begin with IMRV")
        words, at = struct.unpack_from("<8I", text), 32
        self.version, count, size, self.stack, self.out_cap, self.entry, objects = words[1:]
        if self.version not in (1, 2):
            raise ValueError(f"an image of version {self.version}")
        self.form = 0
        if self.version == 2:
            self.form, at = struct.unpack_from("<I", text, at)[0], at + 4
        self.code, at = text[at : at + 4 * count], at + 4 * count
        self.statics, at = text[at : at + size], at + size
        self.objects = []
        for _ in range(objects):
            address, size, length, runs = struct.unpack_from("<4I", text, at)
            name, at = text[at + 16 : at + 16 + length].decode(), at + 16 + length
            cells = [struct.unpack_from("<3I", text, at + 12 * it) for it in range(runs)]
            self.objects.append((address, size, name, cells))
            at += 12 * runs
        if at != len(text):
            raise ValueError("no image: its bytes and its counts differ")

    def loaded(self, given):
        """The ranges of memory that loading sets, by address; all else is 0. `given` is the input."""
        low = bytearray(LOW_PAGE)
        for at, word in ((0x10, self.out_cap), (0x14, len(given)), (0x1C, STACK_END - self.stack),
                         (0x80, self.entry), (0x88, STACK_END)):
            struct.pack_into("<I", low, at, word)
        pieces = [(0, bytes(low)), (CODE, self.code), (STATICS, self.statics), (INPUT, given)]
        return [(at, text) for at, text in pieces if text]


def ranges(image, length):
    """The addresses that the image reads or writes, what stands there, and who writes there."""
    yield 0, 0x28, "INDEX to OUT_SEL", "the program"
    yield 0x80, 0x180, "two register buffers", "the program"
    yield CODE, CODE + len(image.code), "code", "nobody"
    yield STATICS, STATICS + len(image.statics), "statics", "the program"
    yield STACK_END - image.stack, STACK_END, "stack", "the program"
    yield INPUT, INPUT + length, "input", "nobody"
    yield OUTPUT, OUTPUT + image.out_cap, "output", "the program"


def show(image, length):
    for first, end, what, writer in ranges(image, length):
        if first < end:
            print(f"{first:08x} to {end - 1:08x} {end - first:8} bytes  {what}, written by {writer}")
    print(f"{image.entry:08x} entry; form {image.form}")
    for address, size, name, _ in image.objects:
        print(f"{address:08x} {size:8} bytes  var {name}")


def flat(pieces):
    memory = bytearray(max(at + len(text) for at, text in pieces))
    for at, text in pieces:
        memory[at : at + len(text)] = text
    return bytes(memory)


def record(address, kind, text):
    line = bytes([len(text), address >> 8 & 255, address & 255, kind]) + text
    return f":{line.hex().upper()}{-sum(line) & 255:02X}\n"


def intel_hex(pieces):
    lines, upper = [], None
    for start, text in pieces:
        for at in range(0, len(text), 16):
            address = start + at
            if address >> 16 != upper:
                upper = address >> 16
                lines.append(record(0, 4, struct.pack(">H", upper)))
            lines.append(record(address & 0xFFFF, 0, text[at : at + 16]))
    return "".join(lines) + record(0, 1, b"")


def main():
    words = argparse.ArgumentParser(description=__doc__, formatter_class=argparse.RawDescriptionHelpFormatter)
    words.add_argument("form", choices=["map", "bin", "hex", "code"])
    words.add_argument("image", metavar="IMG")
    words.add_argument("out", metavar="OUT", nargs="?")
    words.add_argument("--input", metavar="F", help="the file that the program reads")
    asked = words.parse_args()
    if (asked.out is None) != (asked.form == "map"):
        words.error("map takes IMG alone, the others take IMG and OUT")
    try:
        with open(asked.image, "rb") as file:
            image = Image(file.read())
        given = b""
        if asked.input:
            with open(asked.input, "rb") as file:
                given = file.read()
        if asked.form == "map":
            show(image, len(given))
            return 0
        made = {"bin": flat, "hex": lambda it: intel_hex(it).encode(), "code": lambda it: image.code}
        text = made[asked.form](image.loaded(given))
        with open(asked.out, "wb") as file:
            file.write(text)
    except (OSError, ValueError, struct.error) as fault:
        print(f"image.py: {asked.image}: {fault}", file=sys.stderr)
        return 1
    return 0


if __name__ == "__main__":
    sys.exit(main())
