#!/usr/bin/env python3
"""A board in a hundred lines: it loads an image, gives it power by a trace, takes power away, and goes on. The processor is
unicorn's, or a slow one in Python (rv32im.py), so nothing here comes from `intermit` but the image. It prints what `intermit
exec` prints, without the count of instructions. docs/board.md says what a board must do.

    tools/board.py IMG [--input F] [--trace F] [--vars] [--processor unicorn|python]
"""
import argparse
import struct
import sys

from image import CODE, Image, OUTPUT
from rv32im import Processor

try:
    from unicorn import UC_ARCH_RISCV, UC_HOOK_MEM_WRITE, UC_MODE_RISCV32, Uc, UcError
    from unicorn.riscv_const import UC_RISCV_REG_PC, UC_RISCV_REG_X0
except ImportError:
    Uc = None  # Debian has it as python3-unicorn, PyPI as unicorn

EBREAK, MEMORY = 0x00100073, 0x500000
FORMATS = "bBhHiI"  # of the cells of an image: I8, U8, I16, U16, I32, U32; 6 is a pointer
SIZES = (1, 1, 2, 2, 4, 4, 4)


class Unicorn:
    """Unicorn's processor, as rv32im.Processor is called."""

    def __init__(self, size):
        self.commits, self.cpu = 0, Uc(UC_ARCH_RISCV, UC_MODE_RISCV32)
        self.cpu.mem_map(0, size)
        self.cpu.hook_add(UC_HOOK_MEM_WRITE, self.written, None, 0, 3)
        self.read, self.x, self.pc = self.cpu.mem_read, [0] * 32, 0

    def written(self, _cpu, _kind, at, size, value, _data):
        before = bytes(self.read(at, size))
        self.commits += before != (value & (1 << 8 * size) - 1).to_bytes(size, "little")

    def write(self, at, text):
        before = self.read(0, 4)
        self.cpu.mem_write(at, bytes(text))
        self.commits += before != self.read(0, 4)

    def run(self, steps):
        for number in range(1, 32):
            self.cpu.reg_write(UC_RISCV_REG_X0 + number, self.x[number])
        try:
            if steps:
                self.cpu.emu_start(self.pc, 0xFFFFFFFF, count=steps)
            return ""
        except UcError:
            at = self.cpu.reg_read(UC_RISCV_REG_PC)
            return "halt" if int.from_bytes(self.read(at, 4), "little") == EBREAK else "fault"
        finally:
            self.pc = self.cpu.reg_read(UC_RISCV_REG_PC) if steps else self.pc
            self.x = [0, *(self.cpu.reg_read(UC_RISCV_REG_X0 + number) for number in range(1, 32))]


class Board:
    def __init__(self, image, given, processor):
        self.image, self.ended, self.cpu = image, "", processor(MEMORY)
        for at, text in image.loaded(given):
            self.cpu.write(at, text)

    def word(self, at, form="<I"):
        return struct.unpack(form, self.cpu.read(at, 4))[0]

    def period(self, steps, junk, mask):
        """Power for so many instructions; then it fails, and of the next store the bytes of the mask are written."""
        self.cpu.x, self.cpu.pc = [0, *[junk] * 31], CODE
        self.ended = self.cpu.run(steps)
        if mask and not self.ended:
            self.tear(mask)

    def tear(self, mask):
        word = self.word(self.cpu.pc)
        if word & 127 != 0x23:
            return  # the next instruction isn't a store
        offset = (word >> 25 << 5 | word >> 7 & 31) - (word >> 31 << 12)
        at = self.cpu.x[word >> 15 & 31] + offset & 0xFFFFFFFF
        text = self.cpu.read(at, 1 << (word >> 12 & 3))
        stored = struct.pack("<I", self.cpu.x[word >> 20 & 31])
        self.cpu.write(at, bytes(stored[it] if mask >> it & 1 else old for it, old in enumerate(text)))

    def output(self):
        is_second = self.image.form and self.cpu.read(0x24, 1)[0]
        return bytes(self.cpu.read(OUTPUT, min(self.word(0x20 if is_second else 0x0C), 0x100000)))

    def cells(self, start, runs):
        for offset, kind, count in runs:
            for at in range(start + offset, start + offset + count * SIZES[kind], SIZES[kind]):
                if kind < 6:
                    yield str(struct.unpack("<" + FORMATS[kind], self.cpu.read(at, SIZES[kind]))[0])
                else:
                    yield self.pointer(self.word(at))

    def pointer(self, value):
        within = [f"{name}+{value - at}" for at, size, name, _ in self.image.objects if at <= value <= at + size]
        return "null" if value == 0 else within[0] if within else "local"


def periods(text):
    """The periods of a trace: instructions, the word in the registers, the mask."""
    for line in text.splitlines():
        fields = line.split()
        if fields and not fields[0].startswith(";"):
            steps, junk, repeats, mask = [int(it) for it in fields] + [0, 0, 1, 0][len(fields) :]
            yield from ((steps, junk, mask) for _ in range(repeats))


def main():
    words = argparse.ArgumentParser(description=__doc__, formatter_class=argparse.RawDescriptionHelpFormatter)
    words.add_argument("image", metavar="IMG")
    words.add_argument("--input", metavar="F", help="the file that the program reads; else its input is empty")
    words.add_argument("--trace", metavar="F", help="the periods of power, as intermit exec reads them; else one of 100000000")
    words.add_argument("--vars", action="store_true", help="show the variables at the end")
    words.add_argument("--processor", choices=["unicorn", "python"], help="else unicorn's where the Python module is here")
    asked = words.parse_args()
    if asked.processor == "unicorn" and not Uc:
        sys.exit("board.py: the Python module unicorn isn't here: Debian has it as python3-unicorn, PyPI as unicorn")
    processor = Unicorn if Uc and asked.processor != "python" else Processor
    read = lambda name: open(name, "rb").read()
    board = Board(Image(read(asked.image)), read(asked.input) if asked.input else b"", processor)
    for steps, junk, mask in periods(read(asked.trace).decode() if asked.trace else "100000000"):
        board.period(steps, junk, mask)
        if board.ended:
            break
    sys.stdout.buffer.write(board.output())
    sys.stdout.flush()
    ended, status = {
        "": ("board: out of power", 4),
        "fault": (f"board: machine fault at 0x{board.cpu.pc:08x}", 10),
        "halt": (f"status {board.word(4, '<i')}", 0) if board.word(8) != 1 else ("board: stack exhausted", 1),
    }[board.ended]
    print(ended, f"commits {board.cpu.commits}", sep="\n", file=sys.stderr)
    for at, _, name, runs in board.image.objects if asked.vars else ():
        print("var", name, *board.cells(at, runs), file=sys.stderr)
    return status


if __name__ == "__main__":
    sys.exit(main())
