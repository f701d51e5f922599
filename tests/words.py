"""Images of code by hand, in words of the RISC-V manual, that need no compiler."""
import struct

HALT, FAULT = 0x00100073, 0x00000000  # ebreak, and a word that is no instruction


def image(*words, cap=0, form=None):
    """The text of an image of these code words (docs/image.md), with the entry at its start: of version 1, or of version 2
    where there is a form."""
    head = [1 if form is None else 2, len(words), 0, 256, cap, 4096, 0] + ([] if form is None else [form])
    return b"IMRV" + struct.pack(f"<{len(head)}I{len(words)}I", *head, *words)


def memory(pages, form=1, version=2, count=None):
    """The text of a memory's file (docs/memory.md) with these pages, each a number and 4096 bytes."""
    head = [version, *([form] if version == 2 else []), len(pages) if count is None else count]
    return b"IMMM" + struct.pack(f"<{len(head)}I", *head) + b"".join(struct.pack("<I", number) + text for number, text in pages)


def upper(register, value):
    """lui"""
    return value << 12 | register << 7 | 0x37


def add_number(to, register, value):
    """addi"""
    return (value & 0xFFF) << 20 | register << 15 | to << 7 | 0x13


def constant(register, value):
    """lui and addi: any word"""
    low = (value & 0xFFF) - (value & 0x800) * 2
    return [upper(register, (value - low >> 12) & 0xFFFFF), add_number(register, register, low)]


def add(to, first, second):
    return second << 20 | first << 15 | to << 7 | 0x33


def load(to, at, offset):
    """lw"""
    return offset << 20 | at << 15 | 2 << 12 | to << 7 | 0x03


def store(value, at, offset):
    """sw"""
    return offset >> 5 << 25 | value << 20 | at << 15 | 2 << 12 | (offset & 31) << 7 | 0x23


def back_unless_same(first, second, words):
    """bne to so many words before it"""
    offset = -4 * words & 0x1FFF
    return offset >> 12 << 31 | (offset >> 5 & 63) << 25 | second << 20 | first << 15 | 1 << 12 | (offset >> 1 & 15) << 8 | (
        offset >> 11 & 1
    ) << 7 | 0x63


OUT_LEN0, IN_LEN = 0x0C, 0x14
# writes a MiB of words, each by a step more than the one before
STEP = 0x01234567
WRITER = image(
    upper(5, 0x400), upper(6, 0x500), upper(7, 0), upper(8, STEP >> 12), add_number(8, 8, STEP & 0xFFF),
    store(7, 5, 0), add(7, 7, 8), add_number(5, 5, 4), back_unless_same(5, 6, 3),
    upper(9, 0x100), store(9, 0, OUT_LEN0), HALT, cap=1 << 20,
)  # fmt: skip
WRITTEN = struct.pack("<262144I", *(it * STEP % 2**32 for it in range(262144)))
# copies all of a MiB of input, and shows as much of it as there was
COPY = image(
    upper(5, 0x300), upper(6, 0x400), upper(7, 0x400),
    load(8, 5, 0), store(8, 6, 0), add_number(5, 5, 4), add_number(6, 6, 4), back_unless_same(5, 7, 4),
    load(9, 0, IN_LEN), store(9, 0, OUT_LEN0), HALT, cap=1 << 20,
)  # fmt: skip
