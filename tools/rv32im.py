"""A processor for RV32IM in plain Python, from the tables of the RISC-V manual (unprivileged, RV32I 2.1 and M 2.0). It is slow,
some hundred thousand instructions a second, and needs nothing. It shares nothing with the machine of `intermit exec`."""

HALT = 0x00100073  # ebreak
WORD = 0xFFFFFFFF


def signed(value, bits=32):
    return value - (1 << bits) if value >> bits - 1 & 1 else value


def divided(a, b):
    """div and rem: toward zero; a zero divisor gives all ones and the dividend."""
    if b == 0:
        return -1, a
    quotient = abs(a) // abs(b) * (1 if (a < 0) == (b < 0) else -1)
    return quotient, a - quotient * b


REGISTERS = {  # by funct7 and funct3: two registers
    (0, 0): lambda a, b: a + b, (32, 0): lambda a, b: a - b, (0, 1): lambda a, b: a << (b & 31),
    (0, 2): lambda a, b: signed(a) < signed(b), (0, 3): lambda a, b: a < b, (0, 4): lambda a, b: a ^ b,
    (0, 5): lambda a, b: a >> (b & 31), (32, 5): lambda a, b: signed(a) >> (b & 31),
    (0, 6): lambda a, b: a | b, (0, 7): lambda a, b: a & b,
    (1, 0): lambda a, b: a * b, (1, 1): lambda a, b: signed(a) * signed(b) >> 32,
    (1, 2): lambda a, b: signed(a) * b >> 32, (1, 3): lambda a, b: a * b >> 32,
    (1, 4): lambda a, b: divided(signed(a), signed(b))[0], (1, 5): lambda a, b: divided(a, b)[0],
    (1, 6): lambda a, b: divided(signed(a), signed(b))[1], (1, 7): lambda a, b: divided(a, b)[1],
}  # fmt: skip
BRANCHES = {  # by funct3
    0: lambda a, b: a == b, 1: lambda a, b: a != b, 4: lambda a, b: signed(a) < signed(b),
    5: lambda a, b: signed(a) >= signed(b), 6: lambda a, b: a < b, 7: lambda a, b: a >= b,
}  # fmt: skip


class Fault(Exception):
    pass


class Processor:
    def __init__(self, size):
        self.memory, self.x, self.pc, self.commits = bytearray(size), [0] * 32, 0, 0

    def read(self, at, size):
        return self.memory[at : at + size]

    def write(self, at, text):
        """Stores bytes; a change of the word INDEX at 0 is a commit."""
        before = self.memory[0:4]
        self.memory[at : at + len(text)] = text
        self.commits += at < 4 and before != self.memory[0:4]

    def place(self, at, size):
        at &= WORD
        if at % size or at + size > len(self.memory):
            raise Fault
        return at

    def run(self, steps):
        """So many instructions, or fewer where one ends the run: gives "halt", "fault", or "" where it goes on."""
        try:
            for _ in range(steps):
                word = int.from_bytes(self.read(self.place(self.pc, 4), 4), "little")
                if word == HALT:
                    return "halt"
                self.step(word)
                self.x[0] = 0
        except Fault:
            return "fault"
        return ""

    def step(self, word):
        x, pc, go = self.x, self.pc, self.pc + 4
        opcode, to, kind, seven = word & 127, word >> 7 & 31, word >> 12 & 7, word >> 25
        a, b, number = x[word >> 15 & 31], x[word >> 20 & 31], signed(word >> 20, 12)
        if opcode == 0x33 and (seven, kind) in REGISTERS:
            x[to] = REGISTERS[seven, kind](a, b) & WORD
        elif opcode == 0x13 and (kind not in (1, 5) or (seven, kind) in ((0, 1), (0, 5), (32, 5))):
            x[to] = REGISTERS[seven if kind == 5 else 0, kind](a, number & WORD) & WORD
        elif opcode == 0x03 and kind in (0, 1, 2, 4, 5):
            size = 1 << (kind & 3)
            x[to] = int.from_bytes(self.read(self.place(a + number, size), size), "little", signed=kind < 4) & WORD
        elif opcode == 0x23 and kind < 3:
            size = 1 << kind
            self.write(self.place(a + (signed(seven, 7) << 5 | to), size), b.to_bytes(4, "little")[:size])
        elif opcode == 0x63 and kind in BRANCHES:
            if BRANCHES[kind](a, b):
                go = pc + (signed(word >> 31, 1) << 12 | (word >> 7 & 1) << 11 | (word >> 25 & 63) << 5 | (word >> 8 & 15) << 1)
        elif opcode == 0x37:
            x[to] = word & 0xFFFFF000
        elif opcode == 0x17:
            x[to] = pc + (word & 0xFFFFF000) & WORD
        elif opcode == 0x6F:
            x[to] = go
            go = pc + (signed(word >> 31, 1) << 20 | (word >> 12 & 255) << 12 | (word >> 20 & 1) << 11 | (word >> 21 & 1023) << 1)
        elif opcode == 0x67 and kind == 0:
            x[to], go = go & WORD, a + number & ~1
        elif opcode == 0x0F and kind == 0:
            pass  # fence
        else:
            raise Fault
        self.pc = go & WORD
