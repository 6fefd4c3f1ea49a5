#!/usr/bin/env python3
"""Writes a section of N FDEs with programs as a compiler writes them: valid, and the same at each run.

    synth.py OUT N [--size 4|8] [--order little|big] [--version 1|3|4] [--form 32|64] [--shuffle]
                  [--unit FDES]

A unit has a CIE and, where --unit does not say otherwise, 40 FDEs. One FDE in a hundred has expressions, one in five hundred a program of hundreds of rows.
With --shuffle the FDEs stand out of the order of their addresses.
"""
import argparse
import random
import struct

FDES_OF_A_UNIT = 40
PROGRAMS = 4000
EXPRESSIONS_PERCENT = 1.0
LONG_PERCENT = 0.2
FIRST_ADDRESS = 0x400000


def uleb(number):
    out = bytearray()
    while True:
        low, number = number & 0x7F, number >> 7
        out.append(low | (0x80 if number else 0))
        if not number:
            return bytes(out)


def sleb(number):
    out = bytearray()
    while True:
        low, number = number & 0x7F, number >> 7
        is_last = number == (-1 if low & 0x40 else 0)
        out.append(low | (0 if is_last else 0x80))
        if is_last:
            return bytes(out)


class Writer:
    """Entries of one address size, byte order, version and form."""

    def __init__(self, size, order, version=4, form=32):
        self.size, self.version, self.form = size, version, form
        self.order = "<" if order == "little" else ">"

    def fixed(self, number, width):
        return struct.pack(self.order + {1: "B", 2: "H", 4: "I", 8: "Q"}[width], number)

    def entry(self, first, rest):
        """An entry of a first field and what follows it, filled by nops to a multiple of the address size."""
        length_field = 4 if self.form == 32 else 12
        contents = self.fixed(first, self.form // 8) + rest
        contents += b"\0" * (-(length_field + len(contents)) % self.size)
        if self.form == 32:
            return self.fixed(len(contents), 4) + contents
        return b"\xff" * 4 + self.fixed(len(contents), 8) + contents

    def cie(self, program=b""):
        """A CIE of x86, of 32 or 64 bits: the rules at a function's first address, and then a program."""
        stack, return_register = (7, 16) if self.size == 8 else (4, 8)
        fields = bytes([self.version, 0])
        if self.version == 4:
            fields += bytes([self.size, 0])
        fields += uleb(1) + sleb(-self.size) + bytes([return_register])
        rules = b"\x0c" + uleb(stack) + uleb(self.size) + bytes([0x80 | return_register, 1])
        return self.entry((1 << self.form) - 1, fields + rules + program)

    def fde(self, cie_at, begin, length, program):
        return self.entry(cie_at, self.fixed(begin, self.size) + self.fixed(length, self.size) + program)

    def advance(self, delta):
        if delta < 64:
            return bytes([0x40 | delta])
        width = 1 if delta < 2**8 else 2 if delta < 2**16 else 4
        return bytes([{1: 2, 2: 3, 4: 4}[width]]) + self.fixed(delta, width)


class Function:
    """The program of one function, in the making."""

    def __init__(self, writer, rng):
        self.writer, self.rng = writer, rng
        self.program = bytearray()
        self.length = 0

    def put(self, *codes):
        self.program += b"".join(code if isinstance(code, bytes) else bytes([code]) for code in codes)

    def step(self, least, most):
        delta = self.rng.randint(least, most)
        self.length += delta
        self.put(self.writer.advance(delta))

    def expressions(self):
        """As in a `main` that aligns its stack: the CFA is read from memory."""
        self.step(4, 9)
        self.put(0x0C, 10 if self.writer.size == 8 else 1, 0)
        self.step(1, 8)
        self.put(b"\x10\x06\x02\x76\x00")
        self.step(1, 8)
        self.put(b"\x0f\x03\x76\x78\x06")

    def epilogue(self, saved, offset, has_frame_pointer):
        """An early return: what is remembered before it is restored behind it."""
        self.step(10, 200)
        self.put(0x0A)
        if not has_frame_pointer:
            self.put(0x0E, uleb(offset))
        for register in reversed(saved):
            self.step(1, 2)
            if has_frame_pointer:
                self.put(0xC0 | register)
            else:
                self.put(0x0E, uleb(offset))
        self.step(1, 2)
        self.put(0x0B)


def function(writer, rng):
    """A function's program, and how many addresses it needs."""
    has_expressions = rng.random() * 100 < EXPRESSIONS_PERCENT
    is_long = rng.random() * 100 < LONG_PERCENT
    made, size = Function(writer, rng), writer.size
    callee_saved = [3, 6, 12, 13, 14, 15] if size == 8 else [3, 5, 6, 7]
    saved = rng.sample(callee_saved, rng.choice([0, 0, 1, 1, 2, 3, 4]))
    has_frame_pointer = rng.random() < 0.3
    if has_expressions:
        saved, has_frame_pointer = saved[:1], True
        made.expressions()
    offset = size
    for index, register in enumerate(saved):
        made.step(1, 4)
        offset += size
        if not has_expressions:
            made.put(0x0E, uleb(offset))
        made.put(0x80 | register, uleb(offset // size))
        if has_frame_pointer and index == 0 and not has_expressions:
            made.step(3, 3)
            made.put(0x0D, uleb(register))
    if not has_frame_pointer and rng.random() < 0.6:
        local = uleb(offset + size * rng.randint(1, 60))
        made.step(1, 7)
        made.put(0x0E, local)
    for _ in range(rng.choice([0, 0, 0, 1, 1, 2]) + (rng.randint(100, 200) if is_long else 0)):
        made.epilogue(saved, offset, has_frame_pointer)
    made.step(5, 300)
    if saved or has_frame_pointer:
        made.put(0x0C, 7 if size == 8 else 4, uleb(size))
    return bytes(made.program), made.length + 1


def section(writer, count, shuffle=False, unit=FDES_OF_A_UNIT, seed=1):
    """The bytes of a section, in pieces."""
    rng = random.Random(seed)
    programs = [function(writer, rng) for _ in range(PROGRAMS)]
    spans, begin = [], FIRST_ADDRESS
    for _ in range(count):
        program, needed = rng.choice(programs)
        length = needed + rng.randint(0, 64)
        begin = (begin + 15) & ~15
        spans.append((begin, length, program))
        begin += length
    if begin >= 1 << (8 * writer.size):
        raise SystemExit("synth.py: more functions than addresses")
    if shuffle:
        rng.shuffle(spans)
    cie, cie_at, at = writer.cie(), 0, 0
    for index, span in enumerate(spans):
        if index % unit == 0:
            cie_at, at = at, at + len(cie)
            yield cie
        fde = writer.fde(cie_at, *span)
        at += len(fde)
        yield fde


def main():
    words = argparse.ArgumentParser(description=__doc__, formatter_class=argparse.RawDescriptionHelpFormatter)
    words.add_argument("out")
    words.add_argument("count", type=int)
    words.add_argument("--size", type=int, choices=[4, 8], default=8)
    words.add_argument("--order", choices=["little", "big"], default="little")
    words.add_argument("--version", type=int, choices=[1, 3, 4], default=4)
    words.add_argument("--form", type=int, choices=[32, 64], default=32)
    words.add_argument("--shuffle", action="store_true")
    words.add_argument("--unit", type=int, default=FDES_OF_A_UNIT)
    asked = words.parse_args()
    writer = Writer(asked.size, asked.order, asked.version, asked.form)
    with open(asked.out, "wb") as out:
        out.writelines(section(writer, asked.count, asked.shuffle, asked.unit))


if __name__ == "__main__":
    main()
