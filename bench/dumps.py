#!/usr/bin/env python3
"""Writes dumps of registers and memory that cost a careless reader time that grows faster than their bytes.

    dumps.py DIR [SCALE]

They are DIR/dump-NAME.txt, for addresses of size 8. SCALE multiplies their counts. The overlaps are refused with
Repeated at the last line, all others are accepted.
"""
import random

from made import main, write_each

FIRST_ADDRESS = 0x7FFE_0000_0000
REGISTERS = 65_536


def memory(address, contents):
    return f"mem {address:#x} {contents.hex()}\n"


def ranges(count, length):
    """The addresses of so many ranges that touch."""
    return range(FIRST_ADDRESS, FIRST_ADDRESS + count * length, length)


def shuffled(addresses):
    """The same at each run."""
    mixed = list(addresses)
    random.Random(1).shuffle(mixed)
    return mixed


def memory_lines(addresses):
    """16 bytes at each address: 52 characters a line."""
    return "".join(memory(address, bytes(range(16))) for address in addresses)


def byte_lines(addresses):
    return "".join(memory(address, b"\x2a") for address in addresses)


def many_lines(scale):
    """A megabyte of memory lines, by address."""
    return memory_lines(ranges(scale(20_000), 16))


def shuffled_lines(scale):
    """The same lines in another order."""
    return memory_lines(shuffled(ranges(scale(20_000), 16)))


def descending_lines(scale):
    """The same lines, the last one first."""
    return memory_lines(reversed(ranges(scale(20_000), 16)))


def one_line(scale):
    """A line of a megabyte."""
    return memory(FIRST_ADDRESS, b"\x2a" * scale(500_000))


def overlap_of_bytes(scale):
    """50,000 ranges of a byte in no order, and the least of them once more."""
    count = scale(50_000)
    return byte_lines(shuffled(ranges(count, 1))) + byte_lines([FIRST_ADDRESS])


def overlap_of_neighbours(scale):
    """50,000 ranges of two bytes by address, and the last byte of the last one once more."""
    addresses = ranges(scale(50_000), 2)
    lines = "".join(memory(address, b"\x2a\x2b") for address in addresses)
    return lines + byte_lines([addresses[-1] + 1])


def overlap_of_the_first(scale):
    """A range of 100,000 bytes, 50,000 ranges that are apart from it, and then its last byte once more."""
    wide = scale(100_000)
    behind = FIRST_ADDRESS + wide
    apart = range(behind, behind + 2 * scale(50_000), 2)
    return memory(FIRST_ADDRESS, bytes(wide)) + byte_lines(apart) + byte_lines([behind - 1])


def descending_registers(scale):
    """All registers, 65535 first."""
    count = min(REGISTERS, scale(REGISTERS))
    return "".join(f"r{REGISTERS - 1 - i} {i:#x}\n" for i in range(count))


DUMPS = [
    many_lines,
    shuffled_lines,
    descending_lines,
    one_line,
    overlap_of_bytes,
    overlap_of_neighbours,
    overlap_of_the_first,
    descending_registers,
]


def write_dumps(folder, scale):
    """Writes each dump, and answers their names and paths."""
    return write_each(DUMPS, folder, "dump", "txt", scale)


if __name__ == "__main__":
    main(__doc__, write_dumps)
