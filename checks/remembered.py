#!/usr/bin/env python3
"""Writes sections in which rows are remembered one above the other, as epilogues do that stand within one another.

    remembered.py FOLDER

Each is FOLDER/remembered-DEPTH-SIZE-ORDER.bin, with its target beside it. Its FDEs remember DEPTH rows, 1 to 4. Behind each of these
the CFA and all saved registers change, before the next one is remembered or restored. Three FDEs save 6, 7 and 8 registers, near the
CFA. Others save 8, 62 and 64, at offsets that need more than 16 bits, and each of them changes twice.
"""
import pathlib
import sys

sys.path.append(str(pathlib.Path(__file__).resolve().parent.parent / "bench"))
from synth import FIRST_ADDRESS, Writer, sleb, uleb

# Neither the stack pointer nor the register of the return address.
SAVED = [3, 5, 6, 11, 12, 13, 14, 15, *range(17, 73)]
# What an epilogue makes of a saved register: as in the CIE, elsewhere in the frame, or as the caller had it.
RESTORE, SAME_VALUE = b"\x06", b"\x08"
REMEMBER, RESTORE_STATE = b"\x0a", b"\x0b"
FAR = 100_000


def cfa(register, offset):
    return b"\x0c" + uleb(register) + uleb(offset)


def each(registers, code):
    return b"".join(code + uleb(register) for register in registers)


def stored(registers, first):
    """By DW_CFA_offset_extended_sf, so many addresses below the CFA, or above it where that is negative."""
    return b"".join(b"\x11" + uleb(register) + sleb(first + place) for place, register in enumerate(registers))


def epilogues(writer, registers, first):
    """What is changed behind each row that is remembered, by its depth."""
    stack, size = (7, 8) if writer.size == 8 else (4, 4)
    return [
        cfa(stack, size) + each(registers, RESTORE),
        cfa(6, 2 * size) + stored(registers, first + 20),
        cfa(stack, 3 * size) + each(registers, SAME_VALUE),
        cfa(6, 4 * size) + stored(registers, first + 40),
    ]


def program(writer, registers, first, times, depth):
    """A row for each address: the frame, a row at each depth, and the same rows back; and how many addresses it takes."""
    step = writer.advance(1)
    rows = [REMEMBER + changes * times + step for changes in epilogues(writer, registers, first)[:depth]]
    frame = cfa(6, 2 * writer.size) + stored(registers, first)
    return step + frame + step + b"".join(rows) + (RESTORE_STATE + step) * depth, 2 * depth + 3


def section(writer, depth):
    cie = writer.cie()
    programs = [program(writer, SAVED[:count], 3, 1, depth) for count in (6, 7, 8)]
    programs += [program(writer, SAVED[:count], -FAR // writer.size, 2, depth) for count in (8, 62, 64)]
    fdes = [writer.fde(0, FIRST_ADDRESS + 16 * place, length, text) for place, (text, length) in enumerate(programs)]
    return b"".join([cie, *fdes])


def main():
    for size in (4, 8):
        for order in ("little", "big"):
            for depth in range(1, 5):
                path = pathlib.Path(sys.argv[1]) / f"remembered-{depth}-{size}-{order}.bin"
                path.write_bytes(section(Writer(size, order), depth))
                path.with_suffix(".target").write_text(f"{size} {order}\n")


if __name__ == "__main__":
    main()
