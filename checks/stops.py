#!/usr/bin/env python3
"""Writes dumps of machines that stopped at addresses of a section, such that a frame comes out.

    stops.py SIZE ORDER ROWS FOLDER COUNT

ROWS is the text of `dwframe rows`, and the dumps are FOLDER/0.dump and so on, COUNT at most, at addresses where the rules change.
Each register holds an address of the stack, whose memory is given around it and around the CFA, and each word there is an address of
the stack too, so that what an expression reads can be read from.
"""
import pathlib
import re
import sys

STACK, LINE = {4: 0x70001000, 8: 0x7FFE70001000}, 64


def word(address, size, order):
    return (STACK[size] + address * 7 // size % 64 * 8).to_bytes(size, order)


def lines_about(address):
    """The lines of memory around an address."""
    middle = address - address % LINE
    return range(max(0, middle - 8 * LINE), middle + 16 * LINE, LINE)


def dump_of(row, size, order):
    """A machine that stopped at a row's address."""
    address, rules = row.split(" ", 1)
    registers = {*range(32), *map(int, re.findall(r"\b(?:r|breg )(\d+)", rules))}
    base = re.match(r"cfa=r(\d+)([+-]\d+)", rules)
    cfa = (STACK[size] + int(base[2])) % (1 << 8 * size) if base else STACK[size]
    memory = sorted({*lines_about(STACK[size]), *lines_about(cfa)})
    yield f"pc {address}"
    for number in sorted(registers):
        yield f"r{number} {STACK[size]:#x}"
    for line in memory:
        yield f"mem {line:#x} {b''.join(word(at, size, order) for at in range(line, line + LINE, size)).hex()}"


def main():
    size, order, rows, folder, count = sys.argv[1:]
    found = [line[1:] for line in pathlib.Path(rows).read_text().splitlines() if line.startswith(" ")]
    chosen = found[:: max(1, len(found) // int(count))][: int(count)]
    for number, row in enumerate(chosen):
        text = "\n".join(dump_of(row, int(size), order)) + "\n"
        (pathlib.Path(folder) / f"{number}.dump").write_text(text)


if __name__ == "__main__":
    main()
