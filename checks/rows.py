#!/usr/bin/env python3
"""Compares the rows that an example finds (examples/lookup.c, or rows of the Rust edition) with those that the command prints: those of
each FDE, and those at the addresses of many rows.

    rows.py LOOKUP SIZE ORDER SECTION ROWS

LOOKUP is the example's program and ROWS the text of `dwframe rows`. A look-up tells the block of an expression, which `dwframe expr` has
to take for the shortest one of the operations that the row has.
"""
import functools
import os
import pathlib
import re
import subprocess
import sys

PROGRAM = os.environ.get("DWFRAME", pathlib.Path(__file__).resolve().parent.parent / "dwframe")


@functools.cache
def operations(size, order, block):
    """The operations of a block, as a row prints them."""
    words = [PROGRAM, "expr", "--size", size, "--order", order, "--frame", block]
    told = subprocess.run(words, stdout=subprocess.PIPE, text=True, check=True).stdout.splitlines()
    if told[-1] != f"least {block}".rstrip():
        sys.exit(f"rows: {block} is not the least block: {told[-1]}")
    return "; ".join(line.split(" ", 1)[1] for line in told[:-1])


def told_by(size, order, *words):
    """What a program prints, with operations in place of blocks."""
    told = subprocess.run(words, stdout=subprocess.PIPE, text=True, check=True).stdout
    return re.sub(r"expr\(([0-9a-f]*)\)", lambda block: f"expr({operations(size, order, block[1])})", told)


def main():
    lookup, size, order, section, rows = sys.argv[1:]
    wanted = pathlib.Path(rows).read_text()
    if told_by(size, order, lookup, size, order, section) != wanted:
        sys.exit(f"rows: {section}: the look-ups are not as the command's rows")
    some = [line[1:] for line in wanted.splitlines() if line.startswith(" ")][-60:]
    addresses = [row.split(" ", 1)[0] for row in some]
    # No FDE of these sections covers the last address of all.
    some.append("0x" + "f" * 2 * int(size) + " no FDE")
    if addresses and told_by(size, order, lookup, size, order, section, *addresses, some[-1].split(" ", 1)[0]).splitlines() != some:
        sys.exit(f"rows: {section}: the rows of many addresses are not as the command's")


if __name__ == "__main__":
    main()
