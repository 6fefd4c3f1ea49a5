#!/usr/bin/env python3
"""Writes small sections that cost a careless reader time or memory that grows faster than their bytes.

    bombs.py DIR [SCALE]

They are DIR/bomb-NAME.bin, of size 8, little. SCALE multiplies their counts. All but `remember`, which is refused with
StateStackFull, are accepted.
"""
import struct

from made import main, write_each
from synth import Writer, uleb

WRITER = Writer(8, "little")
CIE = WRITER.cie()


def fde(program, begin=0x1000, length=0x10000, cie_at=0):
    return WRITER.fde(cie_at, begin, length, program)


def offset(register, factored):
    """The rule of a register: CFA plus so many times the data factor."""
    return b"\x05" + uleb(register) + uleb(factored)


def block(operations):
    return uleb(len(operations)) + operations


def remember(scale):
    """One FDE of 200,000 remember_state."""
    return CIE + fde(b"\x0a" * scale(200_000))


def long_cie(scale):
    """A CIE program of 200,000 nops under 20,000 FDEs: 4e9 steps, if it is run again for each."""
    fdes = [fde(b"", 0x1000 + 16 * i, 16) for i in range(scale(20_000))]
    return WRITER.cie(b"\0" * scale(200_000)) + b"".join(fdes)


def wide_rows(scale):
    """60,000 registers, and then 1,000 rows that change one each."""
    registers = [offset(register, 1) for register in range(100, 100 + scale(60_000))]
    changes = [b"\x41" + offset(100 + i, 2) for i in range(scale(1_000))]
    return CIE + fde(b"".join(registers + changes))


def push_pop(scale):
    """20,000 registers, and then 50,000 pairs of remember_state and restore_state."""
    registers = [offset(register, 1) for register in range(100, 100 + scale(20_000))]
    return CIE + fde(b"".join(registers) + b"\x0a\x0b" * scale(50_000))


def descending_registers(scale):
    """60,000 registers, the last one first."""
    registers = [offset(register, 1) for register in range(100 + scale(60_000), 100, -1)]
    return CIE + fde(b"".join(registers))


def many_cies(scale):
    """50,000 CIEs, and 50,000 FDEs that name late ones."""
    count = scale(50_000)
    last = (count - 1) * len(CIE)
    near = min(count, 1_000)
    fdes = [fde(b"", 0x1000 + 16 * i, 16, last - i % near * len(CIE)) for i in range(count)]
    return CIE * count + b"".join(fdes)


def two_wide_cies(scale):
    """Two CIEs of 8,000 registers, and 16,000 FDEs that take them by turns."""
    registers = b"".join(offset(register, 1) for register in range(100, 100 + scale(8_000)))
    first = WRITER.cie(registers)
    second = WRITER.cie(registers + offset(100, 2))
    fdes = [fde(offset(100, 3), 0x1000 + 16 * i, 16, i % 2 * len(first)) for i in range(scale(16_000))]
    return first + second + b"".join(fdes)


def padded_number(scale):
    """An operand that is padded to 2,000,000 bytes."""
    return CIE + fde(b"\x0e\x90" + b"\x80" * scale(2_000_000) + b"\0")


def long_expression(scale):
    """An expression of 400,001 operations, of which 100,000 are branches."""
    return CIE + fde(b"\x0f" + block(b"\x30" + b"\x30\x28\x00\x00\x96\x96" * scale(100_000)))


def far_branches(scale):
    """8,000 branches that each go back to the first operation."""
    branches = [b"\x30\x28" + struct.pack("<h", -4 * i - 4) for i in range(scale(8_000))]
    return CIE + fde(b"\x16\x03" + block(b"\x30" + b"".join(branches)))


def near_branches(scale):
    """15,000 branches that each go back to just before themselves."""
    return CIE + fde(b"\x0f" + block(b"\x30" + b"\x30\x28\xfc\xff" * scale(15_000)))


def forward_branches(scale):
    """24,000 branches that each go 28,672 bytes forward."""
    return CIE + fde(b"\x0f" + block(b"\x30" + b"\x30\x28\x00\x70" * scale(24_000) + b"\x96" * 40_000))


def rows_of_expressions(scale):
    """500 registers of 51 operations each, and then 2,000 rows."""
    expression = block(b"\x70\x00" * 50 + b"\x96")
    registers = [b"\x10" + uleb(100 + i) + expression for i in range(scale(500))]
    changes = [b"\x41" + offset(3, 1 + i % 2) for i in range(scale(2_000))]
    return CIE + fde(b"".join(registers + changes))


def rows_that_stay(scale):
    """A register, and then 100,000 rows that set it to the rule that it has."""
    return CIE + fde(offset(3, 1) + (b"\x41" + offset(3, 1)) * scale(100_000), length=0x40000)


def advances(scale):
    """600,000 advances."""
    return CIE + fde(b"\x41" * scale(600_000), length=0x100000)


def remembered_states(scale):
    """63 remembered states, and 20,000 pairs of remember_state and restore_state behind them."""
    states = [offset(100 + i, 1) + b"\x0a" for i in range(63)]
    return CIE + fde(b"".join(states) + b"\x0a\x0b" * scale(20_000))


def wide_cie(scale):
    """A CIE of 5,000 registers, and 5,000 FDEs without instructions."""
    registers = b"".join(offset(register, 1) for register in range(100, 100 + scale(5_000)))
    fdes = [fde(b"", 0x1000 + 16 * i, 16) for i in range(scale(5_000))]
    return WRITER.cie(registers) + b"".join(fdes)


def given_beside(scale):
    """A CIE of 8,000 registers, and 16,000 FDEs that give at their begin one that it does not specify, and take it back behind a row."""
    registers = b"".join(offset(register, 1) for register in range(100, 100 + scale(8_000)))
    fdes = [fde(b"\x83\x02\x41\x0e\x10\x41\xc3", 0x1000 + 16 * i, 16) for i in range(scale(16_000))]
    return WRITER.cie(registers) + b"".join(fdes)


def rows_of_nothing(scale):
    """8,000 registers that are set to the rules that they have, and then 30,000 rows that set none."""
    registers = b"".join(offset(register, 1) for register in range(100, 100 + scale(8_000)))
    return CIE + fde(registers + b"\x41" + registers + b"\x41" * scale(30_000))


def cies_by_turns(scale, same=True):
    """Two CIEs of 8,000 registers, of which the second sets one again, and 16,000 FDEs that take them by turns; or the first alone. Both
    say the same."""
    registers = b"".join(offset(register, 1) for register in range(100, 100 + scale(8_000)))
    first, second = WRITER.cie(registers), WRITER.cie(registers + offset(100, 1))
    places = [0, len(first) if same else 0]
    fdes = [fde(offset(99, 3), 0x1000 + 16 * i, 16, places[i % 2]) for i in range(scale(16_000))]
    return first + (second if same else b"") + b"".join(fdes)


def one_cie_alone(scale):
    """What says the same as `cies_by_turns` by one CIE: for `same`."""
    return cies_by_turns(scale, False)


BOMBS = [
    remember,
    long_cie,
    wide_rows,
    push_pop,
    descending_registers,
    many_cies,
    two_wide_cies,
    padded_number,
    long_expression,
    far_branches,
    near_branches,
    forward_branches,
    rows_of_expressions,
    rows_that_stay,
    advances,
    remembered_states,
    wide_cie,
    given_beside,
    rows_of_nothing,
    cies_by_turns,
    one_cie_alone,
]


def write_bombs(folder, scale):
    """Writes each bomb, and answers their names and paths."""
    return write_each(BOMBS, folder, "bomb", "bin", scale)


if __name__ == "__main__":
    main(__doc__, write_bombs)
