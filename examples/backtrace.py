#!/usr/bin/env python3
"""Walks the stack of a program that stopped: `dwframe unwind`, once for each frame.

    backtrace.py [--size 4|8] [--order little|big] [--stack-pointer N] SECTION DUMP

SECTION is the program's .debug_frame and DUMP what the stopped machine held. Prints `#<n> 0x<pc>` for each frame from
the innermost one on, and ends after the first one whose pc no FDE of the section covers. The variable DWFRAME may name the program.

The table gives one caller's registers. How one frame leads to the next is the caller's knowledge of the ABI, and stands
here: the caller's stack pointer, register N (7 for x86-64, 31 for AArch64), is the CFA; its pc is the return address;
registers that no rule names are unchanged, which holds of those that a callee has to keep. The address that is looked
up is the return address minus one, which is in the call: a call that never returns may end its function.
"""
import argparse
import os
import pathlib
import subprocess
import sys
import tempfile

DWFRAME = os.environ.get("DWFRAME", pathlib.Path(__file__).resolve().parent.parent / "dwframe")


def read_dump(path):
    """The pc, the registers and the lines of memory."""
    try:
        text = path.read_text()
    except (OSError, UnicodeDecodeError):
        raise SystemExit(f"cannot read {path}")
    pc, registers, memory = None, {}, []
    for line in text.splitlines():
        name, _, rest = line.partition(" ")
        if name == "pc":
            pc = int(rest, 16)
        elif name == "mem":
            memory.append(line)
        elif name.startswith("r"):
            registers[name] = int(rest, 16)
    return pc, registers, memory


def dump_of(pc, registers, memory):
    values = [f"{name} {value:#x}" for name, value in registers.items()]
    return "\n".join([f"pc {pc:#x}", *values, *memory])


def read_frame(text):
    """The CFA, the name of the return address's register, and the caller's registers that are known."""
    fields = dict(line.split(" ") for line in text.splitlines())
    cfa, return_register = int(fields.pop("cfa"), 16), fields.pop("ra")
    return cfa, return_register, {name: int(value, 16) for name, value in fields.items() if value != "undefined"}


def unwind(words, section, dump):
    """What dwframe prints, or None where no FDE covers the pc."""
    with tempfile.NamedTemporaryFile("w", suffix=".dump") as file:
        file.write(dump)
        file.flush()
        command = [DWFRAME, "unwind", *words, "--default", "same", section, file.name]
        done = subprocess.run(command, capture_output=True, text=True)
    if done.stderr == "fault: NoFde\n":
        return None
    if done.returncode != 0:
        raise SystemExit(done.stderr.strip())
    return done.stdout


def main():
    words = argparse.ArgumentParser(description=__doc__, formatter_class=argparse.RawDescriptionHelpFormatter)
    words.add_argument("--size", choices=["4", "8"], default="8")
    words.add_argument("--order", choices=["little", "big"], default="little")
    words.add_argument("--stack-pointer", metavar="N", default="7")
    words.add_argument("section")
    words.add_argument("dump", type=pathlib.Path)
    asked = words.parse_args()
    target = ["--size", asked.size, "--order", asked.order]
    pc, registers, memory = read_dump(asked.dump)
    looked_up, number, last_cfa = pc, 0, -1
    while pc is not None:
        print(f"#{number} {pc:#x}")
        answer = unwind(target, asked.section, dump_of(looked_up, registers, memory))
        if answer is None:
            return
        cfa, return_register, registers = read_frame(answer)
        if cfa <= last_cfa:
            raise SystemExit(f"frame #{number} does not stand above the one before")
        pc = registers.get(return_register)
        registers[f"r{asked.stack_pointer}"] = cfa
        looked_up, number, last_cfa = (pc or 1) - 1, number + 1, cfa


if __name__ == "__main__":
    main()
