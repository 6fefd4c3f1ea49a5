#!/usr/bin/env python3
"""Compares the frames that examples/backtrace.py finds of a real program with gdb's.

examples/chain.c is built by each compiler below that is installed, and run: it stops in a chain of calls and prints its
registers and its stack as a dump. The addresses of its frames have to be those that gdb's backtrace prints. What is not
installed is left out, and named.
"""
import pathlib
import re
import shutil
import subprocess
import sys
import tempfile
import time

ROOT = pathlib.Path(__file__).resolve().parent.parent
EXAMPLES = ROOT / "examples"
FLAGS = ["-g", "-fno-asynchronous-unwind-tables", "-fno-unwind-tables"]
RAW = ["-O", "binary", "--only-section=.debug_frame", "--set-section-flags", ".debug_frame=alloc"]
# How to compile, to take a section out, to run, to debug, and the stack pointer's number.
X86_64 = ("objcopy", [], "gdb", "7")
AARCH64 = ("aarch64-linux-gnu-objcopy", ["qemu-aarch64"], "gdb-multiarch", "31")
COMPILERS = {
    ("gcc", "-no-pie"): X86_64,
    ("clang", "-no-pie"): X86_64,
    ("aarch64-linux-gnu-gcc", "-static"): AARCH64,
}


def missing(tools):
    return [tool for tool in tools if not shutil.which(tool)]


def output(command):
    options = {"stdin": subprocess.DEVNULL, "capture_output": True, "check": True, "text": True, "timeout": 120}
    return subprocess.run(command, **options).stdout


def gdb_lines(gdb, emulator, program, folder):
    """What gdb prints, of a run under the emulator where there is one."""
    batch = [gdb, "-nx", "-batch"]
    if not emulator:
        return output([*batch, "-ex", "run", "-ex", "backtrace", program])
    door = folder / "gdb"
    with subprocess.Popen([*emulator, "-g", door, program], stdout=subprocess.DEVNULL, stderr=subprocess.DEVNULL) as process:
        try:
            while not door.exists() and process.poll() is None:
                time.sleep(0.05)
            return output([*batch, "-ex", f"target remote {door}", "-ex", "continue", "-ex", "backtrace", program])
        finally:
            process.kill()
            door.unlink(missing_ok=True)


def gdb_frames(text):
    """The addresses of all frames but the innermost one, of which gdb prints none at the begin of a line."""
    return [int(address, 16) for address in re.findall(r"^#[1-9]\d* +0x([0-9a-f]+) in ", text, re.MULTILINE)]


def own_frames(section, dump, stack_pointer):
    text = output([EXAMPLES / "backtrace.py", "--stack-pointer", stack_pointer, section, dump])
    return [int(line.split("0x")[1], 16) for line in text.splitlines()]


def compare(folder, compiler, level):
    """Whether the frames are the same up to main, where gdb ends; and their number."""
    objcopy, emulator, gdb, stack_pointer = COMPILERS[compiler]
    program, section, dump = (folder / name for name in ["chain", "chain.bin", "chain.dump"])
    output([compiler[0], *FLAGS, level, *compiler[1:], "-o", program, EXAMPLES / "chain.c"])
    output([objcopy, *RAW, program, section])
    dump.write_text(output([*emulator, program]))
    wanted = gdb_frames(gdb_lines(gdb, emulator, program, folder))
    found = own_frames(section, dump, stack_pointer)
    return len(wanted) > 3 and found[1 : 1 + len(wanted)] == wanted, len(wanted)


def main():
    # Builds it where it is not up to date, which takes minutes.
    subprocess.run([ROOT / "dwframe", "--help"], stdout=subprocess.DEVNULL, check=True)
    wrong = 0
    for compiler, (objcopy, emulator, gdb, _) in COMPILERS.items():
        left_out = missing([compiler[0], objcopy, *emulator, gdb])
        if left_out:
            print(f"frames of {compiler[0]}: left out, for there is no {' and no '.join(left_out)}")
            continue
        for level in ["-O0", "-O2"]:
            with tempfile.TemporaryDirectory() as name:
                same, count = compare(pathlib.Path(name), compiler, level)
            print(f"frames of {compiler[0]} {level}: {count} {'as' if same else 'NOT as'} gdb's", flush=True)
            wrong += not same
    return 1 if wrong else 0


if __name__ == "__main__":
    sys.exit(main())
