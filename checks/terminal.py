#!/usr/bin/env python3
"""What the command says on standard error where that is a terminal, and where it is not: hints at files that are no raw
section or cannot be read, and at values that an option takes; nothing of a pipe that its reader has closed; and control
characters of a path, which a terminal would take for orders.

    terminal.py [PROGRAM]

Prints a line for each wrong answer, and how many were asked; ends with 1 where one is wrong."""
import os
import pty
import subprocess
import sys
import tempfile

HERE = os.path.dirname(os.path.abspath(__file__))
PROGRAM = os.path.abspath(sys.argv[1]) if len(sys.argv) > 1 else os.path.join(HERE, "../crates/dwframe/out/dwframe")
FILES = {"empty": b"", "elf": b"\x7fELF\x02\x01\x01" + bytes(57)}
EMPTY = "hint: empty is empty, as objcopy leaves it where there is no .debug_frame\n"
ELF = "hint: elf begins as an ELF file does; a raw section is wanted, see dwframe --help\n"
SIZE = "bad value for --size\n"
HEX = "bad value for HEX\n"
TARGET = ["--size", "8", "--order", "little"]
# The words, the status, and what stands on standard error without a terminal and on one.
CASES = (
    (["check", *TARGET, "empty"], 0, "", EMPTY),
    (["check", *TARGET, "elf"], 2, "refused: EntryPastEnd at 0x0\n", ELF + "refused: EntryPastEnd at 0x0\n"),
    (
        ["check", *TARGET, "red\x1b[31m\x7f"],
        4,
        "cannot read red\x1b[31m\x7f\n",
        "hint: red?[31m?: there is no such file\ncannot read red?[31m?\n",
    ),
    (["check", *TARGET, "."], 4, "cannot read .\n", "hint: .: it is a directory\ncannot read .\n"),
    (["check", "--size", "7", "--order", "little", "empty"], 3, SIZE, SIZE + "hint: --size takes 4 or 8\n"),
    (["expr", *TARGET, "0x30"], 3, HEX, HEX + "hint: HEX is hexadecimal digits, two a byte, without 0x\n"),
)
# Words whose answer goes to a pipe that its reader has closed.
CLOSED = (["expr", *TARGET, "30"], 4, "cannot write\n", "")


def closed_pipe():
    """The end for writing of a pipe without a reader."""
    reader, writer = os.pipe()
    os.close(reader)
    return writer


def asked(folder, words, terminal, out=subprocess.DEVNULL):
    """The status of the command, and what it says on standard error."""
    command = [PROGRAM, *words]
    if not terminal:
        run = subprocess.run(command, cwd=folder, stdout=out, stderr=subprocess.PIPE)
        return run.returncode, run.stderr.decode()
    ours, theirs = pty.openpty()
    status = subprocess.run(command, cwd=folder, stdout=out, stderr=theirs).returncode
    os.close(theirs)
    said = b""
    try:
        while more := os.read(ours, 4096):
            said += more
    except OSError:
        pass  # a terminal that nobody holds any more
    os.close(ours)
    return status, said.decode().replace("\r\n", "\n")


def answers(folder):
    """What each case answers, and what is wanted of it."""
    for words, status, plain, shown in CASES:
        for terminal, wanted in ((False, plain), (True, shown)):
            yield words, terminal, asked(folder, words, terminal), (status, wanted)
    words, status, plain, shown = CLOSED
    for terminal, wanted in ((False, plain), (True, shown)):
        out = closed_pipe()
        yield words, terminal, asked(folder, words, terminal, out), (status, wanted)
        os.close(out)


def main():
    count = wrong = 0
    with tempfile.TemporaryDirectory() as folder:
        for name, content in FILES.items():
            with open(os.path.join(folder, name), "wb") as file:
                file.write(content)
        for words, terminal, answer, wanted in answers(folder):
            count += 1
            if answer != wanted:
                wrong += 1
                print(f"{words!r}{' on a terminal' if terminal else ''}: {answer!r}, and not {wanted!r}")
    print(f"{count} asked on and off a terminal, {wrong} wrong")
    sys.exit(wrong > 0)


main()
