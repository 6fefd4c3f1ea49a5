#!/usr/bin/env python3
"""Refuses each request for memory of a run once, and compares what the run then answers.

    refused_memory.py DWFRAME CALLER

Both run over each section of the examples, and over some worked blocks and programs. With nothing refused both must
answer what `answers.py` has, which is of a second reader and worked cases: that is the ordinary answer. Else DWFRAME's answer must be
the ordinary one, or status 5, `out of memory` and nothing on standard output; under `rows` and `normal`, a beginning of
what is ordinarily there. CALLER makes one call a run: its answer must be the ordinary one or tell that memory ran out, and the
calls on borrowed expressions, and frames by an index, may make no request at all. Ends with a line 'N runs, M wrong'.
"""
import os
import pathlib
import re
import subprocess
import sys
import tempfile

from answers import BLOCKS, EXAMPLES, EXPRESSION_CALLS, FRAMES, NORMALS, PROGRAM_CALLS, of_call, of_command

HERE = pathlib.Path(__file__).resolve().parent
SUBCOMMANDS = ["entries", "check", "rows"]
SECTION_CALLS = ["headers", "row_at", "changes", *PROGRAM_CALLS, *EXPRESSION_CALLS]
WORKED_CALLS = [*PROGRAM_CALLS, *EXPRESSION_CALLS, "numbers", "dumps", "registers", "evaluate", "locate", "states"]
NORMAL_CALLS = ["normalise", "normalise_to"]
EVALUATIONS = [["770806", "registers.dump"], ["3a311c1228faff"]]
OUT_OF_MEMORY = (5, b"", b"out of memory\n")
# How CALLER prints an error that tells that memory ran out. The tape that a normal form is written to fails for no other reason.
WANT = re.compile(rb"(Err\()?(OutOfMemory|AllocError|(Write|Memory) \{ written: \d+ \})\)?")
# At the last address of the one FDE three registers: the two that are given, and the return address's.
FRAMES_OF_PLAIN = b"(4198415, 3)\n"


class Tally:
    def __init__(self):
        self.runs = self.wrong = 0

    def tell(self, good, what, answer):
        self.runs += 1
        if not good:
            self.wrong += 1
            print(f"{what}: {answer}")


def run(program, words, folder, refused):
    """The answer of a run whose request of this number is refused, and how many it made."""
    count = folder / "count"
    names = {"LD_PRELOAD": str(folder / "refuse.so"), "REFUSE": str(refused), "COUNT": str(count)}
    done = subprocess.run([program, *words], cwd=EXAMPLES, env={**os.environ, **names}, capture_output=True, timeout=60)
    return (done.returncode, done.stdout, done.stderr), int(count.read_text())


def sections():
    """The files of the examples with the words for their targets."""
    for path in sorted(EXAMPLES.glob("*.target")):
        yield path.with_suffix(".bin").name, path.read_text().split()


def command_runs():
    """The words of the runs of DWFRAME."""
    for name, (size, order) in sections():
        for subcommand in SUBCOMMANDS:
            yield [subcommand, "--size", size, "--order", order, name]
        if name in NORMALS:
            yield ["normal", "--size", size, "--order", order, name]
            yield ["same", "--size", size, "--order", order, name, name]
            yield ["cost", "--size", size, "--order", order, name]
    for block in BLOCKS:
        yield ["expr", "--size", "8", "--order", "little", block]
    for words in EVALUATIONS:
        yield ["eval", "--size", "8", "--order", "little", *words]


def frame_runs(folder):
    """The words of DWFRAME's runs over a section and a dump, which are written into a folder, and their answers."""
    for number, (section, default, dump, ordinary) in enumerate(FRAMES):
        paths = [folder / f"{number}.bin", folder / f"{number}.dump"]
        paths[0].write_bytes(section)
        paths[1].write_text(dump)
        yield ["unwind", "--size", "8", "--order", "little", "--default", default, *map(str, paths)], ordinary


def call_runs():
    """The words of the runs of CALLER, behind the first."""
    for call in WORKED_CALLS:
        yield [call]
    for name, target in sections():
        for call in SECTION_CALLS:
            yield [call, *target, name]
        if name in NORMALS:
            for call in NORMAL_CALLS:
                yield [call, *target, name]


def is_command_answer(answer, ordinary):
    return answer in (ordinary, OUT_OF_MEMORY)


def is_rows_answer(answer, ordinary):
    """Memory may run out in the midst of what is printed."""
    status, out, err = answer
    return answer == ordinary or (status, b"", err) == OUT_OF_MEMORY and ordinary[1].startswith(out)


def is_call_answer(answer, ordinary):
    """Each line is an ordinary one in its order, or tells of want of memory, which may end the run too."""
    status, out, err = answer
    if answer == ordinary:
        return True
    rest = iter(ordinary[1].splitlines())
    ended = b"OutOfMemory" in err or b"AllocError" in err
    told = ended
    for line in out.splitlines():
        if WANT.fullmatch(line):
            told = True
        elif line not in rest:
            return False
    return told and (status == 0 or ended)


def each_request(program, words, folder, is_answer, ordinary, tally):
    answer, requests = run(program, words, folder, 0)
    tally.tell(answer == ordinary, f"{words}: with ample memory", answer)
    for refused in range(1, requests + 1):
        answer, _ = run(program, words, folder, refused)
        tally.tell(is_answer(answer, ordinary), f"{words}: request {refused} refused", answer)
    answer, _ = run(program, words, folder, requests + 1)
    tally.tell(answer == ordinary, f"{words}: nothing refused", answer)


def main():
    dwframe, caller = (str(pathlib.Path(path).resolve()) for path in sys.argv[1:3])
    tally = Tally()
    with tempfile.TemporaryDirectory() as name:
        folder = pathlib.Path(name)
        shim = ["gcc", "-shared", "-fPIC", "-O2", "-o", folder / "refuse.so", HERE / "refuse.c", "-ldl"]
        subprocess.run(shim, check=True)
        for words in command_runs():
            is_answer = is_rows_answer if words[0] in ("rows", "normal") else is_command_answer
            each_request(dwframe, words, folder, is_answer, (0, of_command(words), b""), tally)
        for words, ordinary in frame_runs(folder):
            each_request(dwframe, words, folder, is_command_answer, ordinary, tally)
        for words in call_runs():
            each_request(caller, ["request", *words], folder, is_call_answer, (0, of_call(words), b""), tally)
        _, none = run(caller, ["request", "none"], folder, 0)
        answer, borrowed = run(caller, ["request", "borrowed"], folder, 0)
        tally.tell(borrowed == none, "calls on borrowed expressions", f"{borrowed - none} requests")
        of_plain = ["8", "little", "plain.bin"]
        _, none = run(caller, ["request", "index", *of_plain], folder, 0)
        answer, framed = run(caller, ["request", "frames", *of_plain], folder, 0)
        tally.tell(answer == (0, FRAMES_OF_PLAIN, b"") and framed == none, "frames by an index", f"{answer}, {framed - none} requests")
    print(f"{tally.runs} runs, {tally.wrong} wrong")
    return 1 if tally.wrong else 0


if __name__ == "__main__":
    sys.exit(main())
