#!/usr/bin/env python3
"""Runs dwframe as checks/worked.txt says, and compares what it prints:

    worked.py PROGRAM
"""
import json
import pathlib
import re
import subprocess
import sys
import tempfile

TEXT = pathlib.Path(__file__).with_suffix(".txt")
TARGET = "--size 8 --order little"


def bytes_of(words):
    out = b""
    for word in words.split():
        digits, _, count = word.partition("*")
        out += bytes.fromhex(digits) * int(count or 1)
    return out


def spread(line):
    """The line with `{0-3,9:r# }` written out: the text for each number, which stands at #, and at ## in hexadecimal."""

    def written(found):
        parts = [part.partition("-") for part in found[1].split(",")]
        numbers = [number for first, _, last in parts for number in range(int(first), int(last or first) + 1)]
        return "".join(found[2].replace("##", f"{number:02x}").replace("#", str(number)) for number in numbers)

    return re.sub(r"\{([0-9,-]+):([^{}]*)\}", written, line)


def with_length(contents, is_bare):
    """An entry of the 32-bit form, with nops behind it unless it is bare."""
    if not is_bare:
        contents += bytes((12 - len(contents) % 8) % 8)
    return len(contents).to_bytes(4, "little") + contents


def fde(cie_at, begin, length, program):
    """The contents of an FDE of 8-byte addresses."""
    return b"".join(number.to_bytes(width, "little") for number, width in ((cie_at, 4), (begin, 8), (length, 8))) + program


def changed(content, changes):
    """Other bytes from some places on, as `1c=04`."""
    for place, _, digits in (change.partition("=") for change in changes):
        place, others = int(place, 16), bytes.fromhex(digits)
        if place + len(others) > len(content):
            raise ValueError(f"bytes past the end: {digits}")
        content = content[:place] + others + content[place + len(others) :]
    return content


class Case:
    """The files of a case, and the names that all cases share."""

    def __init__(self, names):
        self.names = names
        self.files = {}

    def entry(self, words):
        name, *changes = words.split() or [""]
        if name in self.names and all("=" in change for change in changes):
            return changed(self.names[name], changes)
        found = re.fullmatch(r"(bare )?cie (.*)", words)
        if found:
            return with_length(bytes.fromhex("ffffffff 04000800") + bytes_of(found[2]), found[1])
        found = re.fullmatch(r"(bare )?(?:(\d+)\*)?fde(?:@([0-9a-f]+))? ([0-9a-f]+) ([0-9a-f]+) ?(.*)", words)
        if not found:
            return bytes_of(words)
        is_bare, count, cie_at, begin, length, program = found.groups()
        cie_at, begin, length = (int(digits or "0", 16) for digits in (cie_at, begin, length))
        program = bytes_of(program)
        return b"".join(with_length(fde(cie_at, begin + k * length, length, program), is_bare) for k in range(int(count or 1)))

    def content(self, text):
        if text.startswith('"'):
            return json.loads(text).encode()
        return b"".join(self.entry(entry.strip()) for entry in text.split(";"))


class Run:
    """A run, or several that answer alike: their words, the files, and what they answer."""

    def __init__(self, line, case, place):
        self.place = place
        self.case = case
        words, _, self.lengths = line.partition(" ; first ")
        head, *others = words.split(", ")
        *names, last = [head, *others]
        first, _, rest = last.partition(" ")
        self.lines = [f"{name} {rest}" for name in [*names, first]] if others else [head]
        self.files = dict(case.files)
        self.status, self.out, self.err = 0, b"", b""

    def take(self, line):
        """A line behind that with the words."""
        head, _, rest = line.partition(" ")
        if head == "|":
            self.out = None if rest == "*" else self.out + rest.encode() + b"\n"
        elif head == "form":
            self.out = self.case.content(rest)
        elif head == "normal":
            self.out = self.files["second"] = self.case.content(rest)
            (words,) = self.lines
            same = Run(words.replace("normal", "same") + " in second", self.case, self.place)
            same.files, same.out = self.files, b"same\n"
            self.lines = [f"{words} in", f"{words} second"]
            return [same]
        else:
            self.status = int(head)
            self.err = None if rest == "*" else f"{rest}\n".encode() if rest else b""
        return []

    def inputs(self):
        """The file `in` of each run."""
        whole = self.files.get("in")
        if not self.lengths:
            return [whole]
        first, _, last = self.lengths.partition(" to ")
        return [whole[:length] for length in range(int(first), int(last or first) + 1)]


class Table:
    """Runs that differ in one place, each a line: what stands there, a colon, and the answer."""

    def __init__(self, words, names):
        self.words = words
        self.names = names
        self.files = {}
        self.begin, self.each = [], "_"

    def take(self, head, rest):
        """A line before the first run."""
        if head != "|":
            self.files[head] = rest
        elif "_" in rest:
            self.each = rest
        else:
            self.begin += rest.split(" | ")

    def run(self, line, place):
        given, _, answer = line.removesuffix(":").partition(": ")
        first, _, second = given.partition(" / ")
        case = Case(self.names)
        for name, text in self.files.items():
            case.files[name] = case.content(text.replace("_", second if second and name == "second" else first))
        run = Run(self.words.replace("_", given or "''"), case, place)
        if answer.startswith(("refused: ", "fault: ")):
            run.take(f"2 {answer}")
            return run
        if answer == "different":
            run.take("1 ")
        lines = answer.split(" | ") if answer else []
        for text in [*self.begin, *(self.each.replace("_", line) for line in lines)]:
            run.take(f"| {text}")
        return run


def read_runs():
    """The runs of the text."""
    names, runs = {}, []
    case, table = Case(names), None
    for number, line in enumerate(map(spread, TEXT.read_text().split("\n")), 1):
        head, _, rest = line.partition(" ")
        if not line:
            case, table = Case(names), None
        elif head == "table":
            table = Table(rest, names)
        elif table and head in ("in", "second", "|"):
            table.take(head, rest)
        elif table and head != "#":
            runs.append(table.run(line, number))
        elif head == "let":
            name, _, text = rest.partition(" ")
            names[name] = case.content(text)
        elif head in ("in", "second", "stdin"):
            case.files[head] = case.content(rest)
        elif head == "$" or line == "$":
            runs.append(Run(rest, case, number))
        elif not head.startswith("#"):
            runs += runs[-1].take(line)
    return runs


def is_so(told, wanted):
    return told == wanted if wanted is not None else told.endswith(b"\n")


def tells(program, folder, run, line, given):
    """Whether a run answers so."""
    for name, content in {**run.files, "in": given}.items():
        path = folder / name
        path.unlink(missing_ok=True)
        if content is not None:
            path.write_bytes(content)
    words = [word.encode().decode("unicode_escape") for word in line.replace("@", TARGET).split()]
    words = ["" if word == "''" else word for word in words]
    done = subprocess.run([program, *words], cwd=folder, input=run.files.get("stdin", b""), capture_output=True)
    return done.returncode == run.status and is_so(done.stdout, run.out) and is_so(done.stderr, run.err)


def main():
    program = pathlib.Path(sys.argv[1]).resolve()
    count = wrong = 0
    with tempfile.TemporaryDirectory() as folder:
        for run in read_runs():
            for line in run.lines:
                for given in run.inputs():
                    count += 1
                    if not tells(program, pathlib.Path(folder), run, line, given):
                        wrong += 1
                        print(f"{TEXT.name}:{run.place}: dwframe {line}: another answer")
    print(f"worked runs: {count}, {wrong} wrong")
    return 1 if wrong or not count else 0


if __name__ == "__main__":
    sys.exit(main())
