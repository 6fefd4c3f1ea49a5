#!/usr/bin/env python3
"""Compares the Rust edition with the proved program: worked runs, the examples, and damaged input.

    edition.py PROGRAM [--seed SEED] [--count COUNT] [--edition EDITION]

EDITION is another build of the edition; by itself the check builds one in which each sum that
overflows and each wrong `debug_assert!` ends the program. COUNT sections and expressions are
damaged, each run by both programs: standard output, standard error and the status are the same.

Without cargo or its crates the check is left out; with CI=true it installs Debian's, or fails.
"""
import argparse
import concurrent.futures
import os
import random
import subprocess
import sys
import tempfile
from pathlib import Path

ROOT = Path(__file__).resolve().parent.parent
EDITION = ROOT / "edition"
EXAMPLES = ROOT / "examples"
SUBCOMMANDS = ["check", "rows", "entries", "normal", "cost", "at", "same", "unwind"]
BLOCKS = [
    bytes.fromhex(digits)
    for digits in (
        "2f12000e05000000000000000e060000000000000037",
        "92070806",
        "3a311c1228faff",
        "38301b",
        "35321e",
        "770806230810e0ff017f22",
        "0c785634120694020616181a2128030031",
        "50930491782693089d100430",
    )
]
# Of a number, what is often at a bound.
BYTES = [0, 1, 4, 0x3F, 0x40, 0x7F, 0x80, 0xC0, 0xFE, 0xFF]


class Case:
    """A run of both programs: its words, and the files that they name."""

    def __init__(self, words, files):
        self.words, self.files = words, files


def damaged(chance, content):
    """Other bytes, a few changes from these."""
    content = bytearray(content)
    for _ in range(chance.randint(0, 4)):
        at = chance.randrange(len(content) + 1)
        kind = chance.randrange(6)
        if kind < 3 and at < len(content):
            content[at] = chance.choice(BYTES) if kind else content[at] ^ (1 << chance.randrange(8))
        elif kind == 3:
            content[at:at] = bytes(chance.choices(BYTES, k=chance.randint(1, 9)))
        elif kind == 4:
            del content[at : at + chance.randint(1, 9)]
        elif chance.randrange(4) == 0:
            del content[at:]
        else:
            content += content[at : at + chance.randint(1, 64)]
    return bytes(content)


def section_case(chance, seeds):
    size, order, content = chance.choice(seeds)
    subcommand = chance.choice(SUBCOMMANDS)
    words = [subcommand, "--size", str(size), "--order", order]
    files = {"a.bin": damaged(chance, content)}
    if subcommand == "unwind":
        words += ["--default", chance.choice(["same", "undefined"])]
        dumps = sorted(EXAMPLES.glob("*.dump"))
        files["dump"] = damaged(chance, chance.choice(dumps).read_bytes())
    words += files
    if subcommand == "same":
        files["b.bin"] = damaged(chance, content)
        words += ["b.bin"]
    if subcommand == "at":
        begin = chance.choice([0, 0x1000, 0x401000, 0xFFFFFFFF, 2 ** (8 * size) - 64])
        words += [hex(begin + chance.randrange(64)) for _ in range(3)]
    return Case(words, files)


def block_case(chance):
    block = damaged(chance, b"".join(chance.sample(BLOCKS, chance.randint(1, 3))))
    words = ["--size", chance.choice("48"), "--order", chance.choice(["little", "big"])]
    if chance.randrange(2):
        more = ["--frame"] if chance.randrange(2) else []
        return Case(["expr", *words, *more, block.hex()], {})
    start = ["--start", hex(chance.choice([0, 1, 0x7FFFFFFF, 0xFFFFFFFF]))]
    return Case(["eval", *words, "--steps", "1000", *chance.choice([[], start]), block.hex()], {})


def answer(program, case, folder):
    ran = subprocess.run([program, *case.words], cwd=folder, capture_output=True)
    return ran.returncode, ran.stdout, ran.stderr


def differences(programs, cases):
    """How many cases the programs answer otherwise. The files stand in a folder of their own."""
    found = 0
    with tempfile.TemporaryDirectory() as folder:
        for number, case in cases:
            for name, content in case.files.items():
                Path(folder, name).write_bytes(content)
            first, second = (answer(program, case, folder) for program in programs)
            if first != second:
                found += 1
                print(f"edition: case {number}: {' '.join(case.words)}: {first}, and {second}")
    return found


def seeds_in(folder):
    """The sections that are damaged: the examples, and made ones of each size and order."""
    for target in sorted(EXAMPLES.glob("*.target")):
        size, order = target.read_text().split()
        yield int(size), order, target.with_suffix(".bin").read_bytes()
    for size in (4, 8):
        for order in ("little", "big"):
            made = Path(folder, "made.bin")
            of = ["--size", str(size), "--order", order]
            synth = [sys.executable, ROOT / "bench/synth.py", made, "6", *of]
            subprocess.run(synth, check=True, stdout=subprocess.DEVNULL)
            yield size, order, made.read_bytes()


def compare_damaged(programs, seed, count):
    chance = random.Random(seed)
    with tempfile.TemporaryDirectory() as folder:
        seeds = list(seeds_in(folder))
    makers = [lambda: section_case(chance, seeds)] * 4 + [lambda: block_case(chance)]
    cases = [(number, makers[number % 5]()) for number in range(count)]
    jobs = os.cpu_count()
    with concurrent.futures.ThreadPoolExecutor(jobs) as pool:
        runs = [pool.submit(differences, programs, cases[job::jobs]) for job in range(jobs)]
        found = sum(run.result() for run in runs)
    print(f"edition: {count} damaged sections and blocks (seed {seed}): {found} answers differ")
    return found


def compare_examples(programs):
    """The answers about the examples, which are those beside them."""
    found = 0
    for target in sorted(EXAMPLES.glob("*.target")):
        size, order = target.read_text().split()
        for subcommand in ("check", "rows", "entries", "normal"):
            name = target.with_suffix(".bin").name
            case = Case([subcommand, "--size", size, "--order", order, name], {})
            first, second = (answer(program, case, EXAMPLES) for program in programs)
            wanted = target.with_suffix(f".{subcommand}")
            texts = [wanted.read_bytes()] if wanted.exists() else []
            found += first != second or any(text != second[1] for text in texts)
    print(f"edition: the examples: {found} answers differ")
    return found


def built():
    """The edition's program with all tests of the compiler, or nothing where it is left out."""
    build = [sys.executable, EDITION / "build.py"]
    crates = subprocess.run([*build, "crates"], stdout=subprocess.PIPE, text=True)
    if crates.returncode and os.environ.get("CI") == "true":
        packages = crates.stdout.split()
        install = ["apt-get", "install", "--yes", "--no-install-recommends", *packages]
        subprocess.run(["apt-get", "update"], check=True, stdout=sys.stderr)
        subprocess.run(install, check=True, stdout=sys.stderr)
    elif crates.returncode:
        print("edition: left out, for cargo or its crates are not here")
        return None
    ran = subprocess.run([*build, "checked"], check=True, stdout=subprocess.PIPE, text=True)
    return ran.stdout.split("\n")[-2]


def main():
    parser = argparse.ArgumentParser()
    parser.add_argument("program")
    parser.add_argument("--seed", type=int, default=1)
    parser.add_argument("--count", type=int, default=5000)
    parser.add_argument("--edition")
    words = parser.parse_args()
    edition = words.edition
    if not edition:
        subprocess.run([sys.executable, EDITION / "test_translate.py"], check=True)
        edition = built()
    if not edition:
        return 0
    programs = [str(Path(path).resolve()) for path in (words.program, edition)]
    worked = subprocess.run([sys.executable, ROOT / "checks/worked.py", programs[1]])
    found = compare_examples(programs) + compare_damaged(programs, words.seed, words.count)
    return 1 if worked.returncode or found else 0


if __name__ == "__main__":
    sys.exit(main())
