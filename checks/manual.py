#!/usr/bin/env python3
"""Compares the manual page docs/dwframe.1 with the program's help.

    manual.py [PROGRAM]

Each subcommand with its options and operands, each option, and each exit status that the one names, the other names too. Where man, groff or
mandoc are installed, the page has to pass them without a warning.
"""
import pathlib
import re
import shutil
import subprocess
import sys

ROOT = pathlib.Path(__file__).resolve().parent.parent
PAGE = ROOT / "docs/dwframe.1"
PROGRAM = ROOT / "crates/dwframe/out/dwframe"
LINTERS = [
    ["man", "--warnings", "-E", "UTF-8", "-l", "-Tutf8", "-Z"],
    ["groff", "-man", "-Tutf8", "-ww", "-Z"],
    ["mandoc", "-T", "lint", "-W", "warning"],
]
# Options that the page names once for all subcommands.
COMMON = {"--size", "--order", "-h", "--help"}


def options_in(text):
    return set(re.findall(r"(?<![\w-])--?[a-zA-Z][\w-]*", text))


def operands_in(text):
    return set(re.findall(r"(?<![\w-])(?:FILE2?|HEX|DUMP|ADDRESS)\b", text))


# ---- the help


def help_of(program, *words):
    return subprocess.run([program, *words, "--help"], capture_output=True, text=True, check=True).stdout


def block_under(text, heading):
    """What stands below a heading, up to the next one."""
    found = re.search(rf"^{heading}:\n((?:[ \t].*\n|\n)*)", text, re.M)
    return found[1] if found else ""


def help_facts(program):
    """Its subcommands, each with its options and operands; all options; all exit statuses."""
    top = help_of(program)
    names = re.findall(r"^  ([a-z]+)\b", block_under(top, "Commands"), re.M)
    texts = {name: help_of(program, name) for name in names if name != "help"}
    options = {name: options_in(block_under(text, "Options")) for name, text in texts.items()}
    usages = {name: re.search(r"^Usage: (.*)$", text, re.M)[1] for name, text in texts.items()}
    subcommands = {name: (options[name] - COMMON, operands_in(usages[name])) for name in texts}
    statuses = set(re.findall(r"^  ([0-9]) ", block_under(top, "Exit status"), re.M))
    return subcommands, options_in(block_under(top, "Options")).union(*options.values()), statuses


# ---- the page


def part_under(page, name):
    found = re.search(rf"^\.SH {name}\n(.*?)(?=^\.SH|\Z)", page, re.M | re.S)
    return found[1] if found else ""


def page_facts():
    page = re.sub(r"\\f[BIR]", "", PAGE.read_text().replace(r"\-", "-"))
    synopses = re.findall(r'^\.SS "(\w+)(.*)"$', part_under(page, "SUBCOMMANDS"), re.M)
    subcommands = {name: (options_in(words), operands_in(words)) for name, words in synopses}
    options = options_in("\n".join(re.findall(r"^\.B.*", part_under(page, "OPTIONS"), re.M)))
    return subcommands, options, set(re.findall(r"^\.B ([0-9])$", part_under(page, "EXIT STATUS"), re.M))


def warnings_of(linter):
    if not shutil.which(linter[0]):
        print(f"manual: {linter[0]} is not installed, and left out")
        return ""
    done = subprocess.run([*linter, PAGE], capture_output=True, text=True)
    return (done.stderr + (done.stdout if linter[0] == "mandoc" else "")).strip()


def main():
    program = pathlib.Path(sys.argv[1] if len(sys.argv) > 1 else PROGRAM).resolve()
    wrong = [warnings for warnings in map(warnings_of, LINTERS) if warnings]
    of_page, of_help = page_facts(), help_facts(program)
    for what, shown, helped in zip(["subcommands", "options", "exit statuses"], of_page, of_help):
        if not helped:
            print(f"manual: the help names no {what}, which are left out")
        elif shown != helped:
            wrong.append(f"{what}: the page has {shown}, the help {helped}")
    print("\n".join(wrong) or f"manual: {len(of_help[0])} subcommands as in the help")
    return 1 if wrong else 0


if __name__ == "__main__":
    sys.exit(main())
