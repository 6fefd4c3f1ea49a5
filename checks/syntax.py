#!/usr/bin/env python3
"""Reads every script without running it: those for sh and bash by the shell itself, and those in
Python as version 3.9 reads them."""
import ast
import os
import re
import subprocess
import sys

from crates import ROOT

MADE = {".git", "out", "target", "__pycache__"}


def scripts():
    """The scripts of the repository, each with the interpreter that it names or that its name
    tells."""
    for at, folders, names in os.walk(ROOT):
        folders[:] = [it for it in folders if it not in MADE]
        for name in names:
            path = os.path.join(at, name)
            with open(path, "rb") as file:
                head = file.readline(80)
            found = re.match(rb"#!.*?(\w+)\s*$", head)
            if found or name.endswith(".py"):
                yield path, found[1].decode() if found else "python3"


def fault_of(path, interpreter):
    """What is wrong with a script, if anything is."""
    if interpreter in ("sh", "bash"):
        ran = subprocess.run([interpreter, "-n", path], stderr=subprocess.PIPE, text=True)
        return ran.stderr.strip()
    try:
        with open(path, encoding="utf-8") as file:
            ast.parse(file.read(), path, feature_version=(3, 9))
    except SyntaxError as error:
        return f"{path}:{error.lineno}: {error.msg}"
    return ""


def main():
    found = sorted(scripts())
    faults = [it for it in (fault_of(*script) for script in found) if it]
    print(*faults, f"syntax: {len(found)} scripts, {len(faults)} with faults", sep="\n")
    return bool(faults)


if __name__ == "__main__":
    sys.exit(main())
