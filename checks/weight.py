#!/usr/bin/env python3
"""What the product weighs, crate by crate: lines and functions of its sources, lines of its
definitions (public, and those of specs/Inner) and of its proofs, and its longest line.

    checks/weight.py [--than COMMIT] [--root FOLDER]

--than prints the sums of another commit beside. It fails where a source file, also one of the
scripts and examples, has more than 500 lines, or a function more than 60.
"""
import argparse
import ast
import collections
import os
import pathlib
import re
import subprocess
import sys

MOST_LINES, MOST_OF_FUNCTION = 500, 60
# Files that have more, with the lines that they have: each can only get shorter.
LONGER = {"checks/core.py": 525}
# Crates that are no part of the product.
BESIDE = ("texts", "cases", "caller")
COLUMNS = ["sources", "functions", "public", "specs", "inner", "proofs", "longest"]
FUNCTION = re.compile(r'^( *)(pub(?:\([a-z]+\))? )?(?:const )?(?:extern "C" )?fn (\w+)', re.M)
# Where a function ends: its first line, the bracket of its body, or its last line without one.
END_OF_FUNCTION = r"\A.*[;}}]$|^{indent}(?:\}}|\{{.*\}}|\).*;|    (?:ensures|requires).*;)$"
SOURCES = (".rt", ".rs", ".py", ".sh", ".c", ".h", ".cpp")
# What is made, and the header, which is one for all calls.
LEFT_OUT = {".git", "out", "target", "__pycache__", "include"}


def git(root, *words):
    return subprocess.check_output(["git", *words], cwd=root, text=True)


def files_now(root):
    """The text of each source, definition and proof of a crate, with its name."""
    for path in sorted((root / "crates").glob("*/*/**/*")):
        if path.suffix in (".rt", ".antt") and "out" not in path.parts:
            yield str(path.relative_to(root)), path.read_text()


def files_then(root, commit):
    for name in git(root, "ls-tree", "-r", "--name-only", commit, "crates").splitlines():
        if name.endswith((".rt", ".antt")):
            yield name, git(root, "show", f"{commit}:{name}")


def kind_of(parts):
    if parts[0] == "src":
        return "sources"
    if parts[0] == "specs":
        return "inner" if parts[1] == "Inner" else "specs"
    return parts[0]


def weigh(files):
    table = collections.defaultdict(collections.Counter)
    for name, text in files:
        _, crate, *parts = name.split("/")
        if crate in BESIDE:
            continue
        row = table[crate]
        row[kind_of(parts)] += text.count("\n")
        row["longest"] = max(row["longest"], *map(len, text.split("\n")))
        if parts[0] == "src":
            found = [match[2] for match in FUNCTION.finditer(text)]
            row["functions"] += len(found)
            row["public"] += found.count("pub ")
    return table


def total(table):
    sums = {it: sum(row[it] for row in table.values()) for it in COLUMNS}
    return {**sums, "longest": max(row["longest"] for row in table.values())}


def print_row(name, row):
    print(f"{name:12}" + "".join(f"{row[it]:11}" for it in COLUMNS))


def sources(root):
    """Each source file of the repository, scripts too, with its text."""
    for at, folders, names in os.walk(root):
        folders[:] = [it for it in folders if it not in LEFT_OUT]
        for path in (pathlib.Path(at, name) for name in names):
            is_script = not path.suffix and path.open("rb").read(2) == b"#!"
            if is_script or path.suffix in SOURCES:
                yield str(path.relative_to(root)), path.read_text()


def functions_of(name, text):
    """The functions of a source in Rattle, Rust or Python, each with its lines, contract
    included."""
    if name.endswith(".py"):
        found = (it for it in ast.walk(ast.parse(text)) if isinstance(it, ast.FunctionDef))
        yield from ((it.name, it.end_lineno - it.lineno + 1) for it in found)
    elif name.endswith((".rt", ".rs")):
        for match in FUNCTION.finditer(text):
            rest = text[match.start(3) :]
            end = re.search(END_OF_FUNCTION.format(indent=match[1]), rest, re.M)
            yield match[3], rest[: end.end() if end else None].count("\n") + 1


def too_long(root):
    for name, text in sources(root):
        lines, most = text.count("\n"), LONGER.get(name, MOST_LINES)
        if lines > most:
            yield f"{name}: {lines} lines, where {most} are allowed"
        for function, lines in functions_of(name, text):
            if lines > MOST_OF_FUNCTION:
                yield f"{name}: the function {function} has {lines} lines, of {MOST_OF_FUNCTION}"


def main():
    form = argparse.RawDescriptionHelpFormatter
    words = argparse.ArgumentParser(description=__doc__, formatter_class=form)
    words.add_argument("--than")
    here = pathlib.Path(__file__).resolve().parent.parent
    words.add_argument("--root", type=pathlib.Path, default=here)
    asked = words.parse_args()
    table = weigh(files_now(asked.root))
    print(f"{'crate':12}" + "".join(f"{it:>11}" for it in COLUMNS))
    for crate, row in table.items():
        print_row(crate, row)
    print_row("sum", total(table))
    if asked.than:
        print_row(asked.than[:11], total(weigh(files_then(asked.root, asked.than))))
    wrong = [*too_long(asked.root)]
    print(*(f"weight: {it}" for it in wrong), sep="\n", end="", file=sys.stderr)
    return bool(wrong)


if __name__ == "__main__":
    sys.exit(main())
