#!/usr/bin/env python3
"""Runs the commands that the documents show, and compares what they print with what is printed there.

    documents.py [PROGRAM]
    documents.py --texts

A session is a code block of a page or of the manual with lines that begin with `$ `; its commands run one after another
in a folder of their own, by the built PROGRAM. A line `...` stands for any further lines. Where a session compiles
something, numbers may differ. A session that needs a tool that is missing is left out, and named.

Compared besides: Rust blocks with the sources, names of refusals, faults and calls with those of the code, links with
files and headings, the length of each page and of its lines with what it may have, and the logic of the toolchain with
that of `rt version`. With `--texts` that alone is compared, in a second and without a program.
"""
import os
import pathlib
import platform
import re
import shutil
import subprocess
import sys
import tempfile

ROOT = pathlib.Path(__file__).resolve().parent.parent
PROGRAM = ROOT / "crates/dwframe/out/dwframe"
PAGES = ["README.md", "docs/CALLING.md", "docs/CONTRACTS.md", "docs/LIBRARY.md", "docs/REFUSALS.md"]
# Those without commands, whose links and lines are compared too.
OTHERS = ["SECURITY.md", "CHANGELOG.md", "CONTRIBUTING.md", "examples/README.md"]
OTHERS += [f"docs/{name}.md" for name in ("ARCHITECTURE", "DECISIONS", "DEFINITIONS", "PERFORMANCE", "PROVING")]
MANUAL = "docs/dwframe.1"
REFUSALS = "docs/REFUSALS.md"
CONTRACTS = "docs/CONTRACTS.md"
# How many lines a page may have. A line of a Markdown page has at most WIDTH characters, but for quoted code and for a row of a table
# that checks/definitions.py makes.
LINES = {
    "README.md": 170,
    "SECURITY.md": 50,
    "CHANGELOG.md": 60,
    "docs/ARCHITECTURE.md": 150,
    "docs/CALLING.md": 200,
    "docs/CONTRACTS.md": 250,
    "docs/LIBRARY.md": 150,
    "docs/REFUSALS.md": 160,
    "docs/dwframe.1": 420,
    "docs/dwframe.3": 225,
}
WIDTH = 120
# What stands in the folder of a session.
LENT = ["examples", "section", "crates", "include", "library", "libdwframe.a"]
TOOLS = {"gcc": ["gcc"], "clang": ["clang"], "gdb": ["gdb"], "objcopy": ["objcopy"], "readelf": ["readelf"], "section": ["objcopy", "readelf"]}
# The codes of the sources: file, enum, and the heading of the table in REFUSALS.
CODES = [
    ("crates/dw_num/src/refusal.rt", "Code", "Refusals of a section or of an expression"),
    ("crates/dw_eval/src/error.rt", "Kind", "Faults of an expression"),
    ("crates/dw_dump/src/fault.rt", "DumpCode", "Refusals of a dump"),
]


class Tally:
    def __init__(self):
        self.compared = self.wrong = 0

    def tell(self, good, what):
        self.compared += 1
        if not good:
            self.wrong += 1
            print(what)


def text_of(name):
    return (ROOT / name).read_text()


# ---- sessions


def page_blocks(text):
    """The blocks of a Markdown page that are indented by four blanks. A command and what it `prints` are one."""
    text = re.sub(r"^    (\S.*)\n\nprints\n\n", r"    $ \1\n", text, flags=re.M)
    found = re.findall(r"(?:^    .*\n)+", re.sub(r"^```.*?^```", "", text, flags=re.M | re.S), re.M)
    return [[line[4:] for line in block.splitlines()] for block in found]


def manual_blocks(text):
    """The examples of a manual page."""
    found = re.findall(r"^\.EX\n(.*?)^\.EE", text, re.M | re.S)
    plain = [block.replace(r"\-", "-").replace(r"\(aq", "'").replace(r"\e", "\\").replace(r"\&", "") for block in found]
    return [block.splitlines() for block in plain]


def steps_of(block):
    """The commands of a session, each with the lines that it prints."""
    steps = []
    for line in block:
        if line.startswith("$ "):
            steps.append((line[2:], []))
        else:
            steps[-1][1].append(line)
    return steps


def missing_tools(steps):
    words = {word for command, _ in steps for word in re.findall(r"(?:^|[\s|(])(?:\./)?(\w+)(?=\s)", command)}
    needed = sorted({tool for word in words for tool in TOOLS.get(word, [])})
    built = {path for command, _ in steps for path in re.findall(r"crates/\w+/out/\w+", command)}
    return [tool for tool in needed if not shutil.which(tool)] + [path for path in sorted(built) if not (ROOT / path).exists()]


def compiles(steps):
    return any(re.match(r"(gcc|clang) ", command) for command, _ in steps)


def as_compared(lines, is_compiled):
    return [re.sub(r"0x[0-9a-f]+|[0-9]+", "N", line) for line in lines] if is_compiled else lines


def is_as_shown(printed, shown):
    if "..." in shown:
        end = shown.index("...")
        return printed[:end] == shown[:end]
    return printed == shown


def run(command, folder):
    names = {"PATH": f"{folder}:{os.environ['PATH']}", "LC_ALL": "C.UTF-8", "DWFRAME": f"{folder}/dwframe"}
    options = {"stdout": subprocess.PIPE, "stderr": subprocess.STDOUT, "timeout": 900}
    done = subprocess.run(["sh", "-c", command], cwd=folder, env={**os.environ, **names}, stdin=subprocess.DEVNULL, **options)
    return done.stdout.decode(errors="replace").splitlines()


def run_session(name, steps, folder, tally):
    is_compiled = compiles(steps)
    for command, shown in steps:
        printed = run(command, folder)
        good = is_as_shown(as_compared(printed, is_compiled), as_compared(shown, is_compiled))
        tally.tell(good, f"{name}: $ {command}\n  prints {printed}\n  and not {shown}")


def run_sessions(name, blocks, program, tally):
    with tempfile.TemporaryDirectory() as folder:
        for lent in LENT:
            pathlib.Path(folder, lent).symlink_to(ROOT / lent)
        pathlib.Path(folder, "dwframe").symlink_to(program)
        for block in blocks:
            if not block[0].startswith("$ "):
                continue
            steps = steps_of(block)
            left_out = missing_tools(steps)
            if compiles(steps) and platform.machine() != "x86_64":
                left_out = ["processor of the kind that is shown"]
            if left_out:
                print(f"{name}: $ {steps[0][0]}: left out, for there is no {' and no '.join(left_out)}")
            else:
                run_session(name, steps, folder, tally)


# ---- what stands in the sources


def squeezed(text):
    return "\n".join(line.strip() for line in text.strip().splitlines())


def compare_quotes(name, sources, tally):
    for block in re.findall(r"^```rust\n(.*?)^```", text_of(name), re.M | re.S):
        tally.tell(squeezed(block) in sources, f"{name}: not so in any source:\n{block}")


def section_under(text, heading):
    found = re.search(rf"^#+ {re.escape(heading)}\n(.*?)(?=^#|\Z)", text, re.M | re.S)
    return found[1] if found else ""


def rows_of(text):
    """The rows of a table whose first cells are names, without their links."""
    text = re.sub(r"\[([^\]]*)\]\([^)]*\)", r"\1", text)
    cells = [line.strip("| ").split(" | ") for line in text.splitlines() if line.startswith("| `")]
    return [[cell.strip().replace("`", "") for cell in row] for row in cells]


def manual_item(name, what, byte=""):
    told = f".TP\n.B {name}\n{what[0].upper()}{what[1:]}."
    return told + (f" The byte: {byte}.\n" if byte else "\n")


def compare_codes(tally):
    """The tables have the codes of the sources, and the manual page says the same of each."""
    page, manual = text_of(REFUSALS), text_of(MANUAL).replace(r"\-", "-")
    for path, enum, heading in CODES:
        entry = rf'{enum}::(\w+)(?: \{{ \.\. \}})? => (?:\(?\d+,|"\1")'
        names = list(dict.fromkeys(re.findall(entry, text_of(path))))
        rows = rows_of(section_under(page, heading))
        shown = [row[0] for row in rows]
        tally.tell(names and names == shown, f"{REFUSALS}, {heading}: {shown}, and not {names}")
        for row in rows:
            tally.tell(manual_item(*row) in manual, f"{MANUAL}: not so: {manual_item(*row)}")


def compare_calls(tally):
    """The calls that the items of a crate begin with stand in its sources, and the definitions that are named in its specs."""
    parts = re.split(r"^## `(\w+)`$", text_of(CONTRACTS), flags=re.M)
    for crate, text in zip(parts[1::2], parts[2::2]):
        source = "".join(path.read_text() for path in sorted((ROOT / "crates" / crate / "src").glob("**/*.rt")))
        for calls in re.findall(r"^- ((?:`[^`]+`(?:[,;]\s+)?)+)", text, re.M):
            for call in re.findall(r"`(?:trait )?([\w:]+)`", calls):
                name = call.split("::")[-1]
                known = re.search(rf"\b(fn|struct|enum|trait) {name}\b", source)
                tally.tell(known, f"{CONTRACTS}, {crate}: there is no {call}")
        for path in re.findall(r"`(specs/\w+\.antt)`", text):
            tally.tell((ROOT / "crates" / crate / path).exists(), f"{CONTRACTS}, {crate}: there is no {path}")


def compare_lengths(tally):
    """No page is longer than it may be, and no line but one of quoted code."""
    for name, most in LINES.items():
        count = len(text_of(name).splitlines())
        tally.tell(count <= most, f"{name}: {count} lines, where {most} are allowed")
    for name in [*PAGES, *OTHERS]:
        plain = re.sub(r"^```.*?^```", "", text_of(name), flags=re.M | re.S)
        if name == "docs/DEFINITIONS.md":
            plain = re.sub(r"^\|.*", "", plain, flags=re.M)
        for line in plain.splitlines():
            tally.tell(len(line) <= WIDTH, f"{name}: a line of {len(line)} characters: {line[:60]}..")


# ---- links


def anchors_of(name):
    headings = re.findall(r"^#+ (.*)$", text_of(name), re.M)
    return {re.sub(r"[^\w\- ]", "", heading.lower()).replace(" ", "-") for heading in headings}


def compare_links(name, tally):
    for link in re.findall(r"\]\(([^):]+)\)", text_of(name)):
        path, _, anchor = link.partition("#")
        goal = (ROOT / name).parent / path if path else ROOT / name
        good = goal.exists() and (not anchor or anchor in anchors_of(goal.relative_to(ROOT) if path else name))
        tally.tell(good, f"{name}: the link {link} leads nowhere")
    for path in re.findall(r"`(?!crates/NAME)((?:checks|docs|examples|bench|crates)/[\w./-]+\.\w+)`", text_of(name)):
        tally.tell((ROOT / path).exists(), f"{name}: there is no {path}")


def compare_version(tally):
    """A kit of another name with the logic that the README names is told, and is not wrong: it reads the same proofs."""
    if not shutil.which("rt"):
        return
    line = subprocess.run(["rt", "version"], capture_output=True, text=True).stdout.strip()
    kit, _, logic = line.partition(" ")
    tally.tell(logic and f" {logic}`" in text_of("README.md"), f"README.md: the toolchain is {line}")
    if f"`{line}`" not in text_of("README.md"):
        print(f"README.md names another kit than this one, {kit}")


def compare_texts(tally):
    files = [*ROOT.glob("crates/*/src/*.rt"), *ROOT.glob("edition/package/examples/*.rs")]
    sources = "\n".join(squeezed(path.read_text()) for path in sorted(files))
    for name in PAGES:
        compare_quotes(name, sources, tally)
    compare_codes(tally)
    compare_calls(tally)
    compare_lengths(tally)
    for name in [*PAGES, *OTHERS]:
        compare_links(name, tally)
    compare_version(tally)


def run_pages(program, tally):
    if not program.exists():
        raise SystemExit(f"there is no {program}: ./prove builds it")
    for name in PAGES:
        run_sessions(name, page_blocks(text_of(name)), program, tally)
    run_sessions(MANUAL, manual_blocks(text_of(MANUAL)), program, tally)


def main():
    tally = Tally()
    if sys.argv[1:] != ["--texts"]:
        run_pages(pathlib.Path(sys.argv[1] if len(sys.argv) > 1 else PROGRAM).resolve(), tally)
    compare_texts(tally)
    print(f"documents: {tally.compared} compared, {tally.wrong} wrong")
    return 1 if tally.wrong else 0


if __name__ == "__main__":
    sys.exit(main())
