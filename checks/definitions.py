#!/usr/bin/env python3
"""docs/DEFINITIONS.md: what a reader of the public contracts has to believe. For each crate it lists the calls that it exports, with the
definitions that their clauses name, and how many definitions stand behind these, in how many lines. Names are followed through the files
of specs/; comments, imports and blank lines are not counted.

    checks/definitions.py [--write] [--root FOLDER]

It compares the file with what the sources say, and --write writes it. It fails where a clause rests on a definition of specs/Inner,
which are the code's own, and where a definition stands in specs/ outside that folder that no public call rests on.
"""
import argparse
import os
import re
import sys

WORD = re.compile(r"[^\s(){}\[\],;.:λ→×]+")
# Inside a module with parameters items are indented, and so are the fields of a record, which begin with `pub` alone.
ITEM = re.compile(
    r"^(?!pub use)(?:(?:abbrev|unfoldable|opaque|pub|data|record)\s+)+([^\s:({]+)"
    r"|^  (?:pub\s+)?(?:abbrev|unfoldable|opaque|data|record)\s+(?:pub\s+)?([^\s:({]+)"
)
# Behind its clauses a function has a body, and a method of a trait, which is never `pub`, may have none.
FN = re.compile(r"^( *)(pub )?(?:const |(extern \"C\") )?fn (\w+)(.*?)(?:^\1[{}]|;$)", re.M | re.S)
# A clause that is long goes on in the next lines.
CLAUSE = re.compile(r"^ *(?:requires|ensures)\b.*(?:\n(?! *(?:requires\b|ensures\b|//)).+)*", re.M)
OWNER = re.compile(r"^(?:impl(?:<[^>]*>)? (?:[\w:<>', ]+ for )?(\w+)|pub trait (\w+))", re.M)
MODEL = re.compile(r"^impl(?:<[^>]*>)? (?:Model|Iterator) for (\w+).*?^\}", re.M | re.S)
# Of a model only the type of its value is read: how private fields keep that value changes nothing for a caller.
GHOST = re.compile(r"^ *ghost (?:Value|next_gives|remaining)\b[^;]*;", re.M)
HEAD = """# What has to be believed

The code is proved against its contracts, and a contract means what its definitions say. A reader has to believe these
definitions, and nothing else in this repository. Each stands in `specs/` of the crate under which it is listed here.

`checks/definitions.py` makes this list from the sources. For each call it says how many clauses (`ensures`) the call
has, which definitions these clauses name, and how many definitions stand behind these, in how many lines without
comments. A definition behind several calls counts for each of them, and once in the sums. The clauses of a type speak
of its value. The type of that value counts; how private fields represent the value (`view`, `invariant`) does not,
since the clauses hold of one value whatever they say, and no caller sees another.

Only what a crate exports is listed, in the order of its sources. A method of one of our traits stands under the trait.
The clauses of an iterator's `next` are what its type says of it (`next_gives`, `remaining`). Other methods that a type
has by a trait (`==`, hashes, conversions, writes) are not listed; [CONTRACTS.md](CONTRACTS.md) says which of them rest
on `specs/Inner`.
"""


def read(path):
    with open(path, encoding="utf-8") as it:
        return it.read()


GROUP = re.compile(r"([^\s,{}]+)\.\{([^{}]*)\}")


def items(path):
    """The paths that a `use` line brings, which may have groups in groups."""
    flat = path
    while GROUP.search(flat):
        flat = GROUP.sub(lambda it: ", ".join(f"{it[1]}.{name.strip()}" for name in it[2].split(",")), flat)
    return [path] if flat == path else flat.split(", ")


def imports(text, keyword):
    """What `use` lines bring: a short name, and the module and the name there, which is none for a module itself."""
    found = {}
    for line in re.findall(rf"^\s*{keyword} ([^;\n]+);?$", text, re.M):
        for item in items(line.strip()):
            path, _, other = item.partition(" as ")
            module, _, name = path.rpartition(".")
            found[other or name] = (module, name) if ".{" in line else (path, None)
    return found


class Specs:
    """The definitions of all crates, each with its lines, and what its module imports."""

    def __init__(self, root):
        self.items, self.uses, self.passed = {}, {}, {}
        for crate in sorted(os.listdir(f"{root}/crates")):
            folder = f"{root}/crates/{crate}/specs"
            for at, _, names in os.walk(folder):
                for name in sorted(names):
                    if name.endswith(".antt") and name != "Lib.antt":
                        inside = os.path.relpath(f"{at}/{name}", folder)[:-5].replace("/", ".")
                        self.take(f"Rattle.{crate}.specs.{inside}", read(f"{at}/{name}"))

    def take(self, module, text):
        self.uses[module] = imports(text, "(?:pub )?use")
        self.passed.update({(module, name): to for name, to in imports(text, "pub use").items()})
        name = None
        for line in text.split("\n"):
            match = ITEM.match(line)
            if match:
                name = match[1] or match[2]
                self.items.setdefault((module, name), [])
            elif line.lstrip().startswith(("use ", "pub use ", "module ")):
                name = None
            if name and line.strip() and not line.lstrip().startswith("--"):
                self.items[module, name].append(line)

    def stands(self, key):
        """Where a definition stands that modules may pass on by `pub use`."""
        while key in self.passed:
            key = self.passed[key]
        return key

    def named(self, module, text):
        uses, found = {short: self.stands(it) for short, it in self.uses.get(module, {}).items()}, set()
        for word in WORD.findall(text):
            if (module, word) in self.items:
                found.add((module, word))
            elif uses.get(word) in self.items:
                found.add(uses[word])
        for short, (path, name) in uses.items():
            if name is None:
                found |= {(path, word) for word in re.findall(rf"\b{re.escape(short)}\.(\w+)", text) if (path, word) in self.items}
        return found

    def behind(self, start):
        found, left = set(), list(start)
        while left:
            key = left.pop()
            if key not in found:
                found.add(key)
                left += self.named(key[0], "\n".join(self.items[key]))
        return found

    def lines(self, keys):
        return sum(len(self.items[it]) for it in keys)


def rests_on(specs, uses, text):
    return {it for it in (specs.stands(uses.get(word)) for word in WORD.findall(text)) if it in specs.items}


def exports(text):
    """The names that the `pub use` of a lib.rt bring, each with the file that it stands in."""
    found = re.findall(r"^pub use (\w+)::\{?([\w,\s]+)", text, re.M)
    return {name: f"{module}.rt" for module, names in found for name in re.findall(r"\w+", names)}


def functions(file, text, exported):
    """The functions of a file that callers outside see: the type or trait of each, its name, its text and its clauses."""
    owners = list(OWNER.finditer(text))
    for fn in FN.finditer(text):
        owner = next((it for it in reversed(owners) if it.start() < fn.start()), None) if fn[1] else None
        who = owner and (owner[1] or owner[2])
        is_exported = who in exported and (fn[2] or owner[2]) if who else fn[3] or exported.get(fn[4]) == file
        if is_exported:
            yield who, fn[4], fn[5], CLAUSE.findall(fn[5])
    for block in MODEL.finditer(text):
        if block[1] in exported and "next_gives" in block[0]:
            yield block[1], "next", block[0], GHOST.findall(block[0])


def calls(folder, specs):
    """The calls that a crate exports: name, how many clauses, the definitions that these name, and those of the models of its types."""
    texts = {it: read(f"{folder}/{it}") for it in sorted(os.listdir(folder)) if it.endswith(".rt")}
    models, exported = {}, exports(texts["lib.rt"])
    for text in texts.values():
        for block in MODEL.finditer(text):
            uses = {**imports(text, "ghost use"), **imports(block[0], "ghost use")}
            models.setdefault(block[1], set()).update(rests_on(specs, uses, "\n".join(GHOST.findall(block[0]))))
    for file, text in texts.items():
        uses = imports(text, "ghost use")
        for who, name, whole, clauses in functions(file, text, exported):
            types = {who, *re.findall(r"\b[A-Z]\w+", whole)}
            kept = set().union(*(models.get(it, set()) for it in types))
            count = sum(not it.lstrip().startswith("requires") for it in clauses)
            yield f"{who}::{name}" if who else name, count, rests_on(specs, uses, "\n".join(clauses)), kept


def short(keys):
    return ", ".join(f"`{name}`" for _, name in sorted(keys, key=lambda it: it[1])) or "none"


def written(root):
    specs, everything, parts, sums = Specs(root), set(), [], []
    crates = [it.split(":")[0].split()[0] for it in read(f"{root}/crates.txt").split("\n") if it.strip() and not it.startswith("#")]
    for crate in crates:
        if not os.path.isdir(f"{root}/crates/{crate}/specs"):
            continue
        rows, whole = [], set()
        for name, clauses, named, kept in calls(f"{root}/crates/{crate}/src", specs):
            behind = specs.behind(named | kept)
            whole |= behind
            rows.append(f"| `{name}` | {clauses} | {short(named)} | {len(behind)} in {specs.lines(behind)} |")
        everything |= whole
        own = {it for it in whole if it[0].startswith(f"Rattle.{crate}.")}
        sums.append(f"| `{crate}` | {len(rows)} | {len(own)} | {specs.lines(own)} | {specs.lines(whole)} |")
        if rows:
            parts.append("\n".join([f"## `{crate}`\n", "| Call | Clauses | Its clauses name | All behind them, in lines |", "|---|---|---|---|", *rows, ""]))
    table = ["| Crate | Calls | Definitions of its own | in lines | with those of lower crates |", "|---|---|---|---|---|", *sums]
    total = f"\nAll crates together: {len(everything)} definitions in {specs.lines(everything)} lines.\n"
    inner = {it for it in everything if ".Inner." in it[0]}
    idle = {it for it in specs.items if ".Inner." not in f"{it[0]}."} - everything
    return "\n".join([HEAD, *table, total, *parts]), inner, idle


def main():
    parser = argparse.ArgumentParser(description=__doc__)
    parser.add_argument("--root", default=os.path.join(os.path.dirname(os.path.abspath(__file__)), ".."))
    parser.add_argument("--write", action="store_true")
    given = parser.parse_args()
    path, (text, inner, idle) = f"{given.root}/docs/DEFINITIONS.md", written(given.root)
    if inner:
        print("clauses of public calls rest on definitions of specs/Inner:", short(inner))
        return 1
    if idle:
        print("definitions outside of specs/Inner that no public call rests on:", short(idle))
        return 1
    if given.write:
        with open(path, "w", encoding="utf-8") as it:
            it.write(text)
    elif not os.path.isfile(path) or read(path) != text:
        print("docs/DEFINITIONS.md is not what the sources say: checks/definitions.py --write makes it")
        return 1
    print(re.search(r"All crates together: .*", text)[0])
    return 0


if __name__ == "__main__":
    sys.exit(main())
