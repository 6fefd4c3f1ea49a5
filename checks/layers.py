#!/usr/bin/env python3
"""Layers by their promises: what the crates of the product name of the crates below them.

A crate promises what its public clauses say, and no public clause rests on its specs/Inner (checks/definitions.py). A proof above may name
more of it: a definition of its specs/Inner, or a lemma of its proofs. The crates of BY_PROMISES name no specs/Inner of a crate below, and no
lemma whose statement speaks of one, be it through a word of a proof's file. The others keep to BUDGETS: what they name today, each name
once a crate, so that it can only get less.

    checks/layers.py [--list CRATE] [--root FOLDER]

--list shows what a crate names, and what of specs/Inner a lemma's statement speaks of.
"""
import argparse
import os
import re
import sys

from definitions import WORD, imports, read

BY_PROMISES = ("dw_section", "dw_dump", "dw_frame", "dw_unwind")
# Definitions of specs/Inner, lemmas of proofs. A lemma of a crate of BY_PROMISES counts too: what is left is listed in docs/PROVING.md.
BUDGETS = {
    "dw_op": (3, 52),
    "dw_eval": (1, 4),
    "dw_row": (4, 2),
    "dw_cfa": (8, 49),
    "dw_section": (0, 69),
    "dw_canon": (44, 97),
    "dw_normal": (43, 45),
    "dw_dump": (0, 2),
    "dw_frame": (0, 4),
    "dw_unwind": (0, 1),
    "dw_show": (3, 6),
    "dw_command": (0, 4),
    "dw_library": (0, 4),
}
BELOW = re.compile(r"Rattle\.(dw_\w+)\.(specs\.Inner|proofs)\.")
# In the code's attributes a lemma is named by its path.
PATH = re.compile(r"\b(dw_\w+::(?:specs::Inner|proofs)::[\w:-]+)")
# A declaration: a definition says all of itself, a lemma its type.
ITEM = re.compile(r"(?:(?:pub|unfoldable|opaque) )*(abbrev |data |record )?(?:pub )?([^\s:({]+)(?=[ :({])")
USE = "(?:unfoldable )?(?:ghost |pub )?use"


def modules(root, crate):
    for part in ("src", "specs", "proofs"):
        folder = f"{root}/crates/{crate}/{part}"
        for at, _, names in os.walk(folder):
            for name in sorted(names):
                inside, _, ending = os.path.relpath(f"{at}/{name}", folder).rpartition(".")
                if ending in ("rt", "antt"):
                    yield f"Rattle.{crate}.{part}.{inside.replace('/', '.')}", read(f"{at}/{name}")


def statements(text):
    """What each item of a file says, with the parameters of the modules that it stands in."""
    found, around, name, is_definition = {}, {}, None, False
    for line in text.split("\n"):
        bare = line.strip()
        if not bare or bare.startswith("--") or re.match(USE, bare):
            continue
        at = len(line) - len(line.lstrip())
        around = {indent: module for indent, module in around.items() if indent < at}
        item = ITEM.match(bare) if at == 0 or at - 2 in around else None
        if bare.startswith("module "):
            around[at], name = bare, None
        elif item and item[2] not in found and item[2] != "unfolding":
            name, is_definition = item[2], bool(item[1])
            found[name] = "\n".join([*around.values(), bare])
        elif item and not is_definition:
            name = None
        elif name:
            found[name] += f"\n{bare}"
    return found


class Layers:
    def __init__(self, root, crates):
        self.files, self.uses, self.items = {crate: [] for crate in crates}, {}, {}
        for crate in crates:
            for module, text in modules(root, crate):
                uses = imports(text, USE)
                for path in PATH.findall(text):
                    at, _, name = f"Rattle.{path.replace('::', '.')}".rpartition(".")
                    uses[name] = (at, name)
                self.files[crate].append(module)
                self.uses[module] = uses
                self.items.update({(module, name): it for name, it in statements(text).items()})

    def declared(self, module, name):
        """Where a name is declared that a module has, as one that it passes on too."""
        while (module, name) not in self.items and self.uses.get(module, {}).get(name, (None, None))[1]:
            module, name = self.uses[module][name]
        return module, name

    def inner(self, key):
        """The definitions of specs/Inner that a lemma's statement speaks of, or a word of a proof's file in it."""
        found, seen, left = set(), set(), [self.declared(*key)]
        while left:
            at = left.pop()
            if at not in seen and at in self.items:
                seen.add(at)
                words = {self.declared(at[0], word) for word in WORD.findall(self.items[at])}
                found |= {it for it in words if ".specs.Inner." in it[0]}
                left += [it for it in words if ".proofs." in it[0]]
        return found

    def named(self, crate):
        """What a crate names of those below: definitions of specs/Inner, and lemmas."""
        inner, lemmas = set(), set()
        for module in self.files[crate]:
            for it in self.uses[module].values():
                at, name = self.declared(*it) if it[1] else it
                below = BELOW.match(f"{at}.")
                if below and below[1] != crate:
                    (inner if below[2] == "specs.Inner" else lemmas).add((at, name or "*"))
        return sorted(inner), sorted(lemmas)


def text_of(keys):
    return ", ".join(f"{module.removeprefix('Rattle.')}.{name}" for module, name in sorted(keys))


def faults(layers, crate):
    inner, lemmas = layers.named(crate)
    most = BUDGETS.get(crate, (0, 0))
    if crate in BY_PROMISES:
        for key in inner:
            yield f"{crate} names {text_of([key])}"
        for key in lemmas:
            if layers.inner(key):
                yield f"{crate} names {text_of([key])}, which speaks of {text_of(layers.inner(key))}"
    if len(inner) > most[0] or len(lemmas) > most[1]:
        yield f"{crate} names {len(inner)} definitions of specs/Inner and {len(lemmas)} lemmas of crates below: at most {most[0]} and {most[1]}"


def main():
    parser = argparse.ArgumentParser(description=__doc__)
    parser.add_argument("--root", default=os.path.join(os.path.dirname(os.path.abspath(__file__)), ".."))
    parser.add_argument("--list", metavar="CRATE")
    given = parser.parse_args()
    lines = [it.split(":")[0].split() for it in read(f"{given.root}/crates.txt").split("\n") if it.strip() and not it.startswith("#")]
    layers = Layers(given.root, [it[0] for it in lines])
    if given.list:
        for key in sum(layers.named(given.list), []):
            print(text_of([key]), *(f"({it})" for it in [text_of(layers.inner(key))] if it and ".proofs" in key[0]))
        return 0
    wrong = [it for crate in layers.files for it in faults(layers, crate)]
    for line in wrong:
        print(line)
    counts = {crate: layers.named(crate) for crate in layers.files}
    print("named of crates below, of specs/Inner and lemmas:", ", ".join(f"{crate} {len(it[0])} and {len(it[1])}" for crate, it in counts.items() if any(it)))
    return 1 if wrong else 0


if __name__ == "__main__":
    sys.exit(main())
