#!/usr/bin/env python3
"""Writes the Rust edition of dwframe: the proved text as one cargo package in safe Rust.

    translate.py CHECKOUT OUT

Each crate becomes a module under `src/proved` of the package in OUT, token by token, comments too.
Only this goes or changes:

  gone      `requires`, `ensures` and `ghost` with what they say, whole blocks `impl Model for ..`,
            `#[tactic(..)]`, and among derives `Drop`, and `Clone` where `Copy` is not
  changed   `prove!` to `debug_assert!`; the writer of a `fn fmt` to Rust's; `main` to a function
            that may be called; `crate::`, `pub(crate)` and the names of crates to their modules;
            `std` and the crates in PORTS to modules of `support`, which is written by hand
  added     a line that names the origin, and a `use` for the names that need none in Rattle

What is neither Rust nor one of these, or means something else in Rust, is refused by file and line.
"""
import re
import sys
from pathlib import Path

# Crates whose port has other calls than the Rust crate.
PORTS = {"clap", "hex", "smallvec"}
# What needs no `use` in Rattle, and is something else under that name in Rust, or is not there.
PRELUDE = {"AllocGlobal", "Clone", "Drop", "HostRuntime", "String", "Vec"}
PRELUDE_MACROS = {"assert", "assert_eq", "format"}
MACROS = PRELUDE_MACROS | {"concat", "format_args", "matches", "unreachable", "write", "writeln"}
PROVED = {f"prove{kind}": f"debug_assert{kind}" for kind in ("", "_eq", "_ne")}
ATTRIBUTES = {
    "allow", "cfg", "cold", "default", "derive", "doc", "error", "inline", "must_use",
    "non_exhaustive", "repr", "tactic", "test", "unsafe",
}
DERIVES = {
    "Clone", "Copy", "Debug", "Default", "Drop", "Eq", "Error", "Hash", "Ord", "PartialEq",
    "PartialOrd",
}
# Words that only Rattle has. Rust would take most of them for names.
RATTLE = {"also_owns", "derive_where", "final", "forever", "Model", "Owns", "ensures", "requires"}
# Words before a `!` that is no macro's.
BEFORE_NOT = {"break", "else", "if", "in", "match", "return", "while"}

TOKEN = re.compile(
    r"""(?P<space>\s+)
      | (?P<comment>//[^\n]*|/\*.*?\*/)
      | (?P<text>[bc]?r(?P<hashes>\#*)".*?"(?P=hashes)|[bc]?"(?:\\.|[^"\\])*")
      | (?P<char>b?'(?:\\x..|\\u\{[^}]*\}|\\.|[^'\\])')
      | (?P<lifetime>'[^\W\d]\w*)
      | (?P<word>(?:r\#)?[^\W\d]\w*)
      | (?P<number>\d\w*)
      | (?P<mark>::|->|=>|\.\.=?|.)""",
    re.VERBOSE | re.DOTALL,
)
CLOSING = {"(": ")", "[": "]", "{": "}"}


class Refusal(Exception):
    """A form that is not translated, by file and line."""


class Token:
    def __init__(self, kind, text):
        self.kind, self.text, self.gone = kind, text, False


class Source:
    """A file in Rattle as tokens. A place counts its code, which spaces and comments are not."""

    def __init__(self, file, text):
        self.file = file
        self.tokens = [Token(found.lastgroup, found[0]) for found in TOKEN.finditer(text)]
        kinds = enumerate(token.kind for token in self.tokens)
        self.code = [i for i, kind in kinds if kind not in ("space", "comment")]

    def word(self, k):
        return self.tokens[self.code[k]].text if 0 <= k < len(self.code) else ""

    def spells(self, k, text):
        return all(self.word(k + i) == word for i, word in enumerate(text.split()))

    def refuse(self, k, why):
        before = self.tokens[: self.code[min(k, len(self.code) - 1)]]
        line = 1 + sum(token.text.count("\n") for token in before)
        raise Refusal(f"{self.file}:{line}: {why}")

    def past(self, k):
        """The place behind the bracket that opens at k."""
        opening, close = k, CLOSING[self.word(k)]
        k += 1
        while self.word(k) != close:
            if k >= len(self.code) or self.word(k) in CLOSING.values():
                self.refuse(opening, "this bracket is not closed")
            k = self.past(k) if self.word(k) in CLOSING else k + 1
        return k + 1

    def next_of(self, k, mark):
        """The first such mark from k on that stands outside brackets."""
        start = k
        while self.word(k) != mark:
            k = self.past(k) if self.word(k) in CLOSING else k + 1
            if k >= len(self.code):
                self.refuse(start, f"no {mark} follows")
        return k

    def change(self, k, text):
        self.tokens[self.code[k]].text = text

    def drop(self, first, last):
        for token in self.tokens[self.code[first] : self.code[last - 1] + 1]:
            token.gone = True

    def drop_item(self, first, last):
        """Drops an item with the comments directly above it."""
        self.drop(first, last)
        place = self.code[first] - 1
        while place > 0 and self.tokens[place].text.count("\n") < 2:
            above = self.tokens[place - 1]
            if above.kind != "comment" or above.text.startswith("//!"):
                return
            above.gone = True
            place -= 2

    def written(self):
        """The text. Of spaces that meet the largest stands; no block begins or ends blank."""
        pieces, space, met = [], "", 0
        for token in [token for token in self.tokens if not token.gone] + [Token("end", "")]:
            if token.kind == "space":
                lines = max(space.count("\n"), token.text.count("\n"))
                indent = token.text.rpartition("\n")[2]
                space = "\n" * min(lines, 2) + indent if lines else token.text
                met += 1
                continue
            opens, closes = pieces and pieces[-1] == "{", token.text == "}"
            if met > 1 and "\n" in space and (opens or closes):
                space = "" if opens and closes else "\n" + space.rpartition("\n")[2]
            pieces += [space, token.text] if pieces else [token.text]
            space, met = "", 0
        return "".join(pieces).strip() + "\n"


class Translation(Source):
    """A file of a crate on its way to Rust. `home` is how its package names what is proved."""

    def __init__(self, file, text, module, crates, home="crate::proved"):
        super().__init__(file, text)
        self.module, self.crates, self.home = module, crates, home
        self.own = f"crate::proved::{module}" if home.startswith("crate") else f"crate::{module}"
        words = range(len(self.code))
        self.macros = {self.word(k + 2) for k in words if self.spells(k, "macro_rules !")}

    def text(self):
        k = 0
        while k < len(self.code):
            k = self.treat(k)
        lines = self.written().split("\n")
        # Behind the comment and the attributes of the module itself.
        head = next(i for i, line in enumerate(lines) if not line.startswith(("//!", "#![")))
        names = self.names()
        listed = names[0] if len(names) == 1 else "{" + ", ".join(names) + "}"
        use = [f"use {self.home}::support::{listed};"] if names else []
        origin = f"// Made by edition/translate.py from {self.file}: change that, not this."
        return "\n".join([origin, *lines[:head], "", *use, *lines[head + (lines[head] == "") :]])

    # The forms, each treated at its first token. Each answers the place to go on at.

    def treat(self, k):
        form = self.FORMS.get(self.word(k))
        behind = form(self, k) if form else None
        if behind:
            return behind
        self.refuse_unknown(k)
        if self.word(k + 1) == "::" and self.word(k - 1) != "::":
            self.path(k)
        return k + 1

    def clause(self, k):
        """`requires` or `ensures`, a star, a name, and what it says."""
        last = k + 1 + (self.word(k + 1) == "*")
        last += self.word(last) != "{"
        if self.word(last) != "{":
            self.refuse(k, f"`{self.word(k)}` without braces")
        last = self.past(last)
        if self.word(last) not in ("{", ";", "requires", "ensures"):
            self.refuse(k, f"`{self.word(k)}` before no body")
        # Comments between a signature and its clauses speak of these.
        for token in self.tokens[self.code[k - 1] + 1 : self.code[last - 1] + 1]:
            token.gone = True
        follows = self.tokens[self.code[last] - 1]
        if follows.kind == "space" and self.word(last) in ("{", ";"):
            follows.text = " " if self.word(last) == "{" else ""
        return last

    def ghost(self, k):
        """A ghost `use`; or a ghost member or field: a name, a type, what it is."""
        first = k - (self.word(k - 1) == "pub")
        if self.word(k + 1) == "use":
            last = self.next_of(k, ";") + 1
        else:
            last = k + 2
            while self.word(last) in (":", "=") and self.word(last + 1) == "{":
                last = self.past(last + 1)
            if last == k + 2 or self.word(last) not in (";", ",", "}"):
                self.refuse(k, "no known form of `ghost`")
            last += self.word(last) != "}"
        self.drop_item(first, last)
        return last

    def implementation(self, k):
        block = self.next_of(k, "{")
        header = range(k, block)
        if any(self.spells(i, "Drop for") for i in header):
            self.refuse(k, "a destructor, which takes `self` by value")
        if not any(self.spells(i, "Model for") for i in header):
            return None
        item, last = block + 1, self.past(block)
        while item < last - 1:
            if not self.spells(item, "ghost"):
                self.refuse(item, "a `Model` with more than ghost members")
            item = self.next_of(item, ";") + 1
        self.drop_item(k, last)
        return last

    def attribute(self, k):
        inner = k + 1 + (self.word(k + 1) == "!")
        if self.word(inner) != "[":
            return None
        last, name = self.past(inner), self.word(inner + 1)
        if name not in ATTRIBUTES or (name == "cfg" and not self.spells(inner, "[ cfg ( test )")):
            self.refuse(k, f"the attribute `{name}`")
        if name == "tactic":
            self.drop(k, last)
        elif name == "derive":
            self.derive(k, inner + 3, last)
        return last

    def derive(self, k, first, last):
        names = [self.word(i) for i in range(first, last - 2) if self.word(i) != ","]
        unknown = [name for name in names if name not in DERIVES]
        if unknown:
            self.refuse(k, f"a derived `{unknown[0]}`")
        # Rattle's `Clone` may be refused memory. That of what is `Copy` never asks for any.
        kept = [name for name in names if name != "Drop" and (name != "Clone" or "Copy" in names)]
        if not kept:
            self.drop(k, last)
        elif kept != names:
            for token in self.tokens[self.code[first] + 1 : self.code[last - 2]]:
                token.gone = True
            self.change(first, ", ".join(kept))

    def function(self, k):
        if self.spells(k + 1, "main (") and self.module == "program":
            self.change(k, "pub fn")
        elif self.spells(k + 1, "fmt < W : fmt :: Write >"):
            self.drop(k + 2, k + 9)
            return k + 9
        elif self.spells(k - 4, "# [ test ]") and self.spells(k + 2, "( rt : HostRuntime )"):
            # A test has no parameter in Rust.
            self.drop(k + 3, k + 6)
            body = self.next_of(k + 7, "{")
            self.change(body, f"{{ let rt = {self.home}::support::HostRuntime;")
            return k + 7
        return None

    def formatter(self, k):
        if self.spells(k, "Formatter < W >"):
            self.change(k + 2, "'_")

    def imported(self, k):
        if self.spells(k, "use std :: marker :: Model ;"):
            self.drop(k, k + 7)
            return k + 7
        return None

    def visibility(self, k):
        if self.spells(k, "pub ( crate )"):
            self.change(k + 2, f"in {self.own}")
            return k + 4
        return None

    def proof(self, k):
        if self.word(k + 1) == "!":
            self.change(k, PROVED[self.word(k)])
            return k + 1
        return None

    FORMS = {
        "requires": clause,
        "ensures": clause,
        "ghost": ghost,
        "impl": implementation,
        "#": attribute,
        "fn": function,
        "Formatter": formatter,
        "use": imported,
        "pub": visibility,
        **dict.fromkeys(PROVED, proof),
    }

    def refuse_unknown(self, k):
        """Refuses what Rust reads otherwise, or not at all."""
        word, token = self.word(k), self.tokens[self.code[k]]
        if word in RATTLE or (token.kind == "mark" and not word.isascii()):
            self.refuse(k, f"`{word}` in what runs")
        if token.kind == "word" and self.word(k + 1) == "!" and self.word(k + 2) in CLOSING:
            if word not in MACROS | self.macros | BEFORE_NOT:
                self.refuse(k, f"the macro `{word}!`")
        if word == ".." and self.word(k + 1) in (")", "{") and not self.is_whole_range(k):
            self.refuse(k, "a range without end, which overflows in Rust")
        if word == "." and self.spells(k, ". clone (") and not self.spells(k, ". clone ( ) ?"):
            self.refuse(k, "a copy whose want of memory is not answered at once")

    def is_whole_range(self, k):
        """Whether `..` stands for all that is left: in a pattern, or of a slice."""
        return self.word(k - 1) in ("(", ",") or self.spells(k - 3, "get (")

    def path(self, k):
        word = self.word(k)
        if word == "crate":
            self.change(k, self.own)
        elif word in self.crates:
            self.change(k, f"{self.home}::{word}")
        elif word == "std":
            self.change(k, f"{self.home}::support")
        elif word in PORTS:
            self.change(k, f"{self.home}::support::{word}")

    def names(self):
        """The names that need a `use`: those that stand alone, outside attributes."""
        found, k = set(), 0
        while k < len(self.code):
            token = self.tokens[self.code[k]]
            if token.text == "#" and self.word(k + 1) == "[":
                k = self.past(k + 1)
                continue
            if token.kind == "word" and not token.gone:
                if self.word(k - 1) not in ("::", ".") and self.needs_use(k):
                    found.add(token.text)
                if token.text == "clone" and self.word(k - 1) == ".":
                    found.add("Clone")
            k += 1
        return sorted(found)

    def needs_use(self, k):
        word = self.word(k)
        if word == "Drop":
            return self.word(k - 1) in (":", "+")
        if word in PRELUDE_MACROS:
            return self.spells(k + 1, "! (") and self.word(k + 3) in ("in", "rt")
        return word in PRELUDE
