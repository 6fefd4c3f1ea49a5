"""The package of the library for C: the proved text of `dw_library`, and its calls in C's form.

A slice crosses as a pointer and a length, and the allocator not at all. Only `calls` has `unsafe`.
"""
import re
from pathlib import Path

from packages import HERE, LIBRARY, Package

HEAD = """//! The calls in C's form, made by edition/calls.py.
#![allow(unused_imports)]

use core::slice;
use crate::dw_library::{self, answer::*, held::*};
use dwframe::proved::dw_section::Ranged;
use dwframe::proved::support::alloc::Global;
"""

EXPORT = re.compile(
    r'#\[unsafe\(no_mangle\)\]\s*pub extern "C" fn (\w+)\(([^)]*)\) -> (\w+)'
)
SLICE = re.compile(r"&(mut )?\[(\w+)\]")


def call_of(module, name, parameters, answer):
    """A call in C's form."""
    taken, given = [], []
    for parameter in filter(None, (part.strip() for part in parameters.split(","))):
        own, kind = parameter.split(": ", 1)
        items = SLICE.fullmatch(kind)
        if kind == "Global":
            given.append("Global")
        elif items:
            pointer, suffix = ("mut", "_mut") if items[1] else ("const", "")
            taken += [f"{own}: *{pointer} {items[2]}", f"{own}_len: usize"]
            given.append(f"unsafe {{ slice::from_raw_parts{suffix}({own}, {own}_len) }}")
        else:
            taken.append(parameter)
            given.append(own)
    return (
        f"/// The call of that name in `{module}`.\n///\n/// # Safety\n///\n"
        f"/// Pointers are as `dwframe.h` asks.\n#[unsafe(no_mangle)]\n"
        f'pub unsafe extern "C" fn {name}(\n    {", ".join(taken)},\n) -> {answer} {{\n'
        f"    dw_library::{module}::{name}({', '.join(given)})\n}}\n"
    )


def write_calls(checkout, out):
    """Writes the package beside that of the library for Rust, on which it rests."""
    package, calls, uses = Package(out), [], []
    package.put_all(HERE / "calls")
    for place, text in checkout.translated(LIBRARY, LIBRARY, "dwframe::proved"):
        found = EXPORT.findall(text)
        calls += [call_of(place.stem, *match) for match in found]
        uses += [f"use crate::dw_library::{place.stem}::*;"] if found else []
        text = EXPORT.sub(r"pub fn \1(\2) -> \3", text)
        if place.name == "mod.rs":
            text = re.sub(r"(?m)^mod ", "pub mod ", text)
        package.put(Path("src", LIBRARY) / place, text)
    package.put(Path("src/calls.rs"), HEAD + "\n".join(uses) + "\n\n" + "\n".join(calls))
    package.end()
