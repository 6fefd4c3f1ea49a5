#!/usr/bin/env python3
"""Compares include/dwframe.h with the exports of crates/dw_library.

Each call has to have the same name, answer and parameters in both, and each struct the same fields in the same order, and the size
and the places that the header asserts. Each number of the header (statuses, refusals, faults, rules, orders and the like) has to be the
one of the library's sources. A slice of Rattle is a pointer and a length in C, and an `alloc` is nothing.
"""
import pathlib
import re
import sys

ROOT = pathlib.Path(__file__).resolve().parent.parent
NUMBERS = {"u8": "uint8_t", "u16": "uint16_t", "u32": "uint32_t", "u64": "uint64_t", "usize": "size_t", "i64": "int64_t"}
# How many bytes each takes, and is aligned to.
BYTES = {"uint8_t": 1, "uint16_t": 2, "uint32_t": 4, "uint64_t": 8, "size_t": 8, "int64_t": 8}
# Structs by their names in Rattle and in C.
STRUCTS = {
    "Section": "dwframe_section",
    "Refused": "dwframe_refusal",
    "Counts": "dwframe_counts",
    "Stop": "dwframe_stop",
    "Register": "dwframe_register",
    "Window": "dwframe_window",
    "Held": "dwframe_machine",
    "Frame": "dwframe_frame",
    "Fault": "dwframe_fault",
    "Ranged": "dwframe_entry",
    "Rule": "dwframe_rule",
    "Row": "dwframe_row",
    "Block": "dwframe_block",
    "Blocks": "dwframe_blocks",
    "Context": "dwframe_context",
    "Change": "dwframe_change",
    "Totals": "dwframe_totals",
}
# Numbers that stand in matches of the library: its file, the lines that have them (groups `name` and `number`; without that they
# are counted from 1), what C's names begin with, and names that C has otherwise.
NUMBERED = [
    ("crates/dw_num/src/refusal.rt", r'Code::(?P<name>\w+) => "(?P=name)"', "REFUSAL_", {}),
    ("crates/dw_eval/src/error.rt", r"Kind::(?P<name>\w+)(?: \{ \.\. \})? => \((?P<number>\d+),", "FAULT_", {}),
    ("crates/dw_library/src/index.rt", r"RegRule::(?P<name>\w+)(?:\(\w+\))? => told_rule\(number, (?P<number>\d+),", "RULE_", {}),
    ("crates/dw_library/src/index.rt", r"CfaRule::(?P<name>\w+)(?: \{ \.\. \}|\(_\))? => (?P<number>\d+),", "CFA_", {}),
    ("crates/dw_library/src/answer.rt", r"\(\d+, (?P<number>\d+)\) => \(Size::\w+, Order::(?P<name>\w+)\),", "", {}),
    ("crates/dw_library/src/names.rt", r"(?P<number>\d+) => Status::(?P<name>\w+),", "", {}),
    ("crates/dw_library/src/caller.rt", r"(?P<number>\d+) => Some\(Policy::(?P<name>\w+)\)", "UNSET_", {"SameValue": "Unchanged"}),
]
# Bytes of a struct that have no name: the entries of an index are those of a table.
UNNAMED_BYTES = {"dwframe_entry": 2}
# What a look-up never writes, so the header has no name for it.
UNNAMED = {"DWFRAME_RULE_UNSPECIFIED": "0", "DWFRAME_CFA_UNSET": "0"}


def plain(text):
    """Without comments, and with single blanks."""
    text = re.sub(r"/\*.*?\*/", " ", text, flags=re.DOTALL)
    return re.sub(r"\s+", " ", re.sub(r"//[^\n]*", " ", text))


def parts(text):
    return [part.strip() for part in text.split(",") if part.strip()]


def in_c(kind):
    """A type of Rattle as C has it."""
    kind = kind.strip()
    return NUMBERS.get(kind) or STRUCTS[kind]


def expected(parameter):
    """The types in C of a parameter of Rattle."""
    kind = parameter.split(":", 1)[1].strip()
    if kind == "Global":
        return []
    found = re.fullmatch(r"&(mut )?(\[)?(\w+)(?:<'_>)?\]?", kind)
    if not found:
        return [in_c(kind)]
    pointer = f"{'' if found[1] else 'const '}{in_c(found[3])} *"
    return [pointer, "size_t"] if found[2] else [pointer]


def exports(text):
    found = re.findall(r'pub extern "C" fn (\w+)\((.*?)\) -> (\w+)', text)
    return {name: (in_c(answer), sum(map(expected, parts(inside)), [])) for name, inside, answer in found}


def declared(text):
    """The calls of the header. A char is a byte, and a status its number, which compilers want to be looked at (DWFRAME_CALL)."""
    calls = {}
    for answer, name, inside, attributes in re.findall(r"(\w+) (dwframe_\w+)\(([^)]*)\) DWFRAME_(NONNULL|CALL);", text):
        if attributes != ("CALL" if answer == "dwframe_status" else "NONNULL"):
            sys.exit(f"header: {name} answers {answer}, and is DWFRAME_{attributes}")
        kinds = [re.sub(r"\w+$", "", part).strip().replace("char *", "uint8_t *") for part in parts(inside)]
        kinds = [kind.replace("dwframe_status", "uint32_t") for kind in kinds]
        calls[name] = (answer.replace("dwframe_status", "uint32_t"), kinds)
    return calls


# A field's name and its type: a number or a struct, an array of numbers, or a slice.
FIELD = r"(?P<name>\w+): (?:&'a \[(?P<slice>\w+)\]|\[(?P<item>\w+); (?P<count>\d+)\]|(?P<plain>\w+))"
# Where a slice is a pointer and a length in a struct, the length's name.
LENGTHS = {"bytes": "len", "registers": "register_count", "windows": "window_count", "memory": "memory_len"}


def fields_of(inside):
    """The fields of a struct of Rattle as C has them."""
    for field in re.finditer(FIELD, inside):
        if field["slice"]:
            yield field["name"], f"const {in_c(field['slice'])} *"
            yield LENGTHS[field["name"]], "size_t"
        elif field["item"]:
            yield field["name"], f"{in_c(field['item'])}[{field['count']}]"
        else:
            yield field["name"], in_c(field["plain"])


def structs(text):
    found = re.findall(r"#\[repr\(C\)\] (?:#\[[^\]]*\] )*(?:pub(?:\(crate\))? )?struct (\w+)(?:<'a>)? \{(.*?)\}", text)
    return {name: list(fields_of(inside)) for name, inside in found if name in STRUCTS}


def layout_of(fields, all_fields):
    """How many bytes a struct of these fields takes, to how many it is aligned, the place of each field as C lays it out, and how many
    bytes have no name."""
    end, most, places, unnamed = 0, 1, {}, 0
    for name, kind in fields:
        item, count = re.fullmatch(r"(\w+)\[(\d+)\]", kind).groups() if kind.endswith("]") else (kind, 1)
        if item.endswith("*"):
            size = align = 8
        elif item in all_fields:
            size, align, _, inner = layout_of(all_fields[item], all_fields)
            unnamed += inner
        else:
            size = align = BYTES[item]
        places[name] = end + -end % align
        unnamed += places[name] - end
        end = places[name] + size * int(count)
        most = max(most, align)
    return end + -end % most, most, places, unnamed + -end % most


def asserted(text):
    """The sizes that the header asserts, and the places but the first, by the names of its structs."""
    sizes = {name: (int(size), {}) for name, size in re.findall(r"DWFRAME_HAS_SIZE\((\w+), (\d+)\);", text)}
    for name, field, place in re.findall(r"DWFRAME_HAS_PLACE\((\w+), (\w+), (\d+)\);", text):
        sizes[name][1][field] = int(place)
    return sizes


def c_structs(text):
    found = re.findall(r"typedef struct \w+ \{(.*?)\} (\w+);", text)
    fields = {name: re.findall(r"((?:const )?\w+ \*?)(\w+)((?:\[\d+\])?);", inside) for inside, name in found}
    return {name: [(field, kind.strip() + array) for kind, field, array in inside] for name, inside in fields.items()}


# ---- numbers


def in_capitals(name):
    return re.sub(r"(?<=[a-z])(?=[A-Z])|(?<=[A-Z])(?=[A-Z][a-z])", "_", name).upper()


def text_of(path):
    return plain((ROOT / path).read_text())


def own_numbers(rattle):
    """The numbers that the library's sources have, by the names of C."""
    constants = set(re.findall(r"const (\w+): u32 = (\d+);", rattle))
    found = {f"DWFRAME_{name}": number for name, number in constants}
    if len(found) != len(constants):
        sys.exit(f"header: a constant of the library has two numbers: {sorted(constants)}")
    for path, line, prefix, others in NUMBERED:
        lines = list(re.finditer(line, text_of(path)))
        if not lines:
            sys.exit(f"header: {path} has no numbers of {prefix or 'an argument'}")
        found |= {f"DWFRAME_{prefix}{in_capitals(others.get(one['name'], one['name']))}": one.groupdict().get("number", str(place)) for place, one in enumerate(lines, 1)}
    unnamed = {name: found.pop(name, None) for name in UNNAMED}
    if unnamed != UNNAMED:
        sys.exit(f"header: {unnamed}, and not {UNNAMED}")
    return found


def header_numbers():
    # A macro ends with its line, so its name and its number are read before lines are joined.
    text = (ROOT / "include/dwframe.h").read_text()
    return dict(re.findall(r"#define (DWFRAME_\w+) (\d+)", text) + re.findall(r"(DWFRAME_\w+) = (\d+)", plain(text)))


def wrong_versions(header):
    """The version of the header, of the command and of the Rust edition is one."""
    told = ".".join(header.pop(f"DWFRAME_VERSION_{part}") for part in ("MAJOR", "MINOR", "PATCH"))
    others = {
        "crates/dw_words/src/help.rt": r'VERSION: &str = "([^"]*)"',
        "edition/package/Cargo.toml": r'version = "([^"]*)"',
    }
    for path, line in others.items():
        own = re.search(line, text_of(path))[1]
        if own != told:
            yield f"{path} is of version {own}, and the header of {told}"


def wrong_numbers(own, header):
    yield from wrong_versions(header)
    # A refusal's name stands in the library, and its longest has to fit with the zero byte.
    room = header.pop("DWFRAME_NAME_SIZE")
    longest = max(map(len, re.findall(r'Code::\w+ => "(\w+)"', text_of("crates/dw_num/src/refusal.rt"))))
    if longest >= int(room):
        yield f"a name of {longest} letters does not fit into {room} bytes"
    for name in sorted(own.keys() | header.keys()):
        if own.get(name) != header.get(name):
            yield f"{name} is {own.get(name)}, and in the header {header.get(name)}"


def main():
    sources = {path.name: plain(path.read_text()) for path in sorted((ROOT / "crates/dw_library/src").glob("*.rt"))}
    # The entries of an index are those of a table.
    sources["indexing.rt"] = text_of("crates/dw_index/src/ranged.rt")
    rattle = " ".join(sources.values())
    header = text_of("include/dwframe.h")

    wrong = []
    calls, in_c_too = exports(rattle), declared(header)
    for name in sorted(calls.keys() | in_c_too.keys()):
        if calls.get(name) != in_c_too.get(name):
            wrong.append(f"dwframe.h: {name} is {in_c_too.get(name)}, and the library has {calls.get(name)}")
    own, in_header = structs(rattle), c_structs(header)
    for name, c in STRUCTS.items():
        if own.get(name) != in_header.get(c):
            wrong.append(f"struct {c}: {own.get(name)} and {in_header.get(c)}")
    fields = {c: own[name] for name, c in STRUCTS.items() if name in own}
    layouts = {c: layout_of(of, fields) for c, of in fields.items()}
    wanted = {c: (size, {name: place for name, place in places.items() if place}) for c, (size, _, places, _) in layouts.items()}
    told = asserted(header)
    wrong += [f"the header asserts of {c} {told.get(c)}, and it is {wanted.get(c)}" for c in told.keys() | wanted.keys() if told.get(c) != wanted.get(c)]
    unnamed = {c: count for c, (_, _, _, count) in layouts.items() if count}
    if unnamed != UNNAMED_BYTES:
        wrong.append(f"bytes without a name: {unnamed}, and not {UNNAMED_BYTES}")
    if len(own) != len(in_header):
        wrong.append("one of the two has a struct that is not compared")
    numbers = own_numbers(rattle)
    wrong += wrong_numbers(numbers, header_numbers())
    print("\n".join(wrong) or f"header: {len(calls)} calls, {len(own)} structs and {len(numbers)} numbers as in the library")
    return 1 if wrong else 0


if __name__ == "__main__":
    sys.exit(main())
