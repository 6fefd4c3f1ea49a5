#!/usr/bin/env python3
"""What DWFRAME and CALLER answer where memory is ample, by the second reader or worked out by hand.

Run by itself it compares the files beside the examples (NAME.entries, NAME.check, NAME.rows) with the second reader.
"""
import pathlib
import sys

import reader
from reader import Bytes, Cie, Fde, Machine, Section, least_block, rows_of

EXAMPLES = pathlib.Path(__file__).resolve().parent.parent / "examples"

# ---- of DWFRAME

BLOCKS = {
    "2f12000e05000000000000000e060000000000000037": "0 skip 3\n1 const 5\n2 const 6\n3 const 7\nleast 2f0200353637\n",
    "92070806": "0 breg 7 8\n1 deref\nleast 770806\n",
    "770806": "0 breg 7 8\n1 deref\nleast 770806\n",
}
VALUES = {"770806": "0x2a\n", "3a311c1228faff": "0x0\n"}

# The caller's frames: a section, what a register without a rule is, a dump, and the answer.
PLAIN = (EXAMPLES / "plain.bin").read_bytes()
CIE = PLAIN[:24]
# FDEs at 0x1000: one with rules of each kind, and one whose rule for r5 ends with an empty stack.
RULES = CIE + bytes.fromhex(
    "2400000000000000001000000000000010000000000000000906031403011605022301071000" "0000"
)
EMPTY_VALUE = CIE + bytes.fromhex("1c00000000000000001000000000000010000000000000001605011300000000")
STOPPED = "pc 0x401004\nr6 0x7ffe00\nr7 0x7ffdf0\nmem 0x7ffe00 "
CALLED = "pc 0x401000\nr7 0x7ffdf0\nmem 0x7ffdf0 8812400000000000"


def frame(*lines):
    return 0, "".join(f"{line}\n" for line in lines).encode(), b""


def fault(text):
    return 2, b"", f"fault: {text}\n".encode()


def wide_frame(count):
    """A frame of so many registers at the begin of PLAIN's function: the CFA is r7 plus 8, r16 is saved below it, and none else is."""
    given = {number: 0x100 + number for number in range(count) if number not in (7, 16)}
    dump = CALLED + "".join(f"\nr{number} {value:#x}" for number, value in given.items())
    told = sorted({**given, 7: 0x7FFDF0, 16: 0x401288}.items())
    return PLAIN, "same", dump, frame("cfa 0x7ffdf8", "ra r16", *(f"r{number} {value:#x}" for number, value in told))


FRAMES = [
    (
        PLAIN,
        "same",
        STOPPED + "00020000000000008812400000000000",
        frame("cfa 0x7ffe10", "ra r16", "r6 0x200", "r7 0x7ffdf0", "r16 0x401288"),
    ),
    (
        PLAIN,
        "undefined",
        STOPPED + "00020000000000008812400000000000",
        frame("cfa 0x7ffe10", "ra r16", "r6 0x200", "r7 undefined", "r16 0x401288"),
    ),
    (PLAIN, "same", STOPPED + "000200000000000088124000000000", fault("Unreadable in r16")),
    (PLAIN, "same", CALLED, frame("cfa 0x7ffdf8", "ra r16", "r7 0x7ffdf0", "r16 0x401288")),
    (PLAIN, "same", "pc 0x401000", fault("NoRegister in cfa")),
    (PLAIN, "same", "pc 0x401010", fault("NoFde")),
    (PLAIN, "same", "", fault("NoPc")),
    (
        RULES,
        "same",
        "pc 0x1000\nr3 0x33\nr7 0x2000",
        frame("cfa 0x2008", "ra r16", "r3 0x2000", "r5 0x2009", "r6 0x33", "r7 0x2000", "r16 undefined"),
    ),
    (RULES, "same", "pc 0x1000\nr7 0x2000", fault("NoRegister in r6")),
    (EMPTY_VALUE, "same", "pc 0x1000\nr7 0x2000", fault("EmptyResult at 1 in r5")),
    # The room of a frame has place for 64 registers, and asks for memory for more.
    *map(wide_frame, (64, 65)),
]


# ---- normal forms, worked out by hand

def filled(text):
    """An entry of a section of 8-byte addresses with nops behind it."""
    contents = bytes.fromhex(text)
    contents += bytes(-(4 + len(contents)) % 8)
    return len(contents).to_bytes(4, "little") + contents


def normal_fde(begin, length, program):
    fields = (begin.to_bytes(8, "little") + length.to_bytes(8, "little")).hex()
    return filled("00000000" + fields + program)


# The CIE of r16 with the CFA r7 + 8 and r16 at CFA - 8, and one whose CFA is an expression.
USUAL_CIE = filled("ffffffff 04 00 08 00 01 7f 10 0c0708 9008")
EXPRESSION_CIE = filled("ffffffff 04 00 08 00 01 7f 10 0f03770806 9008")
PLAIN_NORMAL = USUAL_CIE + normal_fde(0x401000, 0x10, "41 0e10 8610 43 0d06 4b 0c0708")
RESTORED_NORMAL = USUAL_CIE + normal_fde(0x1000, 0x20, "41 0e10 8610 44 0e08 c6")
EXPRESSION_NORMAL = EXPRESSION_CIE + normal_fde(0x1000, 0x10, "")
NORMALS = {
    "plain.bin": PLAIN_NORMAL,
    "scrambled.bin": PLAIN_NORMAL,
    "remember-restore.bin": RESTORED_NORMAL,
    "restore-by-rules.bin": RESTORED_NORMAL,
    "spelling-breg.bin": EXPRESSION_NORMAL,
    "spelling-least.bin": EXPRESSION_NORMAL,
    "big-endian.bin": bytes.fromhex(
        "00000010 ffffffff 04 00 04 00 01 7f 41 0c0100 0000"
        "00000014 00000000 10000400 00000040 48 0e10 11417c 0000"
    ),
}


def cost_of(section, name):
    fdes = section.fdes()
    starts = sum(len(rows_of(fde)) for fde in fdes)
    changes = sum(len(list(reader.changes(fde))) for fde in fdes)
    size = (EXAMPLES / name).stat().st_size
    return f"bytes {size} {len(NORMALS[name])}\nrowstarts {starts} {changes}\n"


def section_of(size, order, name):
    return Section((EXAMPLES / name).read_bytes(), int(size), order)


def of_command(words):
    """The output of a run of DWFRAME: SUBCOMMAND --size SIZE --order ORDER OPERANDS.."""
    subcommand, size, order, operand = words[0], words[2], words[4], words[5]
    if subcommand == "normal":
        return NORMALS[operand]
    if subcommand == "same":
        return b"same\n"
    if subcommand == "cost":
        return cost_of(section_of(size, order, operand), operand).encode()
    if subcommand in reader.TEXTS:
        return reader.TEXTS[subcommand](section_of(size, order, operand)).encode()
    return {"expr": BLOCKS, "eval": VALUES}[subcommand][operand].encode()


# ---- of CALLER, over a section


def listed(values):
    return f"[{', '.join(map(str, values))}]"


def program_text(program):
    return f"Program {{ bytes: {listed(program.data[program.at : program.end])}, at: {program.at} }}"


def header_text(entry):
    fields = f"at: {entry.at}, form: Dwarf{entry.form}, "
    if isinstance(entry, Cie):
        fields += f"code_factor: {entry.code_factor}, data_factor: {entry.data_factor}, "
        fields += f"return_register: {entry.return_register}"
    else:
        fields += f"cie_at: {entry.cie.at}, begin: {entry.begin}, range: {entry.range}"
    return f"{type(entry).__name__} {{ {fields}, program: {program_text(entry.program)} }}"


def ok_lines(values):
    return [f"Ok({value})" for value in values]


RULES = {
    "undefined": "Undefined",
    "same": "SameValue",
    "offset": "Offset",
    "val_offset": "ValOffset",
    "register": "Register",
    "expression": "Expression",
    "val_expression": "ValExpression",
}


def expression_text(ops, size, order):
    target = f"Target {{ size: {'Four' if size == 4 else 'Eight'}, order: {order.capitalize()} }}"
    return f"ExprRef {{ target: {target}, bytes: {listed(ops.block)} }}"


def rule_text(rule, size, order):
    kind, operands = rule[0], rule[1:]
    if kind in ("expression", "val_expression"):
        operands = (expression_text(operands[0], size, order),)
    return f"{RULES[kind]}({operands[0]})" if operands else RULES[kind]


def cfa_text(cfa, size, order):
    if cfa is None:
        return "Unset"
    if cfa[0] == "expr":
        return f"Expression({expression_text(cfa[1], size, order)})"
    return f"Register {{ register: {cfa[1]}, offset: {cfa[2]} }}"


def row_text(row, size, order):
    cfa, rules = row
    told = "".join(f" {register}: {rule_text(rule, size, order)}," for register, rule in rules.items())
    return f"Row {{ cfa: {cfa_text(cfa, size, order)}, registers: {{{told} }} }}"


def located_text(at, row, size, order):
    return f"LocatedRow {{ location: {at}, row: {row_text(row, size, order)} }}"


def nine_lines(texts):
    """Nine answers: what there is, and behind it that there is no more."""
    return ok_lines([*(f"Some({text})" for text in texts), *["None"] * 9][:9])


def address_lines(section):
    """The row of each FDE's begin and of the 16 addresses behind it."""
    for fde in section.fdes():
        for address in range(fde.begin, fde.begin + 17):
            found = [other for other in section.fdes() if other.begin <= address < other.end]
            rows = [row_text(reader.row_at(other, address), section.size, section.order) for other in found]
            yield from (str(address), f"Ok(Some({rows[0]}))" if rows else "Ok(None)")


def change_lines(section):
    for fde in section.fdes():
        changes = [(at, row_text(row, section.size, section.order)) for at, row in reader.changes(fde)]
        yield from nine_lines(f"({at}, {row})" for at, row in changes)


def walk_lines(rows, size, order):
    """The first row's address, that the CIE's row is kept, and nine answers, each address with its row."""
    answers = nine_lines(at for at, _ in rows)
    lines = [answers[0], "Ok(true)"]
    for answer, (_, row) in zip(answers, rows):
        lines += [answer, row_text(row, size, order)]
    return lines + answers[len(rows) :]


def program_lines(call, fde, size, order):
    rows = rows_of(fde)
    located = [located_text(at, row, size, order) for at, row in rows]
    initial = row_text(Machine(fde.cie).row(), size, order)
    return {
        "run": ok_lines([listed(located)]),
        "row_steps": nine_lines(located),
        "row_walk": walk_lines(rows, size, order),
        "become_initial": ["Ok(())", initial],
        "copied": ["Ok(())", f"Ok({initial})"],
        "lacks_rule": ["Ok(false)", "Ok(false)"],
    }[call]


def lent_lines(put):
    return ["Ok(())", listed(b"lent" + put)]


def op_debug(op):
    name = "".join(part.capitalize() for part in op[0].split("_"))
    return f"{name}({', '.join(map(str, op[1:]))})" if op[1:] else name


def expression_lines(call, ops, size, order):
    block = least_block(ops, size, order)
    return {
        "decode": [listed(map(op_debug, ops))],
        "ops": [listed(map(op_debug, ops))],
        "encode": ok_lines([listed(block)]),
        "put_least": lent_lines(block),
    }[call]


def expressions_of(entry):
    machine = Machine(entry if isinstance(entry, Cie) else entry.cie)
    if isinstance(entry, Fde):
        machine.expressions = []
        machine.rows(entry)
    return machine.expressions


def of_section(call, section):
    size, order = section.size, section.order
    if call == "headers":
        return ok_lines([listed(map(header_text, section.entries))])
    if call == "row_at":
        return list(address_lines(section))
    if call == "changes":
        return list(change_lines(section))
    if call in EXPRESSION_CALLS:
        found = [ops for entry in section.entries for ops in expressions_of(entry)]
        return [line for ops in found for line in expression_lines(call, ops, size, order)]
    fdes = [entry for entry in section.entries if isinstance(entry, Fde)]
    return [line for fde in fdes for line in program_lines(call, fde, size, order)]


# The answers of calls on normal forms, of the normal form.
NORMAL_ANSWERS = {
    "normalise": lambda normal: ok_lines([listed(normal)]),
    "normalise_to": lambda normal: [f"Ok({len(normal)})", listed(normal)],
}

# ---- of CALLER, over worked data

PROGRAM_CALLS = ["run", "row_steps", "become_initial", "copied", "row_walk", "lacks_rule"]
EXPRESSION_CALLS = ["decode", "encode", "ops", "put_least"]
CIE_PROGRAMS = ["0c07089001", "0c070880018101820183018401850186018701880189018a019001"]
FDE_PROGRAM = "4180018101820183018401850186018701880189018a01440a0703420b43"
WORKED_BLOCKS = [*list(BLOCKS)[:1], "0e050000000000000092070806", "92070806", "770806"]
READ = ("expression", reader.operations(bytes.fromhex("770806"), 8, "little"))
FULL = {6: ("offset", -16), 16: READ, 128: ("val_offset", 0x10000000000), 65535: ("val_expression", READ[1])}


def gone_back_lines(cfa, rules):
    """Back from a third row to the second, to the first, and to none that is remembered."""
    second = dict(sorted({**rules, 6: READ, 128: READ, 300: ("undefined",)}.items()))
    third = {register: rule for register, rule in second.items() if register != 128}
    rows = [row_text((cfa, of_row), 8, "little") for of_row in (third, second, rules, rules)]
    backs = zip(ok_lines(["true", "true", "false"]), rows[1:])
    return [*["Ok(())"] * 6, rows[0], *(line for back in backs for line in back)]


def state_lines():
    cfa = ("expr", READ[1])
    filled = ["Ok(())"] * 6 + [row_text((cfa, FULL), 8, "little")]
    return gone_back_lines(None, {}) + filled + gone_back_lines(cfa, FULL) * 2


WORKED = {
    "none": [],
    "numbers": [
        line
        for spelling in ("ffffffffffffffffff01", "8080808080808080807f", "0102030405060708")
        for line in lent_lines(bytes.fromhex(spelling))
    ],
    "dumps": [
        "(None, None, None)",
        "Err(Unreadable)",
        "(Some(4198404), Some(8388080), None)",
        "Err(Unreadable)",
        "(Some(4096), Some(8192), Some(1))",
        "Err(Unreadable)",
        "(None, Some(4096), None)",
        "Ok(42)",
        "Fault(DumpFault { code: Repeated, line: 4 })",
    ],
    "registers": [line for register in (1, 2, 40, 300, 65535) for line in ("Ok(())", f"({register}, Some(5))")],
    "states": state_lines(),
    "evaluate": ["Ok(42)", "Ok(42)", "Ok(0)", "Ok(42)", "Err(Fault { kind: StepLimit, index: 0 })", "Ok(42)"],
    "locate": [
        "Ok([Piece { place: Register(3), part: Bytes(8) }, Piece { place: Memory(4104), part: Bytes(4) }])",
        "Ok(42)",
        "Ok([Piece { place: Bytes([170, 187]), part: Bytes(2) }])",
        "Ok(42)",
        "Ok([Piece { place: Value(1), part: Whole }])",
        "Ok(42)",
        "Ok([Piece { place: Empty, part: Whole }])",
        "Ok(42)",
    ],
}


def program_of(digits):
    data = bytes.fromhex(digits)
    return Bytes(data, 0, len(data), 8, "little")


def of_worked_data(call):
    if call in PROGRAM_CALLS:
        cies = [Cie(0, 32, 0, 1, -8, 16, program_of(digits)) for digits in CIE_PROGRAMS]
        fdes = [Fde(0, 32, 0, cie, 0x1000, 16, program_of(FDE_PROGRAM)) for cie in cies]
        return [line for fde in fdes for line in program_lines(call, fde, 8, "little")]
    if call in EXPRESSION_CALLS:
        blocks = [reader.operations(bytes.fromhex(digits), 8, "little") for digits in WORKED_BLOCKS]
        return [line for ops in blocks for line in expression_lines(call, ops, 8, "little")]
    return WORKED[call]


def of_call(words):
    """The output of a run of CALLER: CALL, or CALL SIZE ORDER FILE."""
    if words[0] in NORMAL_ANSWERS:
        lines = NORMAL_ANSWERS[words[0]](NORMALS[words[3]])
    else:
        lines = of_section(words[0], section_of(*words[1:])) if words[1:] else of_worked_data(words[0])
    return "".join(f"{line}\n" for line in lines).encode()


def main():
    wrong = 0
    for target in sorted(EXAMPLES.glob("*.target")):
        section = section_of(*target.read_text().split(), target.with_suffix(".bin").name)
        for subcommand, text in reader.TEXTS.items():
            stored = target.with_suffix(f".{subcommand}")
            if stored.exists() and stored.read_text() != text(section):
                wrong += 1
                print(f"{stored.name}: not what the second reader answers")
    print(f"the answers beside the examples: {wrong} wrong")
    return 1 if wrong else 0


if __name__ == "__main__":
    sys.exit(main())
