"""A second reader of `.debug_frame`, written from DWARF 5 (6.4, 7.7, 7.24) and not from the crates: what is checked is
compared with what it says. It takes well formed sections only, is slow, and raises an error at anything else.
"""
from dataclasses import dataclass, field

REMEMBER, RESTORE_STATE = 0x0A, 0x0B


class Bytes:
    """The bytes of a section or of a part of it, read from the front."""

    def __init__(self, data, at, end, size, order):
        self.data, self.at, self.end, self.size, self.order = data, at, end, size, order

    def take(self, count):
        if self.at + count > self.end:
            raise ValueError(f"the bytes run out at {self.at:#x}")
        self.at += count
        return self.data[self.at - count : self.at]

    def number(self, width, signed=False):
        return int.from_bytes(self.take(width), self.order, signed=signed)

    def address(self):
        return self.number(self.size)

    def uleb(self):
        value = shift = 0
        while True:
            byte = self.number(1)
            value |= (byte & 0x7F) << shift
            shift += 7
            if byte < 0x80:
                return value

    def sleb(self):
        value = shift = 0
        while True:
            byte = self.number(1)
            value |= (byte & 0x7F) << shift
            shift += 7
            if byte < 0x80:
                return value - (1 << shift) if byte & 0x40 else value

    def block(self):
        return self.take(self.uleb())

    def rest(self):
        return Bytes(self.data, self.at, self.end, self.size, self.order)


# ---- operations (7.7)

PLAIN_OPS = {
    0x06: "deref", 0x12: "dup", 0x13: "drop", 0x14: "over", 0x16: "swap", 0x17: "rot", 0x19: "abs", 0x1A: "and",
    0x1B: "div", 0x1C: "minus", 0x1D: "mod", 0x1E: "mul", 0x1F: "neg", 0x20: "not", 0x21: "or", 0x22: "plus",
    0x24: "shl", 0x25: "shr", 0x26: "shra", 0x27: "xor", 0x29: "eq", 0x2A: "ge", 0x2B: "gt", 0x2C: "le", 0x2D: "lt",
    0x2E: "ne", 0x96: "nop",
}
CODES = {name: code for code, name in PLAIN_OPS.items()}
BRANCHES = {0x28: "bra", 0x2F: "skip"}
CONSTANTS = {
    0x08: (1, False), 0x09: (1, True), 0x0A: (2, False), 0x0B: (2, True),
    0x0C: (4, False), 0x0D: (4, True), 0x0E: (8, False), 0x0F: (8, True),
}


def operands(code, front):
    """An operation without the branches' targets: a branch has its displacement."""
    if code in PLAIN_OPS:
        return (PLAIN_OPS[code],)
    if code in CONSTANTS:
        return ("const", front.number(*CONSTANTS[code]) % (1 << 8 * front.size))
    if code in (0x10, 0x11):
        return ("const", (front.uleb() if code == 0x10 else front.sleb()) % (1 << 8 * front.size))
    if 0x30 <= code <= 0x4F:
        return ("const", code - 0x30)
    if 0x70 <= code <= 0x8F:
        return ("breg", code - 0x70, front.sleb())
    if code == 0x92:
        return ("breg", front.uleb(), front.sleb())
    if code == 0x03:
        return ("addr", front.address())
    if code == 0x15:
        return ("pick", front.number(1))
    if code == 0x23:
        return ("plus_uconst", front.uleb())
    if code == 0x94:
        return ("deref_size", front.number(1))
    if code in BRANCHES:
        return (BRANCHES[code], front.number(2, signed=True))
    raise ValueError(f"operation {code:#x}")


class Operations(tuple):
    """The operations of a block, and the block."""

    block = b""


def operations(block, size, order):
    """The operations of a block, each branch with the index of the operation that it goes to."""
    front = Bytes(block, 0, len(block), size, order)
    starts, ends, found = [], [], []
    while front.at < front.end:
        starts.append(front.at)
        found.append(operands(front.number(1), front))
        ends.append(front.at)
    starts.append(front.at)
    ops = Operations(
        (op[0], starts.index(end + op[1])) if op[0] in BRANCHES.values() else op for op, end in zip(found, ends)
    )
    ops.block = block
    return ops


def op_text(op):
    if op[0] == "addr":
        return f"addr {op[1]:#x}"
    return " ".join(map(str, op))


def uleb_bytes(value):
    out = bytearray()
    while value >= 0x80:
        out.append(value & 0x7F | 0x80)
        value >>= 7
    return bytes(out) + bytes([value])


def sleb_bytes(value):
    out = bytearray()
    while not -64 <= value < 64:
        out.append(value & 0x7F | 0x80)
        value >>= 7
    return bytes(out) + bytes([value & 0x7F])


def least_constant(value, size, order):
    """The shortest spelling of a constant, and of these the one with the least opcode."""
    signed = value - (1 << 8 * size) if value >> 8 * size - 1 else value
    spellings = [bytes([0x30 + value])] if value < 32 else []
    for code, (width, is_signed) in CONSTANTS.items():
        number = signed if is_signed else value
        low = -(1 << 8 * width - 1) if is_signed else 0
        if low <= number < low + (1 << 8 * width):
            spellings.append(bytes([code]) + number.to_bytes(width, order, signed=is_signed))
    spellings += [b"\x10" + uleb_bytes(value), b"\x11" + sleb_bytes(signed)]
    return min(spellings, key=lambda spelling: (len(spelling), spelling[0]))


def least_op(op, size, order):
    """The shortest spelling of an operation that is no branch."""
    if op[0] in CODES:
        return bytes([CODES[op[0]]])
    if op[0] == "const":
        return least_constant(op[1], size, order)
    if op[0] == "breg":
        front = bytes([0x70 + op[1]]) if op[1] < 32 else b"\x92" + uleb_bytes(op[1])
        return front + sleb_bytes(op[2])
    if op[0] == "addr":
        return b"\x03" + op[1].to_bytes(size, order)
    if op[0] == "plus_uconst":
        return b"\x23" + uleb_bytes(op[1])
    return {"pick": b"\x15", "deref_size": b"\x94"}[op[0]] + bytes([op[1]])


def least_block(ops, size, order):
    """The shortest block of operations. A branch has three bytes wherever it goes."""
    branch = {name: code for code, name in BRANCHES.items()}
    lengths = [3 if op[0] in branch else len(least_op(op, size, order)) for op in ops]
    out = b""
    for index, op in enumerate(ops):
        if op[0] in branch:
            to = sum(lengths[: op[1]]) - sum(lengths[: index + 1])
            out += bytes([branch[op[0]]]) + to.to_bytes(2, order, signed=True)
        else:
            out += least_op(op, size, order)
    return out


# ---- entries and their fields (6.4.1)


@dataclass
class Cie:
    at: int
    form: int
    length: int
    code_factor: int = 1
    data_factor: int = 0
    return_register: int = 0
    program: Bytes = None


@dataclass
class Fde:
    at: int
    form: int
    length: int
    cie: Cie = None
    begin: int = 0
    range: int = 0
    program: Bytes = None

    @property
    def end(self):
        return self.begin + self.range


@dataclass
class Section:
    data: bytes
    size: int
    order: str
    entries: list = field(default_factory=list)

    def __post_init__(self):
        self.entries = [entry for entry, _, _ in self.cut()]
        at = {entry.at: entry for entry in self.entries}
        for entry, pointer, front in self.cut():
            if isinstance(entry, Cie):
                read_cie(at[entry.at], front)
            else:
                at[entry.at].cie = at[pointer]
        for entry, _, front in self.cut():
            if isinstance(entry, Fde):
                entry = at[entry.at]
                entry.begin, entry.range = front.address(), front.address()
                entry.program = front.rest()

    def cut(self):
        """Each entry with its first field and what stands after it."""
        front = Bytes(self.data, 0, len(self.data), self.size, self.order)
        while front.at < front.end:
            at, form, length = front.at, 32, front.number(4)
            if length == 0xFFFFFFFF:
                form, length = 64, front.number(8)
            if form == 32 and length == 0:
                continue
            part = Bytes(self.data, front.at, front.at + length, self.size, self.order)
            front.take(length)
            pointer = part.number(form // 8)
            kind = Cie if pointer == (1 << form) - 1 else Fde
            yield kind(at, form, length), pointer, part

    def fdes(self):
        """The nonempty FDEs by begin."""
        return sorted((e for e in self.entries if isinstance(e, Fde) and e.range), key=lambda e: e.begin)


def read_cie(cie, front):
    version = front.number(1)
    if version not in (1, 3, 4) or front.number(1) != 0:
        raise ValueError(f"the CIE at {cie.at:#x}")
    if version == 4 and (front.number(1), front.number(1)) != (front.size, 0):
        raise ValueError(f"the sizes of the CIE at {cie.at:#x}")
    cie.code_factor, cie.data_factor = front.uleb(), front.sleb()
    cie.return_register = front.number(1) if version == 1 else front.uleb()
    cie.program = front.rest()


# ---- instructions and rows (6.4.2, 6.4.3, 7.24)


class Machine:
    """Runs the programs of a CIE and of an FDE. A row is a pair of the CFA's rule and the registers' rules."""

    def __init__(self, cie):
        self.cie, self.cfa, self.rules, self.saved = cie, None, {}, []
        self.initial, self.location, self.expressions = {}, 0, []
        self.run(cie.program.rest())
        self.initial = dict(self.rules)

    def rows(self, fde):
        """Each row of the FDE's program with its location, rows of no length among them."""
        self.location = fde.begin
        found = []
        self.run(fde.program.rest(), lambda: found.append((self.location, self.row())))
        return [*found, (self.location, self.row())]

    def row(self):
        return self.cfa, dict(sorted(self.rules.items()))

    def expression(self, front):
        self.expressions.append(operations(front.block(), front.size, front.order))
        return self.expressions[-1]

    def run(self, front, row_ends=lambda: None):
        while front.at < front.end:
            code = front.number(1)
            high, low = code & 0xC0, code & 0x3F
            if high == 0x40 or code in (0x01, 0x02, 0x03, 0x04):
                row_ends()
                self.move(code, low, front)
            elif high == 0x80:
                self.rules[low] = ("offset", front.uleb() * self.cie.data_factor)
            elif high == 0xC0:
                self.restore(low)
            elif 0x0C <= code <= 0x0F or code in (0x12, 0x13):
                self.define_cfa(code, front)
            elif code in (REMEMBER, RESTORE_STATE):
                self.exchange_state(code)
            elif code:
                self.set_rule(code, front)

    def move(self, code, low, front):
        if code == 0x01:
            self.location = front.address()
        else:
            delta = low if code & 0xC0 else front.number({2: 1, 3: 2, 4: 4}[code])
            self.location += delta * self.cie.code_factor

    def restore(self, register):
        self.rules.pop(register, None)
        if register in self.initial:
            self.rules[register] = self.initial[register]

    def define_cfa(self, code, front):
        factor = self.cie.data_factor
        if code == 0x0C:
            self.cfa = ("register", front.uleb(), front.uleb())
        elif code == 0x0D:
            self.cfa = ("register", front.uleb(), self.cfa[2])
        elif code == 0x0E:
            self.cfa = ("register", self.cfa[1], front.uleb())
        elif code == 0x0F:
            self.cfa = ("expr", self.expression(front))
        elif code == 0x12:
            self.cfa = ("register", front.uleb(), front.sleb() * factor)
        else:
            self.cfa = ("register", self.cfa[1], front.sleb() * factor)

    def exchange_state(self, code):
        if code == REMEMBER:
            self.saved.append((self.cfa, dict(self.rules)))
        else:
            self.cfa, self.rules = self.saved.pop()

    def set_rule(self, code, front):
        register, factor = front.uleb(), self.cie.data_factor
        if code == 0x06:
            self.restore(register)
        elif code in (0x07, 0x08):
            self.rules[register] = ("undefined",) if code == 0x07 else ("same",)
        elif code == 0x09:
            self.rules[register] = ("register", front.uleb())
        elif code in (0x05, 0x11):
            self.rules[register] = ("offset", (front.uleb() if code == 0x05 else front.sleb()) * factor)
        elif code in (0x14, 0x15):
            self.rules[register] = ("val_offset", (front.uleb() if code == 0x14 else front.sleb()) * factor)
        elif code in (0x10, 0x16):
            kind = "expression" if code == 0x10 else "val_expression"
            self.rules[register] = (kind, self.expression(front))
        else:
            raise ValueError(f"instruction {code:#x}")


def rows_of(fde):
    return Machine(fde.cie).rows(fde)


def row_at(fde, address):
    """The last row that starts at or below the address."""
    return [row for location, row in rows_of(fde) if location <= address][-1]


def changes(fde):
    """The begin, and each address in the range where a rule is not what it is one address before, with its row."""
    starts = sorted({location for location, _ in rows_of(fde) if location < fde.end})
    found = []
    for address in starts:
        row = row_at(fde, address)
        if not found or row != found[-1][1]:
            found.append((address, row))
    return found


# ---- what dwframe prints


def offset_text(name, offset):
    return f"{name}{offset:+}"


def cfa_text(rule):
    if rule[0] == "expr":
        return f"expr({'; '.join(map(op_text, rule[1]))})"
    return offset_text(f"r{rule[1]}", rule[2])


def rule_text(rule):
    kind, value = rule[0], rule[-1]
    if kind in ("undefined", "same"):
        return kind[0]
    if kind == "register":
        return f"r{value}"
    if kind in ("offset", "val_offset"):
        text = offset_text("cfa", value)
    else:
        text = f"expr({'; '.join(map(op_text, value))})"
    return f"[{text}]" if kind in ("offset", "expression") else text


def entries_text(section):
    kinds = {Cie: "cie", Fde: "fde"}
    return "".join(f"{e.at:#x} {kinds[type(e)]} {e.form} {e.length}\n" for e in section.entries)


def check_text(section):
    cies = sum(isinstance(entry, Cie) for entry in section.entries)
    return f"ok cies={cies} fdes={len(section.entries) - cies} bytes={len(section.data)}\n"


def rows_text(section):
    lines = []
    for fde in section.fdes():
        lines.append(f"fde {fde.begin:#x} {fde.end:#x} ra=r{fde.cie.return_register}\n")
        for address, (cfa, rules) in changes(fde):
            texts = "".join(f" r{register}={rule_text(rule)}" for register, rule in rules.items())
            lines.append(f" {address:#x} cfa={cfa_text(cfa)}{texts}\n")
    return "".join(lines)


TEXTS = {"entries": entries_text, "check": check_text, "rows": rows_text}
