"""What one look-up, one frame and one step take: what many add to a run, divided by how many."""
from measures import counted_run, instructions
from programs import DWFRAME, OUT, PEER, TARGET, compare_texts, output
from synth import uleb

LOOKUPS = 10_000
# const n, and n times: const 1, minus, dup, bra to the first of these.
TURNS = 2_500_000
STEPS = 1 + 4 * TURNS
LOOP = (b"\x10" + uleb(TURNS) + bytes.fromhex("311c1228faff")).hex()
READS = 10_000
UNWINDINGS = 100
# Those of most processors, and PowerPC's link register.
REGISTERS = [*range(32), 65]
# What each register of the dumps of frames holds, in 64 KB of memory.
STACK = 0x7FFF1000


# ---- look-ups


def lookup_costs(programs, of):
    """What a look-up takes by each program."""
    compare_texts(f"lookup {of.path}", programs.lookups(of, LOOKUPS))
    none, many = (
        {name: instructions(command) for name, command in programs.lookups(of, count)}
        for count in (0, LOOKUPS)
    )
    return {name: (many[name] - none[name]) / LOOKUPS for name in none}


# ---- frames


def write_frames(programs, of, most):
    """Dumps that stopped at so many addresses of a section where the rules change."""
    rows = output([programs.dwframe, "rows", *of.words, of.path], text=True)
    addresses = [line.split()[0] for line in rows.splitlines() if line.startswith(" ")]
    registers = "".join(f"r{number} {STACK:#x}\n" for number in REGISTERS)
    size = int(of.size)
    memory = (STACK.to_bytes(size, of.order) * (0x10000 // size)).hex()
    for number, address in enumerate(addresses[:: max(1, len(addresses) // most)][:most]):
        dump = OUT / f"{of.path.stem}-{number}.dump"
        dump.write_text(f"pc {address}\n{registers}mem {STACK - 0x1000:#x} {memory}\n")
        yield dump


def compare_frames(programs, of, dump):
    """The frame of dwframe and of gimli-peer has to be the same."""
    commands = [
        (DWFRAME, programs.unwinding(of, dump)),
        (PEER, programs.unwindings(of, dump, 1)),
    ]
    compare_texts(f"unwind {dump}", commands)


def frame_cost(command, of, dump):
    """The instructions of one of many frames, by a method of Programs."""
    one, many = (instructions(command(of, dump, count)) for count in (1, 1 + UNWINDINGS))
    return (many - one) / UNWINDINGS


def cost_of_unwind(programs, of, dump):
    """The instructions of dwframe's one frame, which it prints in the same function."""
    own = "--toggle-collect=dw_show::unwind::put_caller*"
    return counted_run(programs.unwinding(of, dump), own)[0]


# ---- evaluation


def step_costs(programs):
    """What a step of a loop takes by each program."""
    commands = list(programs.evaluations(LOOP, STEPS))
    compare_texts("eval", commands)
    return {name: instructions(command) / STEPS for name, command in commands}


def reads(address, count):
    """A block that reads eight bytes so many times, and leaves 0 on the stack."""
    turn = b"\x0e" + address.to_bytes(8, "little") + bytes.fromhex("0613311c1228")
    back = (-len(turn) - 2).to_bytes(2, "little", signed=True)
    return (b"\x10" + uleb(count) + turn + back).hex()


def read_cost(programs, dump, address):
    """The instructions of a turn that reads at an address that a dump has."""
    command = [programs.dwframe, "eval", *TARGET, "--steps", "1000000"]
    blocks = (reads(address, count) for count in (1, 1 + READS))
    one, many = (instructions([*command, block, dump]) for block in blocks)
    return (many - one) / READS
