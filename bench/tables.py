"""The tables that name what each program took."""
from bombs import write_bombs
from costs import (
    STEPS,
    compare_frames,
    cost_of_unwind,
    frame_cost,
    lookup_costs,
    read_cost,
    step_costs,
    write_frames,
)
from dumps import FIRST_ADDRESS, write_dumps
from measures import counted_run, instructions, least_seconds, peak_memory
from printing import millions, print_head, print_line
from programs import (
    DWFRAME,
    OUT,
    PEER,
    SUBCOMMANDS,
    TARGET,
    THROUGH_C,
    compare_texts,
    output,
)

# A half, and the whole of it.
SCALES = [0.5, 1]
ROUNDS_OF_HALVES = 3
FRAMES = 20
# const 1
ONE = "31"


def print_measures(label, subcommand, commands):
    own = None
    for name, command in commands:
        found = instructions(command), peak_memory(command)
        own = own or found
        counted, to_counted = millions(found[0]), f"{own[0] / found[0]:.2f}"
        peak, to_peak = f"{found[1] / 1e6:.1f} MB", f"{own[1] / found[1]:.2f}"
        print_line(label, f"`{subcommand}`", name, counted, to_counted, peak, to_peak)


def measure_sections(programs, sections):
    ratios = ["Instructions", "dwframe's to these", "Peak memory", "dwframe's to this"]
    print_head("Section", "Subcommand", "Program", *ratios)
    for label, of in sections:
        for subcommand in SUBCOMMANDS:
            commands = list(programs.commands(subcommand, of))
            compare_texts(f"{subcommand} {of.path}", commands)
            others = programs.listings(of) if subcommand == "rows" else []
            print_measures(label, subcommand, [*commands, *others])


def print_ratios(label, counts, own=DWFRAME):
    """A line for each program, with how often dwframe's count has that of the other."""
    for name, count in counts.items():
        ratio = f"{counts[own] / count:.2f}" if own in counts else "-"
        print_line(label, name, f"{count:,.1f}", ratio)


def measure_lookups(programs, sections):
    if not programs.lookup:
        return
    to_these = f"those of {THROUGH_C} to these"
    print_head("Section", "Program", "Instructions for a look-up", to_these)
    for label, of in sections:
        print_ratios(label, lookup_costs(programs, of), THROUGH_C)


def normal_form_costs(programs, of):
    """What `normal`, `same` and `cost` take, `check` first."""
    normal = OUT / f"{of.path.stem}-normal.bin"
    normal.write_bytes(output([programs.dwframe, "normal", *of.words, of.path]))
    asked = [["check"], ["normal"], ["same", of.path], ["same", normal], ["cost"]]
    for subcommand, *others in asked:
        yield instructions([programs.dwframe, subcommand, *of.words, of.path, *others])


def measure_normal_forms(programs, sections):
    same = ["`same`, with itself", "`same`, with its normal form"]
    print_head("Section", "`check`", "`normal`", *same, "`cost`")
    for label, of in sections:
        check, *others = normal_form_costs(programs, of)
        cells = (f"{millions(count)} ({count / check:.2f})" for count in others)
        print_line(label, millions(check), *cells)


def frame_costs(programs, of, dump):
    compare_frames(programs, of, dump)
    return cost_of_unwind(programs, of, dump), frame_cost(programs.unwindings, of, dump)


def measure_frames(programs, sections):
    if not programs.gimli_peer:
        return
    print_head("Section", "Program", "Instructions for a frame", "dwframe's to these")
    for label, of in sections:
        counts = [frame_costs(programs, of, dump) for dump in write_frames(programs, of, FRAMES)]
        own, peer = (sum(column) / len(counts) for column in zip(*counts))
        print_ratios(label, {DWFRAME: own, PEER: peer})


def measure_evaluation(programs):
    print_head("Block", "Program", "Instructions for a step", "dwframe's to these")
    print_ratios(f"a loop of {STEPS - 1:,} steps", step_costs(programs))


def measure_halves(what, command, small, large):
    taken = ["Instructions", "Half of it took", "Seconds", "Peak memory"]
    print_head(what, "Bytes", "Status", *taken)
    for name, path in large.items():
        count, status = counted_run([*command, path])
        half, _ = counted_run([*command, small[name]])
        [seconds] = least_seconds([[*command, path]], ROUNDS_OF_HALVES)
        size, share = f"{path.stat().st_size:,}", f"{half / count:.2f}"
        peak = f"{peak_memory([*command, path]) / 1e6:.1f} MB"
        print_line(name, size, str(status), millions(count), share, f"{seconds:.3f}", peak)


def measure_bombs(programs):
    halves = [write_bombs(OUT, scale) for scale in SCALES]
    for subcommand in ("check", "normal"):
        measure_halves(f"Bomb, by `{subcommand}`", [programs.dwframe, subcommand, *TARGET], *halves)


def measure_dumps(programs):
    small, large = (write_dumps(OUT, scale) for scale in SCALES)
    command = [programs.dwframe, "eval", *TARGET, ONE]
    measure_halves("Dump, by `eval`", command, small, large)
    print_head("Dump", "Instructions for a turn of seven steps, one of which reads memory")
    for dumps in (small, large):
        path = dumps["many-lines"]
        # Bytes that stand in two lines of the dump, about its middle.
        address = FIRST_ADDRESS + path.stat().st_size // 104 * 16 - 4
        print_line(path.stem, f"{read_cost(programs, path, address):,.1f}")
