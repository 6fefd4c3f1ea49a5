"""The table of ratios to gimli-peer, a line for each section."""
import dataclasses
import functools
import os
import subprocess
from concurrent.futures import ThreadPoolExecutor
from typing import Callable

from costs import compare_frames, frame_cost, lookup_costs, write_frames
from measures import instructions, peak_memory
from plot import plot
from printing import print_head, print_line
from programs import (
    DWFRAME,
    EDITION,
    OUT,
    PEER,
    SUBCOMMANDS,
    THROUGH_C,
    Programs,
    compare_texts,
)
from sections import Section

FRAMES_OF_A_LINE = 6


@dataclasses.dataclass
class Measured:
    """The programs over one section. No run is counted twice."""

    programs: Programs
    of: Section
    counts: dict = dataclasses.field(default_factory=dict)

    def commands(self, subcommand):
        return dict(self.programs.commands(subcommand, self.of))

    def instructions(self, program, subcommand):
        key = program, subcommand
        if key not in self.counts:
            self.counts[key] = instructions(self.commands(subcommand)[program])
        return self.counts[key]

    def ratio(self, subcommand, to=None):
        """dwframe's instructions to those of gimli-peer's subcommand, or of the same one."""
        own = self.instructions(DWFRAME, subcommand)
        return own / self.instructions(PEER, to or subcommand)


def entries_less_zeros(measured):
    """Without the instruction that callgrind counts for each byte that std zeroes first."""
    own = measured.instructions(DWFRAME, "entries") - measured.of.path.stat().st_size
    return own / measured.instructions(PEER, "entries")


def lookup_ratio(measured):
    counts = lookup_costs(measured.programs, measured.of)
    return counts[THROUGH_C] / counts[PEER] if THROUGH_C in counts else None


def frame_ratio(measured):
    programs, of = measured.programs, measured.of
    if not programs.frame:
        return None
    dumps = list(write_frames(programs, of, FRAMES_OF_A_LINE))
    for dump in dumps:
        compare_frames(programs, of, dump)
    ways = [programs.frames_through_c, programs.unwindings]
    own, peer = (sum(frame_cost(way, of, dump) for dump in dumps) for way in ways)
    return own / peer


def memory_ratio(measured):
    commands = measured.commands("check")
    return peak_memory(commands[DWFRAME]) / peak_memory(commands[PEER])


@functools.lru_cache(None)
def empty_of(programs):
    """A section without an entry, which takes what every run does."""
    path = OUT / "empty.bin"
    path.write_bytes(b"")
    return Measured(programs, Section(path, "8", "little"))


def net(measured, program, subcommand):
    nothing = empty_of(measured.programs)
    return measured.instructions(program, subcommand) - nothing.instructions(program, subcommand)


def edition_ratio(measured):
    """The dearest of the edition's subcommands to dwframe's, both less an empty section's."""
    return max(
        net(measured, EDITION, subcommand) / net(measured, DWFRAME, subcommand)
        for subcommand in [*SUBCOMMANDS, "normal"]
    )


@dataclasses.dataclass(frozen=True)
class Column:
    head: str
    ratio: Callable


COLUMNS = {
    "entries": Column("`entries`", lambda measured: measured.ratio("entries")),
    "zeros": Column("less zeros", entries_less_zeros),
    "check": Column("`check`", lambda measured: measured.ratio("check")),
    "rows": Column("`rows`", lambda measured: measured.ratio("rows")),
    "look-up": Column("a look-up", lookup_ratio),
    "frame": Column("a frame", frame_ratio),
    "normal": Column("`normal` to `check`", lambda measured: measured.ratio("normal", "check")),
    "memory": Column("peak memory of `check`", memory_ratio),
    "edition": Column("edition", edition_ratio),
}


def is_accepted(programs, of):
    command = [programs.dwframe, "check", *of.words, of.path]
    quiet = {"stdout": subprocess.DEVNULL, "stderr": subprocess.DEVNULL}
    return subprocess.run(command, **quiet).returncode == 0


def line_of(programs, of, columns):
    for subcommand in [*SUBCOMMANDS, "normal"]:
        compare_texts(f"{subcommand} {of.path}", programs.commands(subcommand, of))
    measured = Measured(programs, of)
    return {name: column.ratio(measured) for name, column in columns.items()}


def measure_ratios(programs, sections, picture):
    """Of each accepted section, the worst `check` first. Counts are the same on a busy machine."""
    columns = {
        name: column for name, column in COLUMNS.items() if name != EDITION or programs.edition
    }
    labels, accepted = zip(*(it for it in sections if is_accepted(programs, it[1])))
    with ThreadPoolExecutor(os.cpu_count()) as pool:
        found = pool.map(lambda of: line_of(programs, of, columns), accepted)
        lines = sorted(zip(labels, found), key=lambda line: -line[1]["check"])
    print_head("To gimli-peer's", *(column.head for column in columns.values()))
    for label, line in lines:
        cells = ("-" if ratio is None else f"{ratio:.2f}" for ratio in line.values())
        print_line(label, *cells)
    if picture:
        picture.write_text("\n".join(plot(lines)) + "\n")
