"""Processor seconds of large sections beside instructions, which hide what caches cost."""
import dataclasses

from measures import instructions, least_seconds
from printing import millions, print_head, print_line
from programs import DWFRAME, PEER, SUBCOMMANDS

LOOKUPS = 100_000


@dataclasses.dataclass(frozen=True)
class Work:
    """A run of each program, and one that takes as long as what is not meant, if there is any."""

    name: str
    own: list
    peer: list


def works_of(programs, of):
    for name in SUBCOMMANDS:
        commands = dict(programs.commands(name, of))
        yield Work(f"`{name}`", [commands[DWFRAME]], [commands[PEER]])
    own, peer = (dict(programs.commands(name, of)) for name in ("normal", "check"))
    yield Work("`normal` to `check`", [own[DWFRAME]], [peer[PEER]])
    if programs.lookup:
        many, none = (dict(programs.lookups(of, count)).values() for count in (LOOKUPS, 0))
        yield Work(f"{LOOKUPS:,} look-ups", *(list(pair) for pair in zip(many, none)))


def net(taken):
    first, *others = taken
    return first - sum(others)


def cells(own, peer, told):
    return told(own), told(peer), f"{own / peer:.2f}"


def measure_work(work):
    counted = [net([instructions(command) for command in side]) for side in (work.own, work.peer)]
    seconds = least_seconds([*work.own, *work.peer])
    timed = net(seconds[: len(work.own)]), net(seconds[len(work.own) :])
    return *cells(*counted, millions), *cells(*timed, "{:.3f}".format)


def measure_seconds(programs, sections):
    large = [(label, of) for label, of in sections if of.is_large]
    if not large or not programs.gimli_peer:
        return
    ratio = "dwframe's to it"
    print_head("Large section", "What", "Instructions", PEER, ratio, "Seconds", PEER, ratio)
    for label, of in large:
        for work in works_of(programs, of):
            print_line(label, work.name, *measure_work(work))
