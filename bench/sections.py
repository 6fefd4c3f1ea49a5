"""The sections that are measured: made here, named, or all of a folder."""
import csv
import dataclasses
import pathlib

from programs import OUT, ROOT, output
from synth import FDES_OF_A_UNIT, Writer, section

# Of compilers that write a CIE for each file.
SMALL_UNIT = 20
LARGE_COUNT = 100_000
# Where a run takes long enough for its seconds to say something.
LARGE = 1_000_000


@dataclasses.dataclass(frozen=True)
class Section:
    path: pathlib.Path
    size: str
    order: str

    @property
    def words(self):
        return ["--size", self.size, "--order", self.order]

    @property
    def is_large(self):
        return self.path.stat().st_size >= LARGE


def write_synth(count, size, order, unit=FDES_OF_A_UNIT, shuffle=False):
    name = f"synth-{count}-{unit}-{size}-{order}{'-shuffled' if shuffle else ''}.bin"
    with open(OUT / name, "wb") as out:
        out.writelines(section(Writer(int(size), order), count, shuffle, unit))
    return Section(OUT / name, size, order)


def large_sections():
    """Two that are unlike: in byte order, in the units of their CIEs, and in how they lie."""
    count = f"{LARGE_COUNT:,} FDEs"
    yield count, write_synth(LARGE_COUNT, "8", "little")
    other = write_synth(LARGE_COUNT, "8", "big", SMALL_UNIT, shuffle=True)
    yield f"{count}, {SMALL_UNIT} a CIE, big, in no order", other


def is_elf(path):
    with open(path, "rb") as file:
        return file.read(4) == b"\x7fELF"


def taken_out(program):
    """The section of a linked ELF file, as `section` takes it out."""
    made = OUT / f"{program.name}.bin"
    _, size, _, order, _ = output([ROOT / "section", program, made], text=True).split()
    return Section(made, size, order)


def named_section(path, size, order):
    """Of the size and order that the file beside it says, where there is one."""
    if is_elf(path):
        return taken_out(path)
    target = path.with_suffix(".target")
    return Section(path, *(target.read_text().split() if target.exists() else (size, order)))


def lines_of(folder):
    """Those of DIR/sections.tsv, by the name of a section."""
    table = folder / "sections.tsv"
    if not table.exists():
        return {}
    with open(table, newline="") as file:
        return {line["name"]: line for line in csv.DictReader(file, delimiter="\t")}


def sections_in(folder, least, size, order):
    """Those of a folder with so many bytes, by what they were made with or by their names."""
    lines = lines_of(folder)
    for path in sorted(folder.glob("*.bin")):
        if path.stat().st_size >= least:
            line = lines.get(path.stem, {"size": size, "order": order})
            label, *_ = (line.get("made with") or path.stem).split(":")
            yield label, named_section(path, line["size"], line["order"])
