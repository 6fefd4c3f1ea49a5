"""The crates of the repository, as crates.txt lists them, and the folder of the toolchain."""
import subprocess
from pathlib import Path

ROOT = Path(__file__).resolve().parent.parent
CRATES_TXT = ROOT / "crates.txt"


class Crate:
    """A line of crates.txt: a crate, and the libraries of the repository and of the toolchain that
    it uses."""

    def __init__(self, line):
        head, _, uses = line.partition(":")
        self.name, *kind = head.split()
        self.uses = ["std", *uses.split()]
        self.folder = ROOT / "crates" / self.name
        self.is_static = kind == ["staticlib"]
        self.is_program = (self.folder / "src/main.rt").exists()
        self.is_library = not self.is_static and not self.is_program

    def texts(self, *parts):
        """The files and folders in these parts of the crate, such as src."""
        return [it for part in parts for it in (self.folder / part).rglob("*")]


def read_crates():
    """The crates by name, lowest first."""
    lines = [it for it in CRATES_TXT.read_text().splitlines() if it and it[0] != "#"]
    return {it.name: it for it in map(Crate, lines)}


def crates_below(name, crates):
    """The crates that a crate rests on, lowest first."""
    used = set(crates[name].uses)
    for it in reversed(list(crates.values())):
        used.update(it.uses if it.name in used else ())
    return [it for it in crates.values() if it.name in used]


def toolchain():
    """The folder of the Rattle toolchain whose command rt is on the path."""
    page = subprocess.run(["rt", "doc"], check=True, stdout=subprocess.PIPE, text=True).stdout
    return Path(page.strip()).parent
