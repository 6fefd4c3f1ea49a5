"""The packages of the Rust edition: which crates become which modules, and what goes where."""
from pathlib import Path

from translate import Translation

HERE = Path(__file__).resolve().parent
PROGRAM, LIBRARY = "dwframe", "dw_library"
LICENCES = ("LICENSE-APACHE", "LICENSE-MIT")
# The sections of `examples/` that the package's tests and documentation read.
SECTIONS = ("big-endian.bin", "plain.bin", "rules.bin", "scrambled.bin")

PROVED_HEAD = """\
//! The text that is proved, a module for each crate of dwframe, and `support`, on which it stands.
//!
//! Made by edition/packages.py. The contract beside the same text in `crates/` says what a call
//! promises.

// Some labels, parameters, fields and names are for clauses alone.
#![allow(dead_code, missing_docs, unused_imports, unused_labels, unused_variables)]
#![allow(clippy::all, clippy::pedantic)]

pub mod support;
"""


class Checkout:
    """A clone of dwframe: which crates it has, and what they are for."""

    def __init__(self, folder):
        self.folder, self.uses = folder, {}
        for line in (folder / "crates.txt").read_text().splitlines():
            if line and not line.startswith("#"):
                words, _, below = line.partition(":")
                self.uses[words.split()[0]] = below.split()

    def below(self, name):
        """The crates that a crate rests on."""
        used = [other for other in self.uses[name] if other in self.uses]
        return set(used).union(*map(self.below, used))

    def modules(self):
        """The crates that become modules of the package, lowest first, each with its `cfg`."""
        library, command = self.below(LIBRARY), self.below(PROGRAM) | {PROGRAM}
        for name in self.uses:
            is_program = (self.folder / "crates" / name / "src/main.rt").is_file()
            if name in library:
                yield name, None
            elif name in command:
                yield name, 'feature = "command"'
            elif name != LIBRARY and not is_program:
                yield name, 'all(test, feature = "command")'

    def translated(self, name, module, home="crate::proved"):
        """The files of a crate in Rust, each by its place in the module's folder."""
        crates = set(self.uses) - {PROGRAM}
        folder = self.folder / "crates" / name / "src"
        for path in sorted(folder.rglob("*.rt")):
            place = path.relative_to(folder).with_suffix(".rs")
            if place.name in ("lib.rs", "main.rs"):
                place = place.with_name("mod.rs")
            file = path.relative_to(self.folder)
            yield place, Translation(file, path.read_text(), module, crates, home).text()


class Package:
    """A package's folder. A file that is as before keeps its time, so cargo builds nothing anew."""

    def __init__(self, out):
        self.out, self.files = out, set()

    def put(self, place, text):
        path, content = self.out / place, text if isinstance(text, bytes) else text.encode()
        path.parent.mkdir(parents=True, exist_ok=True)
        if not path.is_file() or path.read_bytes() != content:
            path.write_bytes(content)
        self.files.add(path)

    def put_all(self, folder, place=Path()):
        """Copies what is written by hand."""
        for path in sorted(folder.rglob("*")):
            if path.is_file():
                self.put(place / path.relative_to(folder), path.read_bytes())

    def end(self):
        """Takes out the sources of an earlier run that are no more."""
        for folder in ("src", "tests", "examples"):
            for path in (self.out / folder).rglob("*.rs"):
                if path not in self.files:
                    path.unlink()


def write_package(checkout, out):
    """Writes the package `dwframe`: the library for Rust, and the command."""
    package, proved, head = Package(out), Path("src/proved"), PROVED_HEAD
    package.put_all(HERE / "package")
    package.put_all(HERE / "support", proved / "support")
    for name in LICENCES:
        package.put(name, (checkout.folder / name).read_bytes())
    for name in SECTIONS:
        package.put(f"tests/data/{name}", (checkout.folder / "examples" / name).read_bytes())
    for name, cfg in checkout.modules():
        module = "program" if name == PROGRAM else name
        is_test = cfg is not None and "test" in cfg
        head += f"#[cfg({cfg})]\n" if cfg else ""
        head += f"mod {module};\n" if is_test else f"pub mod {module};\n"
        for place, text in checkout.translated(name, module):
            package.put(proved / module / place, text)
    package.put(proved / "mod.rs", head)
    package.end()
