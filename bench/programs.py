"""The programs that are measured: how they are built, and the words that each is run with."""
import pathlib
import re
import shutil
import subprocess
import sys

HERE = pathlib.Path(__file__).resolve().parent
ROOT = HERE.parent
OUT = HERE / "out"
DWFRAME, EDITION, THROUGH_C, PEER = "dwframe", "edition", "dwframe through C", "gimli-peer"
# What gimli-peer does, too.
SUBCOMMANDS = ["entries", "check", "rows"]
# What has to print the same.
ALIKE = (DWFRAME, EDITION, THROUGH_C, PEER)
# Of evaluation, bombs and dumps.
TARGET = ["--size", "8", "--order", "little"]
# The formats of object files by size and order, which readelf and llvm-dwarfdump read.
FORMATS = {
    ("8", "little"): "elf64-x86-64",
    ("4", "little"): "elf32-i386",
    ("8", "big"): "elf64-big",
    ("4", "big"): "elf32-big",
}


def output(command, **options):
    return subprocess.run(command, stdout=subprocess.PIPE, check=True, **options).stdout


def is_installed(name):
    if not shutil.which(name):
        print(f"left out: {name}, which is not installed", file=sys.stderr)
        return False
    return True


def build_dwframe():
    """The wrapper builds the program where it is not up to date."""
    output([ROOT / "dwframe", "--help"])
    return ROOT / "crates" / "dwframe" / "out" / "dwframe"


def build_library():
    """The script builds the library where it is not up to date."""
    output([ROOT / "library"])
    return ROOT / "libdwframe.a"


def build_of_c(name, library):
    """NAME.c over the library, or None where there is none or no C compiler."""
    if not library or not is_installed("cc"):
        return None
    program = OUT / name
    output(["cc", "-O2", "-I", ROOT / "include", HERE / f"{name}.c", library, "-o", program])
    return program


def build_gimli_peer():
    """gimli-peer, or None where Debian's librust-gimli-dev is not installed."""
    registry = pathlib.Path("/usr/share/cargo/registry")
    if not shutil.which("cargo") or not list(registry.glob("gimli-0.27*")):
        print("left out: gimli-peer, which needs cargo and librust-gimli-dev", file=sys.stderr)
        return None
    source, target = HERE / PEER, OUT / PEER
    command = ["cargo", "build", "--release", "--quiet", "--target-dir", target]
    subprocess.run(command, cwd=source, check=True)
    return target / "release" / PEER


def without_debug_information(program, name):
    """A copy without what valgrind may fail to read. The instructions are the same."""
    copy = OUT / name
    subprocess.run(["objcopy", "--strip-debug", program, copy], check=True)
    return copy


def object_of(of):
    """An object file with the section, for programs that read no raw one."""
    made = OUT / f"{of.path.stem}.o"
    to_section = [".data=.debug_frame,readonly,contents"]
    words = ["-I", "binary", "-O", FORMATS[of.size, of.order], "--rename-section", *to_section]
    subprocess.run(["objcopy", *words, of.path, made], check=True)
    return made


class Programs:
    def __init__(self, dwframe, edition, library, gimli_peer):
        self.dwframe, self.gimli_peer = without_debug_information(dwframe, DWFRAME), gimli_peer
        self.edition = edition and without_debug_information(edition, EDITION)
        self.lookup, self.frame = build_of_c("lookup", library), build_of_c("frame", library)
        self.has_readelf = is_installed("readelf")
        self.has_dwarfdump = is_installed("llvm-dwarfdump")

    def commands(self, subcommand, of):
        """The programs that answer a subcommand of a section, dwframe first, with their words."""
        yield DWFRAME, [self.dwframe, subcommand, *of.words, of.path]
        if self.edition:
            yield EDITION, [self.edition, subcommand, *of.words, of.path]
        if self.gimli_peer and subcommand in SUBCOMMANDS:
            yield PEER, [self.gimli_peer, subcommand, of.path, *of.words]

    def listings(self, of):
        """The programs that only list rows, in formats of their own, with their words."""
        if self.has_readelf:
            yield "readelf", ["readelf", "--debug-dump=frames-interp", object_of(of)]
        if self.has_dwarfdump:
            yield "llvm-dwarfdump", ["llvm-dwarfdump", "--debug-frame", object_of(of)]

    def lookups(self, of, count):
        """The programs that look so many addresses up in a section, with their words."""
        if self.lookup:
            yield THROUGH_C, [self.lookup, str(count), of.path, of.size, of.order]
        if self.gimli_peer:
            yield PEER, [self.gimli_peer, "lookup", str(count), of.path, *of.words]

    def evaluations(self, block, steps):
        """The programs that evaluate a block, with their words."""
        words = ["eval", *TARGET, "--steps", str(steps), block]
        yield DWFRAME, [self.dwframe, *words]
        if self.gimli_peer:
            yield PEER, [self.gimli_peer, *words]

    def unwinding(self, of, dump):
        """dwframe's words for one frame."""
        return [self.dwframe, "unwind", *of.words, "--default", "same", of.path, dump]

    def unwindings(self, of, dump, count):
        """gimli-peer's words for so many unwindings of one frame."""
        return [self.gimli_peer, "unwind", str(count), of.path, dump, *of.words]

    def frames_through_c(self, of, dump, count):
        """The same by an index, through C."""
        return [self.frame, str(count), of.path, of.size, of.order, dump]


def rows_without_undefined(text):
    """Those of `rows` without rules `u`, and without a row that only these set apart."""
    before = None
    for line in re.sub(rb" r\d+=u\b", b"", text).splitlines(keepends=True):
        rules = line[1:].partition(b" ")[2] if line.startswith(b" ") else None
        if rules is None or rules != before:
            yield line
        before = rules


def without_undefined(text):
    """gimli keeps no rule where DW_CFA_undefined gives one, so it does not print `u`."""
    return b"".join(rows_without_undefined(text)) if text.startswith(b"fde ") else text


def compare_texts(what, commands):
    """What dwframe and gimli-peer print has to be the same."""
    texts = {without_undefined(output(command)) for name, command in commands if name in ALIKE}
    if len(texts) > 1:
        raise SystemExit(f"{what}: two of {', '.join(ALIKE)} print other texts")
