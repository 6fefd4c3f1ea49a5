#!/usr/bin/env python3
"""Compares the stacks that examples/core.c finds in core files with gdb's, and with those of eu-stack and of libunwind.

    core.py [--time]

checks/crash.c is built by each compiler below that is installed, in several ways, and run: it stops, and leaves a core file. Where the kernel
writes none, gdb does (generate-core-file); of one program it does in any case. Each thread has to have the frames that gdb finds, up to the
first one of the C library, where the walk has to end because no table says more. The example is built by gcc, by clang and with the sanitizers;
that of the Rust edition has to print the same. Then both are given damaged files. --time also tells what other readers need for the same core file.

LIBRARY may name a libdwframe.a that is built. What is not installed is left out, and named.
"""
import os
import pathlib
import random
import re
import resource
import shutil
import subprocess
import sys
import tempfile
import time
from dataclasses import dataclass, field

ROOT = pathlib.Path(__file__).resolve().parent.parent
CHECKS = ROOT / "checks"
WARNINGS = ["-std=c11", "-Wall", "-Wextra", "-Wpedantic", "-Werror"]
SANITIZE = ["-fsanitize=address,undefined", "-fno-sanitize-recover=all"]
TABLES = ["-g", "-fno-asynchronous-unwind-tables", "-fno-unwind-tables", "-std=c11", "-pthread", "-Wall", "-Wextra", "-Werror"]
# Why a walk ends that has come to the C library: a shared object of its own, or a part of the program.
NO_TABLE = "the file has no .debug_frame"
NO_ENTRY = "no entry of the file's .debug_frame covers the address"
DAMAGED = 300
QUIET = ["-iex", "set debuginfod enabled off"]


@dataclass(frozen=True)
class Target:
    compilers: tuple
    gdb: str
    flags: tuple = ()
    emulator: tuple = ()


X86_64 = Target(("gcc", "clang"), "gdb")
# An atomic operation is no call of libgcc, which has no table.
AARCH64 = Target(("aarch64-linux-gnu-gcc",), "gdb-multiarch", ("-mno-outline-atomics",), ("qemu-aarch64",))


@dataclass(frozen=True)
class Way:
    """A way to build the program: its name, its flags, those of the shared object that its module is, or none where it is a part of the program,
    and why its walks end."""

    name: str
    flags: tuple
    shared: tuple | None
    end: str


SHARED = Way("with a shared object", ("-fPIE", "-pie"), (), NO_TABLE)
FIXED = Way("at its own addresses, with a shared object linked for others", ("-no-pie",), ("-Wl,-Ttext-segment=0x300000",), NO_TABLE)
STATIC = Way("static", ("-static",), None, NO_ENTRY)
STATIC_PIE = Way("static-pie", ("-static-pie",), None, NO_ENTRY)
# libunwind finds the table of a file only where that begins with its code, and has an .eh_frame too.
BOTH_TABLES = ("-fasynchronous-unwind-tables", "-include", str(CHECKS / "both_tables.h"), "-Wl,-z,noseparate-code")
FOR_LIBUNWIND = Way("with an .eh_frame too, and one segment", ("-fPIE", "-pie", *BOTH_TABLES), BOTH_TABLES, NO_TABLE)
WAYS = [(X86_64, SHARED), (X86_64, FIXED), (X86_64, STATIC_PIE), (X86_64, FOR_LIBUNWIND), (AARCH64, STATIC), (AARCH64, STATIC_PIE)]
# How the program is run: how deep, how many threads, and how it stops.
RUNS = [("3", "1", "trap"), ("5", "8", "trap"), ("2", "8", "null"), ("3", "1", "constant")]


def missing(tools):
    return [tool for tool in tools if not shutil.which(tool)]


def run(command, **options):
    options = {"stdin": subprocess.DEVNULL, "capture_output": True, "text": True, "timeout": 300, **options}
    return subprocess.run([str(word) for word in command], **options)


def output(command, **options):
    done = run(command, **options)
    if done.returncode != 0:
        sys.exit(f"core: {' '.join(map(str, command))}: status {done.returncode}\n{done.stdout}{done.stderr}")
    return done.stdout


# ---- the example


def build_readers(folder):
    """The builds of the example, each by its name."""
    library = pathlib.Path(os.environ.get("LIBRARY") or ROOT / "libdwframe.a").resolve()
    if "LIBRARY" not in os.environ:
        output([ROOT / "library"], timeout=None)
    readers = {}
    for name, command in {"gcc": ["gcc", "-O2"], "clang": ["clang", "-O2"], "sanitized": ["gcc", "-O1", "-g", *SANITIZE]}.items():
        if missing(command[:1]):
            print(f"core by {name}: left out, for there is no {command[0]}")
            continue
        readers[name] = folder / f"core-{name}"
        sources = [ROOT / "examples/core.c", ROOT / "examples/core_file.c", library]
        output([*command, *WARNINGS, f"-I{ROOT / 'include'}", "-o", readers[name], *sources])
    if rust := build_rust_reader():
        readers["rust"] = rust
    return readers


def build_rust_reader():
    """The example of the Rust edition, or none where cargo or its crates are not there."""
    package = output([sys.executable, ROOT / "edition/build.py", "package"]).split()[-1]
    manifest = pathlib.Path(package, "examples/elf/Cargo.toml")
    build = ["build", "--quiet", "--release", "--bin", "core", "--manifest-path", manifest]
    built = run([sys.executable, ROOT / "edition/build.py", "cargo", *build], timeout=None)
    if built.returncode != 0:
        print("core by rustc: left out, for there is no cargo, or no crate `object` for it")
        return None
    return manifest.parent / "target/release/core"


def build_libunwind_reader(folder):
    """The reader of core files by libunwind, or none where that is not there."""
    if missing(["pkg-config"]) or run(["pkg-config", "--exists", "libunwind-coredump"]).returncode != 0:
        return None
    reader = folder / "core-libunwind"
    flags = output(["pkg-config", "--cflags", "--libs", "libunwind-coredump"]).split()
    output(["gcc", "-O2", *WARNINGS, "-o", reader, CHECKS / "core_libunwind.c", *flags])
    return reader


# ---- programs, and their core files


@dataclass
class Program:
    target: Target
    way: Way
    compiler: str
    level: str
    folder: pathlib.Path

    @property
    def path(self):
        return self.folder / "crash"

    def __str__(self):
        return f"{self.compiler} {self.level}, {self.way.name}"

    def build(self):
        self.folder.mkdir(parents=True)
        module = [CHECKS / "crash_module.c"]
        flags = [self.compiler, *TABLES, *self.target.flags, self.level]
        if self.way.shared is not None:
            shared = self.folder / "libcrash.so"
            output([*flags, "-fPIC", "-shared", *self.way.shared, "-Wl,-soname,libcrash.so", "-o", shared, *module])
            module = [shared, "-Wl,-rpath,$ORIGIN"]
        output([*flags, *self.way.flags, "-o", self.path, CHECKS / "crash.c", *module])

    def core(self, words):
        """The core file of a run, or none where nothing writes it."""
        name = self.folder / f"core-{'-'.join(words)}"
        if not name.exists():
            self.write_core(words, name)
        return name if name.exists() else None

    def write_core(self, words, name):
        with tempfile.TemporaryDirectory(dir=self.folder) as place:
            run([*self.target.emulator, self.path, *words], cwd=place, preexec_fn=allow_core)
            found = list(pathlib.Path(place).glob("qemu_*.core" if self.target.emulator else "core*"))
            if found:
                found[0].rename(name)
        if not found and not self.target.emulator:
            self.let_gdb_write(words, name)

    def let_gdb_write(self, words, name):
        batch = [self.target.gdb, "-nx", "-batch", *QUIET, "-ex", "run", "-ex", f"generate-core-file {name}"]
        run([*batch, "--args", self.path, *words])


def allow_core():
    hard = resource.getrlimit(resource.RLIMIT_CORE)[1]
    resource.setrlimit(resource.RLIMIT_CORE, (hard, hard))


# ---- stacks: a list of addresses for each thread's number


@dataclass
class Stack:
    frames: list = field(default_factory=list)
    # Of gdb's, how many are above the first one of the C library.
    own: int = 0
    end: str = ""


def own_stacks(text):
    stacks = {}
    for line in text.splitlines():
        if line.startswith("thread "):
            stack = stacks.setdefault(int(line.split()[1]), Stack())
        elif line.startswith("#"):
            stack.frames.append(int(line.split()[1], 16))
        else:
            stack.end = line.removeprefix("the walk ends: ")
    return stacks


def gdb_stacks(program, core):
    batch = [program.target.gdb, "-nx", "-batch", *QUIET]
    shown = ["-ex", "set backtrace past-main on", "-ex", "set print frame-info location-and-address"]
    text = output([*batch, *shown, *placed(program, core), "-ex", "thread apply all bt", program.path, core])
    stacks = {}
    for line in text.splitlines():
        if thread := re.match(r"Thread .*LWP (\d+)", line):
            stack = stacks.setdefault(int(thread[1]), Stack())
        elif stacks and (frame := re.match(r"#\d+ +0x([0-9a-f]+) in (.*)", line)):
            stack.frames.append(int(frame[1], 16))
            if "/crash" in frame[2] or frame[2].startswith("by_constant "):
                stack.own = len(stack.frames)
    return stacks


def placed(program, core):
    """Where gdb's auxiliary vector says that the program is: of a core file of qemu-user gdb does not find that out by itself."""
    if program.way is not STATIC_PIE or not program.target.emulator:
        return []
    told = output([program.target.gdb, "-nx", "-batch", "-ex", "info auxv", program.path, core])
    loaded = int(re.search(r"AT_ENTRY .*(0x[0-9a-f]+)", told)[1], 16)
    linked = int.from_bytes(program.path.read_bytes()[24:32], "little")
    return ["-ex", f"symbol-file -o {loaded - linked:#x} {program.path}"]


def segments(core):
    """The number, the type, the place, the address and the length in the file of each segment."""
    begin, count = int.from_bytes(core[32:40], "little"), int.from_bytes(core[56:58], "little")
    for number in range(count):
        header = core[begin + 56 * number :][:56]
        words = [int.from_bytes(header[at : at + 8], "little") for at in (8, 16, 32)]
        yield number, int.from_bytes(header[:4], "little"), *words


def mapped_files(core):
    """The first address and the path of each mapping of a file, by the note NT_FILE."""
    notes = next(core[place : place + length] for _, kind, place, _, length in segments(core) if kind == 4)
    while int.from_bytes(notes[8:12], "little") != 0x46494C45:
        owner, length = (int.from_bytes(notes[at : at + 4], "little") for at in (0, 4))
        notes = notes[12 + owner + -owner % 4 + length + -length % 4 :]
    # Behind the owner, `CORE`: how many there are, the size of a page, three numbers of each, and the paths.
    text = notes[20:]
    count = int.from_bytes(text[:8], "little")
    paths = text[16 + 24 * count :].split(b"\0")
    for number in range(count):
        yield int.from_bytes(text[16 + 24 * number :][:8], "little"), paths[number].decode()


def elfutils_stacks(program, core):
    return listed_stacks(run(["eu-stack", "-n", "0", "--core", core, "-e", program.path]).stdout)


def libunwind_command(reader, core):
    mapped = [word for address, path in mapped_files(core.read_bytes()) for word in (hex(address), path)]
    return [reader, core, *mapped]


def listed_stacks(text):
    stacks = {}
    for line in text.splitlines():
        if thread := re.match(r"(?:TID|thread) (\d+)", line):
            stack = stacks.setdefault(int(thread[1]), Stack())
        elif stacks and (frame := re.match(r"#\d+ +0x([0-9a-f]+)", line)):
            stack.frames.append(int(frame[1], 16))
    return stacks


# ---- what is compared


class Tally:
    def __init__(self):
        self.wrong = 0
        self.frames = self.stacks = self.elfutils = self.libunwind = 0

    def fail(self, what):
        self.wrong += 1
        print(f"core: {what}", flush=True)


def compare(tally, readers, libunwind, program, words, core):
    """Whether each build prints the same, and the stacks are those of gdb, of eu-stack and of libunwind."""
    printed = {name: output([reader, program.path, core]) for name, reader in readers.items()}
    first = next(iter(printed.values()))
    for name, text in printed.items():
        if text != first:
            tally.fail(f"{program}: {name} prints another text")
    found, wanted = own_stacks(first), gdb_stacks(program, core)
    if set(found) != set(wanted) or len(found) != int(words[1]):
        tally.fail(f"{program}: threads {sorted(found)}, and gdb has {sorted(wanted)}")
    for thread, stack in found.items():
        other = wanted.get(thread, Stack())
        if stack.frames != other.frames[: other.own + 1] or stack.end != program.way.end or other.own <= 2 * int(words[0]):
            tally.fail(f"{program}, {' '.join(words)}, thread {thread}: {stack}, and gdb has {other}")
        tally.frames += len(stack.frames)
    tally.stacks += len(found)
    # eu-stack does not find a program of qemu-user. And where a CFA reads the program's text, which the core file does not have, it goes
    # round for ever.
    if not missing(["eu-stack"]) and program.target is not AARCH64 and words[2] != "constant":
        tally.elfutils += compare_others(tally, f"{program}, eu-stack", found, elfutils_stacks(program, core))
    if libunwind and program.way is FOR_LIBUNWIND:
        others = listed_stacks(output(libunwind_command(libunwind, core)))
        tally.libunwind += compare_others(tally, f"{program}, libunwind", found, others)


def compare_others(tally, what, found, others):
    """How many stacks another reader has, which has to find the same frames. After a call of address 0 eu-stack (elfutils 0.188) and libunwind
    (1.6.2) go by the frame pointer, and miss the first callers."""
    compared = {thread: stack for thread, stack in found.items() if stack.frames[0] != 0}
    for thread, stack in compared.items():
        other = others.get(thread, Stack())
        if other.frames[: len(stack.frames)] != stack.frames:
            tally.fail(f"{what}, thread {thread}: {other}, and not {stack}")
    return len(compared)


# ---- other files than those that were mapped


def compare_changed(tally, readers, program, folder):
    """A file that is another by now, one that is gone, and one that is no program: the walk ends there, and says so."""
    core = program.core(RUNS[0])
    copy = folder / "another"
    shutil.copy(program.path, copy)
    with open(copy, "r+b") as file:
        file.seek(0x300)
        file.write(b"another build ID")
    told(tally, readers, [copy, core], 0, "the file is not the one that was mapped")
    told(tally, readers, [program.path, program.path], 2, "")
    told(tally, readers, [CHECKS / "crash.c", core], 2, "")
    told(tally, readers, [folder / "none", core], 4, "")
    told(tally, readers, [program.path, folder / "none"], 4, "")
    told(tally, readers, [program.path], 3, "")
    if program.way.shared is not None:
        shared = program.folder / "libcrash.so"
        shared.rename(folder / "libcrash.so")
        told(tally, readers, [program.path, core], 0, "the file cannot be read")
        shared.mkdir()
        told(tally, readers, [program.path, core], 0, "the file cannot be read")
        shared.rmdir()
        shutil.copy(CHECKS / "crash.c", shared)
        told(tally, readers, [program.path, core], 0, "the file is not an ELF file that was loaded there")
        (folder / "libcrash.so").rename(shared)


def told(tally, readers, words, status, end):
    """Each build ends with a status, and the first walk as it says."""
    for name, reader in readers.items():
        done = run([reader, *words])
        ends = re.findall(r"^the walk ends: (.*)", done.stdout, re.M)
        if done.returncode != status or (end and ends[:1] != [end]):
            tally.fail(f"{name} {words}: status {done.returncode}, {ends[:1]}, {done.stderr}")


# ---- made core files


def signed_core(core, addresses):
    """A core file whose return addresses are signed, with NT_ARM_PAC_MASK, which qemu-user does not write: a segment without bytes becomes the
    note."""
    mask, signature = 0x007F_0000_0000_0000, 0x002A_0000_0000_0000
    begin = int.from_bytes(core[32:40], "little")
    signed = bytearray(core)
    for _, kind, place, _, length in segments(core):
        for at in range(place, place + length, 8) if kind == 1 else ():
            word = int.from_bytes(core[at : at + 8], "little")
            if word in addresses:
                signed[at : at + 8] = (word | signature).to_bytes(8, "little")
    number = max(number for number, kind, _, _, length in segments(core) if kind == 1 and length == 0)
    note = b"".join(size.to_bytes(4, "little") for size in (6, 16, 0x406)) + b"LINUX\0\0\0" + mask.to_bytes(8, "little") * 2
    header = (4).to_bytes(4, "little") + bytes(4) + len(core).to_bytes(8, "little") + bytes(16) + len(note).to_bytes(8, "little") + bytes(16)
    unmasked = bytes(signed)
    signed[begin + 56 * number : begin + 56 * (number + 1)] = header
    return unmasked, bytes(signed) + note


def compare_signed(tally, readers, program, folder):
    """Signed return addresses: without the mask they lead nowhere, and with it the stacks are those of the core file that is not signed."""
    core = program.core(RUNS[0])
    for name, reader in readers.items():
        wanted = output([reader, program.path, core])
        addresses = {address for stack in own_stacks(wanted).values() for address in stack.frames[1:]}
        unmasked, masked = signed_core(core.read_bytes(), addresses)
        path = folder / "signed"
        path.write_bytes(unmasked)
        lost = own_stacks(output([reader, program.path, path]))
        path.write_bytes(masked)
        if output([reader, program.path, path]) != wanted or any(stack.end != "no file was mapped there" for stack in lost.values()):
            tally.fail(f"{program}: {name} does not take signatures away")
        path.unlink()


def damaged(chance, core, program):
    """A core file and a program with numbers that are changed, or cut off. Most changes are where structure is: the headers and notes of the
    core file, the section headers of the program."""
    core, program = bytearray(core), bytearray(program)
    sections = int.from_bytes(program[40:48], "little")
    for _ in range(chance.randint(1, 4)):
        size = chance.choice([1, 4, 8])
        data, first, last = chance.choice([(core, 0, 0x700), (core, 0x700, 0x2000), (core, 0, len(core)), (program, sections, len(program))])
        at = chance.randrange(first, last) // size * size
        value = chance.choice([0, 1, 7, 0x80, 0xFF, 0x1000, 2**32 - 1, 2**63, 2**64 - 1, 2**64 - 8, chance.getrandbits(64)])
        data[at : at + size] = (value % 256**size).to_bytes(size, "little")
    if chance.random() < 0.1:
        del core[chance.randrange(len(core)) :]
    return core, program


def compare_damaged(tally, readers, program, folder):
    """Damaged files: each build ends with a status of its own, and those in C print the same. In Rust another crate reads the files."""
    chance = random.Random(1)
    core, binary = program.core(RUNS[1]).read_bytes(), program.path.read_bytes()
    paths = [folder / "damaged", folder / "damaged.core"]
    environment = {**os.environ, "ASAN_OPTIONS": "exitcode=99:allocator_may_return_null=1"}
    statuses = {}
    for _ in range(DAMAGED):
        bad_core, bad_program = damaged(chance, core, binary)
        paths[0].write_bytes(bad_program)
        paths[1].write_bytes(bad_core)
        answers = {name: run([reader, *paths], env=environment, errors="replace") for name, reader in readers.items()}
        first = next(iter(answers.values()))
        for name, answer in answers.items():
            is_other = name != "rust" and (answer.returncode, answer.stdout) != (first.returncode, first.stdout)
            if answer.returncode not in (0, 2, 4, 5) or is_other:
                tally.fail(f"damaged files: {name}: status {answer.returncode}, and {first.returncode}: {answer.stderr[-2000:]}")
                return
        statuses[first.returncode] = statuses.get(first.returncode, 0) + 1
    print(f"core: {DAMAGED} damaged files, by {', '.join(readers)}: statuses {statuses}")


# ---- time


def walking_time(reader, program, core):
    """The frames of a core file, and the milliseconds of the fastest of some walks."""
    told = [run([reader, "--time", program.path, core]).stderr.split() for _ in range(10)]
    return int(told[0][-4]), min(float(words[-2]) for words in told)


def compare_times(tally, readers, program):
    """A stack of 100 frames is walked in a millisecond at most."""
    core = program.core(("47", "1", "trap"))
    for name, reader in readers.items():
        frames, milliseconds = walking_time(reader, program, core)
        if name != "sanitized" and milliseconds > 1.0:
            tally.fail(f"{program}: {name} takes {milliseconds} ms for {frames} frames")
        print(f"core: {frames} frames by {name}: {milliseconds:.3f} ms")


def tell_times(readers, libunwind, program):
    """The whole run of each reader of a core file, in milliseconds."""
    core = program.core(("47", "1", "trap"))
    batch = ["gdb", "-nx", "-batch", *QUIET, "-ex", "thread apply all bt"]
    commands = {name: [reader, program.path, core] for name, reader in readers.items()}
    commands["gdb"] = [*batch, program.path, core]
    if not missing(["eu-stack"]):
        commands["eu-stack"] = ["eu-stack", "--core", core, "-e", program.path]
    if libunwind:
        commands["libunwind"] = libunwind_command(libunwind, core)
    for name, command in commands.items():
        times = []
        for _ in range(10):
            before = time.perf_counter()
            run(command)
            times.append(time.perf_counter() - before)
        print(f"core: a whole run of {name}: {min(times) * 1e3:.1f} ms")


def programs(folder):
    """Each program that can be built and run here, with a core file of each run."""
    for number, (target, way) in enumerate(WAYS):
        for compiler in target.compilers:
            if without := missing([compiler, target.gdb, *target.emulator]):
                print(f"core of {compiler}, {way.name}: left out, for there is no {' and no '.join(without)}")
                continue
            for level in ["-O0", "-O2"]:
                program = Program(target, way, compiler, level, folder / f"{compiler}{level}-{number}")
                program.build()
                if all(program.core(words) for words in RUNS):
                    yield program
                else:
                    print(f"core of {program}: left out, for nothing writes a core file here")


def main():
    if without := missing(["gcc", "gdb"]):
        print(f"core: left out, for there is no {' and no '.join(without)}")
        return 0
    tally = Tally()
    with tempfile.TemporaryDirectory() as name:
        folder = pathlib.Path(name)
        readers, libunwind = build_readers(folder), build_libunwind_reader(folder)
        built = list(programs(folder))
        for program in built:
            for words in RUNS:
                compare(tally, readers, libunwind, program, words, program.core(words))
        told = f"{tally.frames} frames of {tally.stacks} stacks of {len(built)} programs, by {', '.join(readers)}"
        print(f"core: {told}: {'NOT ' if tally.wrong else ''}as gdb's", flush=True)
        for name, is_there, count in [("eu-stack", not missing(["eu-stack"]), tally.elfutils), ("libunwind", libunwind, tally.libunwind)]:
            told = f"{count} of these stacks compared" if is_there else "left out, for it is not there"
            print(f"core beside {name}: {told}", flush=True)
        for program in [program for program in built if program.target is AARCH64]:
            compare_signed(tally, readers, program, folder)
        for first in [program for program in built if program.target is X86_64][:1]:
            first.let_gdb_write(RUNS[1], folder / "by-gdb")
            compare(tally, readers, libunwind, first, RUNS[1], folder / "by-gdb")
            compare_changed(tally, readers, first, folder)
            compare_damaged(tally, readers, first, folder)
            compare_times(tally, readers, first)
        for program in [program for program in built if program.way is FOR_LIBUNWIND][:1]:
            if "--time" in sys.argv[1:]:
                tell_times(readers, libunwind, program)
    return 1 if tally.wrong else 0


if __name__ == "__main__":
    sys.exit(main())
