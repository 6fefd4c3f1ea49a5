#!/usr/bin/env python3
"""Checks what is written by hand of the Rust edition's package, and runs its examples.

    face.py [PROGRAM]

The sources are laid out as rustfmt does, have no warning of clippy or rustdoc, and no more lines
than they may have; the tests of the package pass, those in its documentation too; cargo can pack
it. Then the examples answer what PROGRAM does, the proved command: rows, look-ups and frames of the
examples, of made sections and of a program that stopped; samples are counted, and two binaries
compared. What needs a tool that is missing is left out, and named.
"""
import collections
import os
import shutil
import subprocess
import sys
import tempfile
from pathlib import Path

ROOT = Path(__file__).resolve().parent.parent
CHECKS, EXAMPLES = ROOT / "checks", ROOT / "examples"
PACKAGE = ROOT / "edition/package"
BUILD = [sys.executable, ROOT / "edition/build.py"]
# The most lines of the library's part that is written by hand.
LINES = 900
LIBRARY = ["--no-default-features"]
STACK_POINTERS = {"x86_64": "7", "aarch64": "31"}


def fail(what):
    sys.exit(f"face: {what}")


def run(*words, **options):
    return subprocess.run([str(word) for word in words], **options)


def answer(*words):
    """The status, what is printed, and standard error's first line without a program's name."""
    ran = run(*words, capture_output=True, text=True)
    line = (ran.stderr.splitlines() or [""])[0]
    return ran.returncode, ran.stdout, line.removeprefix("dwframe: ")


def cargo(*words, **environment):
    ran = run(*BUILD, "cargo", *words, env={**os.environ, **environment})
    if ran.returncode:
        fail(f"cargo {' '.join(words)}: status {ran.returncode}")


def is_there(tool, what):
    found = shutil.which(tool)
    if not found:
        print(f"face, {what}: left out, for there is no {tool}")
    return found


# ---- the package


def compare_layout():
    sources = sorted(path for path in PACKAGE.rglob("*.rs") if "target" not in path.parts)
    library = [path for path in sources if path.parent == PACKAGE / "src"]
    texts = [path.read_text() for path in library if path.name != "main.rs"]
    lines = sum(len(text.splitlines()) for text in texts)
    if lines > LINES:
        fail(f"{lines} lines, where {LINES} are allowed")
    if not is_there("rustfmt", "its layout"):
        return
    for path in sources:
        # By standard input, since the modules that are made are not there.
        words = ["rustfmt", "--edition", "2024", "--config-path", PACKAGE, "--check"]
        if run(*words, input=path.read_bytes()).returncode:
            fail(f"rustfmt lays {path} out otherwise")
    print(f"face: {lines} lines of the library, and {len(sources)} files as rustfmt lays them out")


def check_package():
    if is_there("cargo-clippy", "clippy"):
        cargo("clippy", "--quiet", "--all-targets", "--", "-D", "warnings")
    cargo("test", "--quiet", *LIBRARY)
    cargo("doc", "--quiet", "--no-deps", RUSTDOCFLAGS="-D warnings")
    cargo("package", "--quiet", "--allow-dirty", "--no-verify")
    print("face: tests, clippy, documentation and package")


# ---- the examples


def built_examples():
    """The examples by their names, built with tests of overflow."""
    cargo("build", "--quiet", "--examples", *LIBRARY)
    elf = ["--manifest-path", "examples/elf/Cargo.toml", "--target-dir", "target"]
    ran = run(*BUILD, "cargo", "build", "--quiet", *elf, stderr=subprocess.DEVNULL)
    folder = ROOT / "edition/out/target/debug"
    found = {name: folder / "examples" / name for name in ("rows", "frames", "profile")}
    if ran.returncode:
        print("face, two binaries: left out, for there is no crate `object`")
        return found
    return {**found, "compare": folder / "compare"}


def sections_in(folder):
    """The sections of the examples, and made ones of each size and order, each with both."""
    for target in sorted(EXAMPLES.glob("*.target")):
        yield (*target.read_text().split(), target.with_suffix(".bin"))
    for size in ("4", "8"):
        for order in ("little", "big"):
            made = folder / f"{size}-{order}.bin"
            synth = [sys.executable, ROOT / "bench/synth.py", made, "40"]
            run(*synth, "--size", size, "--order", order, check=True, stdout=subprocess.DEVNULL)
            yield size, order, made


def samples_of(text):
    """The addresses of rows, each more often than the one before; how the samples are counted."""
    samples, counts, begin = [], collections.defaultdict(collections.Counter), ""
    for line in text.splitlines():
        words = line.split()
        if words[0] == "fde":
            begin = words[1]
            continue
        times = len(samples) % 3 + 1
        samples += times * [words[0]]
        register = words[1].removeprefix("cfa=").split("+")[0].split("-")[0]
        counts[begin].update({"all": times, register: times})
    return samples, counts


def counted(counts):
    ordered = sorted(counts.items(), key=lambda item: (-item[1]["all"], int(item[0], 16)))
    for begin, count in ordered:
        registers = sorted(int(name[1:]) for name in count if name[1:].isdigit())
        by = "".join(f" r{register}:{count[f'r{register}']}" for register in registers)
        yield f"{begin} {count['all']}{by}"


def compare_samples(example, words, text, folder):
    samples, counts = samples_of(text)
    (folder / "samples").write_text("".join(f"{address}\n" for address in samples))
    wanted = "".join(f"{line}\n" for line in counted(counts))
    if answer(example, *words, folder / "samples") != (0, wanted, ""):
        fail(f"the samples of {words[-1]} are counted otherwise")
    return len(samples)


def compare_frames(example, program, section, rows, folder):
    """How many machines that stopped in a section have the frame or the fault of the command."""
    size, order, path = section
    stops = folder / f"stops-{path.stem}-{size}-{order}"
    stops.mkdir()
    run(CHECKS / "stops.py", size, order, rows, stops, "8", check=True)
    dumps = [*sorted(stops.iterdir()), *sorted(EXAMPLES.glob("*.dump"))]
    dumps = [dump for dump in dumps if "pc " in dump.read_text()]
    unwind = [program, "unwind", "--size", size, "--order", order, "--default", "same", path]
    for dump in dumps:
        wanted, found = answer(*unwind, dump), answer(example, *section, dump)
        if found != wanted:
            fail(f"the frame of {dump} is {found}, and the command's {wanted}")
    return len(dumps)


def compare_sections(examples, program, folder):
    counts = collections.Counter()
    environment = {**os.environ, "DWFRAME": str(program)}
    for section in sections_in(folder):
        size, order, path = section
        told = answer(program, "rows", "--size", size, "--order", order, path)
        rows = folder / "rows.txt"
        rows.write_text(told[1])
        if told[0]:
            fail(f"{path} is refused: {told[2]}")
        words = [CHECKS / "rows.py", examples["rows"], *section, rows]
        if run(*words, env=environment).returncode:
            sys.exit(1)
        cut = folder / "cut.bin"
        cut.write_bytes(path.read_bytes()[: path.stat().st_size * 2 // 3])
        wanted = answer(program, "rows", "--size", size, "--order", order, cut)
        if answer(examples["rows"], size, order, cut) != wanted:
            fail(f"the first two thirds of {path} are answered otherwise")
        counts["samples"] += compare_samples(examples["profile"], section, told[1], folder)
        counts["frames"] += compare_frames(examples["frames"], program, section, rows, folder)
        counts["sections"] += 1
    told = ", ".join(f"{count} {name}" for name, count in counts.items())
    print(f"face: {told} as the command's")


def compare_stack(example, folder):
    """The stack of a real program that stopped, and a frame that is its own caller."""
    ring = folder / "ring.dump"
    ring.write_text("pc 0x401004\nr6 0x7ffe00\nmem 0x7ffe00 00fe7f00000000000510400000000000\n")
    wanted = (2, "#0 0x401004\n#1 0x401005\n", "a frame does not stand above the one before")
    if answer(example, "8", "little", EXAMPLES / "plain.bin", ring, "7") != wanted:
        fail("a frame that is its own caller is walked otherwise")
    stack_pointer = STACK_POINTERS.get(os.uname().machine)
    tools = [is_there(tool, "a program that stopped") for tool in ("gcc", "objcopy", "readelf")]
    if not stack_pointer or not all(tools):
        return
    chain, section, dump = folder / "chain", folder / "chain.bin", folder / "chain.dump"
    tables = ["-g", "-fno-asynchronous-unwind-tables", "-fno-unwind-tables"]
    run("gcc", "-O2", "-no-pie", *tables, "-o", chain, EXAMPLES / "chain.c", check=True)
    words = run(ROOT / "section", chain, section, check=True, capture_output=True, text=True)
    _, size, _, order, _ = words.stdout.split()
    dump.write_bytes(run(chain, check=True, capture_output=True).stdout)
    target = ["--size", size, "--order", order, "--stack-pointer", stack_pointer]
    wanted = answer(EXAMPLES / "backtrace.py", *target, section, dump)
    found = answer(example, size, order, section, dump, stack_pointer)
    if found != wanted or wanted[0]:
        fail(f"the stack of a program that stopped is {found}, and {wanted}")
    print(f"face: {len(wanted[1].splitlines())} frames of a program that stopped")


def compare_binaries(example, folder):
    if not is_there("gcc", "two binaries"):
        return
    builds = {"one": ["-O2"], "same": ["-O2", "-Wl,--build-id=none"], "other": ["-O0"]}
    for name, flags in builds.items():
        flags = [*flags, "-g", "-fno-asynchronous-unwind-tables", "-nostartfiles"]
        source, out = EXAMPLES / "sum.c", folder / f"sum-{name}"
        run("gcc", *flags, "-Wl,-e,0", "-o", out, source, check=True)
    for name, wanted in [("same", (0, "same\n", "")), ("other", (1, "different\n", ""))]:
        found = answer(example, folder / "sum-one", folder / f"sum-{name}")
        if found != wanted:
            fail(f"two binaries are {found}, and not {wanted}")
    print("face: binaries that mean the same, and that do not")


def main():
    program = ROOT / "crates/dwframe/out/dwframe"
    if len(sys.argv) > 1:
        program = Path(sys.argv[1]).resolve()
    compare_layout()
    status, packages, _ = answer(*BUILD, "crates")
    if status:
        if not packages or os.environ.get("CI") == "true":
            fail("cargo or its crates are not here")
        print("face: left out but for its layout, for cargo or its crates are not here")
        return
    check_package()
    examples = built_examples()
    with tempfile.TemporaryDirectory() as name:
        folder = Path(name)
        compare_sections(examples, program, folder)
        compare_stack(examples["frames"], folder)
        if "compare" in examples:
            compare_binaries(examples["compare"], folder)


if __name__ == "__main__":
    main()
