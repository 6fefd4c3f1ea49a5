#!/usr/bin/env python3
"""Builds the Rust edition of dwframe with cargo, in `edition/out`, and prints where it stands:

    build.py command    the program, unproved: dwframe
    build.py library    the library for C, unproved: libdwframe.a
    build.py checked    the program with tests of overflow and of `debug_assert!`
    build.py package    no more than the text of the package `dwframe`
    build.py crates     the packages of Debian that have the crates; 1 where they are not here
    build.py cargo WORDS..    what cargo does in the package, with the crates that were found

It needs cargo, and crates: Debian's where all are installed, else those of crates.io.
"""
import os
import re
import shutil
import subprocess
import sys
from pathlib import Path

from calls import write_calls
from packages import HERE, Checkout, write_package
from translate import Refusal

OUT = HERE / "out"
CALLS = OUT / "calls"
TARGET = OUT / "target"
DEBIAN = Path("/usr/share/cargo/registry")
CALL = re.compile(r'extern "C" fn (\w+)')
# Cargo takes crates from Debian's folder in place of crates.io.
FROM_DEBIAN = [
    "--config",
    'source.crates-io.replace-with="debian"',
    "--config",
    f'source.debian.directory="{DEBIAN}"',
    "--offline",
]


def dependencies():
    """The names of the crates that the package asks for, one a line of its manifest."""
    manifest = (OUT / "Cargo.toml").read_text()
    table = re.search(r"(?ms)^\[dependencies\]\n(.*?)(?=^\[|\Z)", manifest)[1]
    return re.findall(r"(?m)^([\w-]+) *=", table)


def debian_packages():
    return [f"librust-{name}-dev" for name in dependencies()]


def is_resolved(folder, words):
    """Whether cargo has all crates of a package here, without the network."""
    command = ["cargo", "metadata", "--quiet", "--format-version=1", *words]
    offline = {**os.environ, "CARGO_NET_OFFLINE": "true"}
    quiet = {"stdout": subprocess.DEVNULL, "stderr": subprocess.DEVNULL}
    ran = subprocess.run(command, cwd=folder, env=offline, **quiet)
    return ran.returncode == 0


def crates_from(folder):
    """The words for cargo that say where crates are."""
    if not all(any(DEBIAN.glob(f"{name}-[0-9]*")) for name in dependencies()):
        return []
    if not is_resolved(folder, FROM_DEBIAN):
        # What was locked may have been other versions.
        (folder / "Cargo.lock").unlink(missing_ok=True)
    return FROM_DEBIAN if is_resolved(folder, FROM_DEBIAN) else []


def numbers(version):
    return [int(number) for number in version.split(".")]


def require_cargo():
    """Ends in a sentence that says what is missing."""
    if not shutil.which("cargo"):
        sys.exit("edition: cargo is not on the path; it comes with Rust (https://rustup.rs)")
    said = subprocess.run(["cargo", "--version"], stdout=subprocess.PIPE, text=True).stdout
    found = re.search(r"[\d.]+", said)[0]
    needed = re.search(r'(?m)^rust-version = "([\d.]+)"', (OUT / "Cargo.toml").read_text())[1]
    if numbers(found) < numbers(needed):
        sys.exit(f"edition: this is cargo {found}, and {needed} or later is needed")


def cargo(folder, *words, target=TARGET, of_rustc=()):
    """Builds a package, or ends in a sentence that says why not."""
    require_cargo()
    crates = crates_from(folder)
    command = ["cargo", "rustc", "--release", *crates, "--target-dir", target, *words]
    # What cargo prints is progress.
    if subprocess.run([*command, "--", *of_rustc], cwd=folder, stdout=sys.stderr).returncode:
        fetch = f"; where crates.io is not reached, `apt-get install {' '.join(debian_packages())}`"
        sys.exit(f"edition: cargo could not build it{'' if crates else fetch}")


def static_runtime():
    """The word for rustc that links the C library into the program, where there is an archive."""
    linker, host = shutil.which("cc"), ["rustc", "--version", "--verbose"]
    said = subprocess.run(host, stdout=subprocess.PIPE, text=True).stdout
    if not linker or "linux-gnu" not in said:
        return []
    archive = [linker, "-print-file-name=libc.a"]
    found = subprocess.run(archive, stdout=subprocess.PIPE, text=True).stdout.strip()
    return ["-Ctarget-feature=+crt-static"] if Path(found).is_absolute() else []


def build_command():
    cargo(OUT, "--bin", "dwframe", of_rustc=static_runtime())
    return TARGET / "release/dwframe"


def build_checked():
    """The program with each test that the compiler can build in."""
    tests = {"overflow-checks": "true", "debug-assertions": "true"}
    quick = {"lto": '"off"', "codegen-units": "16", "opt-level": "1"}
    of_profile = (f"profile.release.{key}={value}" for key, value in {**tests, **quick}.items())
    config = [word for setting in of_profile for word in ("--config", setting)]
    cargo(OUT, "--bin", "dwframe", *config, target=OUT / "checked")
    return OUT / "checked/release/dwframe"


def run_cargo(words):
    """Runs cargo in the package's folder, and ends with its status."""
    require_cargo()
    ran = subprocess.run(["cargo", words[0], *crates_from(OUT), *words[1:]], cwd=OUT)
    sys.exit(ran.returncode)


def need_crates():
    """The packages of Debian that have the crates; a status that says whether they are here."""
    print(" ".join(debian_packages()))
    sys.exit(0 if shutil.which("cargo") and is_resolved(OUT, crates_from(OUT)) else 1)


def build_library():
    cargo(CALLS, "--lib", of_rustc=["-Cforce-unwind-tables=yes"])
    made, library = TARGET / "release/libdwframe_c.a", OUT / "libdwframe.a"
    # One object whose only global names are the calls, so it stands beside other code of Rust.
    calls = [f"--undefined={name}" for name in CALL.findall((CALLS / "src/calls.rs").read_text())]
    piece = TARGET / "dwframe.o"
    run("ld", "-r", "--gc-sections", *calls, "-o", piece, made)
    run("objcopy", "--strip-debug", "--wildcard", "--keep-global-symbol=dwframe_*", piece)
    library.unlink(missing_ok=True)
    run("ar", "rcsD", library, piece)
    return library


def run(tool, *words):
    if not shutil.which(tool):
        sys.exit(f"edition: {tool} is not on the path; it comes with GNU binutils")
    if subprocess.run([tool, *words]).returncode:
        sys.exit(f"edition: {tool} failed")


MAKES = {
    "command": build_command,
    "library": build_library,
    "checked": build_checked,
    "package": lambda: OUT,
    "crates": need_crates,
}


def main():
    what, *words = sys.argv[1:] or [""]
    if (words or what not in MAKES) and not (words and what == "cargo"):
        sys.exit(f"usage: build.py {'|'.join(MAKES)}, or build.py cargo WORDS..")
    checkout = Checkout(HERE.parent)
    try:
        write_package(checkout, OUT)
        write_calls(checkout, CALLS)
    except Refusal as refusal:
        sys.exit(f"edition: {refusal}")
    if words:
        run_cargo(words)
    print(MAKES[what]())


if __name__ == "__main__":
    main()
