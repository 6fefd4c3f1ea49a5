#!/usr/bin/env python3
"""Proves and builds a crate, and first those below it of which nothing is built, or something
older than what it rests on:

    build.py CRATE
    build.py --clear        before the gate: removes the programs, and each library that is not
                            fresh, for `rt ci` leaves those that it finds in place of its own

Each crate is proved from its text and the statements of those below it, as `rt ci` does, and what
is made stands where `rt ci` leaves it, so behind the gate nothing is proved again. `rt lib` and
`rt run` first read all sources, and then load the proofs of the crates below. A crate that is
proved stays so where the run is stopped, and the next run goes on behind it.
"""
import fcntl
import hashlib
import os
import re
import shutil
import signal
import subprocess
import sys
import time
from concurrent.futures import FIRST_COMPLETED, ThreadPoolExecutor, wait
from pathlib import Path

from crates import CRATES_TXT, ROOT, crates_below, read_crates, toolchain
from processes import Processes
from schedule import next_starts

# A crate that is not urgent takes the processors that the others leave.
NICE = ["nice", "-n", "5"]
# So many errors of a crate are told.
MOST_ERRORS = 20


def say(*lines):
    print(*lines, sep="\n", file=sys.stderr, flush=True)


class Product:
    """What is made of a crate, over what is made of those below it."""

    def __init__(self, crate, below):
        self.crate, self.below, self.name = crate, below, crate.name
        self.out = crate.folder / "out"
        if crate.is_library:
            self.made = self.out / f"rlib/{crate.name}.rlib"
        else:
            self.made = self.out / (f"lib{crate.name}.a" if crate.is_static else crate.name)
        # The file whose time is that of what is made.
        self.mark = self.made / "format" if crate.is_library else self.made
        # A crate is made here first, so that what stands at its place is whole.
        self.room = self.out / "room"
        sources = (it for it in crate.texts("src") if it.suffix == ".rt")
        self.lines = sum(len(it.read_bytes().splitlines()) for it in sources)

    def is_fresh(self):
        """Whether what is made is the prover's, and no older than the crate's text and what is made
        of those below it."""
        if not self.mark.exists() or not all(it.mark.exists() for it in self.below):
            return False
        texts = [CRATES_TXT, *self.crate.texts("src", "specs", "proofs")]
        newest = max(it.stat().st_mtime_ns for it in [*texts, *(it.mark for it in self.below)])
        is_new = newest <= self.mark.stat().st_mtime_ns
        return is_new and (self.crate.is_library or is_recorded(self.made))

    def put(self, began):
        """Puts what was made in the room at its place. A text that has changed since is newer."""
        if self.crate.is_library:
            # Files of rt's may be the same under other names, so none is written over. Its stamp
            # goes with them.
            made = self.room / self.made.name / "format"
            os.utime(made, ns=(began, began))
            shutil.rmtree(self.made.parent, ignore_errors=True)
            os.rename(self.room, self.made.parent)
            return
        for made in self.room.iterdir():
            os.utime(made, ns=(began, began))
            record_of(self.out / made.name).write_text(checksum(made, made.name))
            os.replace(made, self.out / made.name)


def record_of(made):
    """The file that has the checksum of a proved program or library, as `sha256sum` writes it."""
    return made.with_name(f"{made.name}.proved")


def checksum(path, name):
    return f"{hashlib.sha256(path.read_bytes()).hexdigest()}  {name}\n"


def is_recorded(made):
    record = record_of(made)
    return record.exists() and record.read_text() == checksum(made, made.name)


def is_proved(made):
    """Whether a program or static library is proved, whatever is left of what it was made of."""
    return subprocess.run(["sh", ROOT / "checks/proved.sh", made]).returncode == 0


class Prover:
    """The toolchain's prover, which makes the products."""

    def __init__(self, products, processes):
        self.products, self.processes, self.kit = products, processes, toolchain()
        self.target = ["--toolchain", self.kit / "toolchain"]

    def arguments(self, product, jobs):
        """What rattle is told."""
        crate, made = product.crate, {it.name: it.made for it in product.below}
        words = ["--crate-name", crate.name, "--jobs", str(jobs)]
        words += ["--antt-project", self.kit / "rattle/logic/antt-project.json"]
        words += ["--logic-built", self.kit / "logic_built"]
        for name in crate.uses:
            words += ["--extern", f"{name}={made.get(name, self.kit / f'rlibs/{name}.rlib')}"]
        for folder in (self.kit / "rlibs", *(it.parent for it in made.values())):
            words += ["-L", f"dependency={folder}"]
        to = product.room / product.made.name
        if crate.is_program:
            return ["src/main.rt", *words, *self.target, "-o", f"{to}.o"]
        kind = ["--crate-type", "staticlib", *self.target] if crate.is_static else ["--statements"]
        return ["src/lib.rt", *words, *kind, "-o", to]

    def commands(self, product, jobs):
        nice = [] if jobs > 1 else NICE
        yield [*nice, self.kit / "bin/rattle", "build", *self.arguments(product, jobs)]
        if product.crate.is_program:
            to = product.room / product.made.name
            linker = [self.kit / "bin/rattle-link", "--target", "x86_64-unknown-linux-gnu"]
            of_c = [self.kit / "c/libos_c.a", self.kit / "c/liblibc_c.a"]
            yield [*linker, *self.target, "-o", to, f"{to}.o", *of_c]

    def build(self, product, jobs, began):
        """Returns whether the crate is proved and built, by so many copies of the prover."""
        shutil.rmtree(product.room, ignore_errors=True)
        product.room.mkdir(parents=True)
        for command in self.commands(product, jobs):
            status, said = self.processes.run(command, cwd=product.crate.folder)
            if self.processes.is_stopped:
                return False
            if status == -signal.SIGKILL:
                say("the prover was killed, most likely for want of memory")
            if status:
                say(*errors_in(said, product.crate), f"{product.name} is not proved")
                return False
        product.put(began)
        return True


def errors_in(said, crate):
    """The errors in what the prover said of a crate, with the files named from the top."""
    place = rf"^(\./)?(?=(src|specs|proofs)/\S+:\d)"
    lines = [it for it in said.splitlines() if "error" in it] or said.splitlines()[-1:]
    return [re.sub(place, f"crates/{crate.name}/", it) for it in lines[:MOST_ERRORS]]


class Build:
    """A run that proves what is not fresh of a crate and those below it."""

    def __init__(self, products):
        self.began, self.products, self.processes = time.time_ns(), products, Processes()
        self.prover = Prover(products, self.processes)
        self.proved, self.failed, self.running = set(), set(), {}
        for product in products.values():
            if self.proved.issuperset(it.name for it in product.below) and product.is_fresh():
                self.proved.add(product.name)

    def start(self, pool, processors):
        sizes = {name: it.lines for name, it in self.products.items() if name not in self.proved}
        below = {name: [it.name for it in self.products[name].below] for name in sizes}
        running = set(self.running.values())
        starts = next_starts(sizes, below, processors, self.proved, running, self.failed)
        for name, jobs in starts.items():
            product = self.products[name]
            self.running[pool.submit(self.prover.build, product, jobs, self.began)] = name

    def end(self, future):
        name = self.running.pop(future)
        if not future.result():
            self.failed.add(name)
            return
        self.proved.add(name)
        spent = duration((time.time_ns() - self.began) / 1e9)
        say(f"{name} is proved ({len(self.proved)} of {len(self.products)}, {spent})")

    def run(self):
        """Returns whether all is proved. Where a proof fails those beside it go on to their end."""
        processors = int(subprocess.check_output(["sh", ROOT / "checks/jobs.sh"]))
        if self.proved and len(self.proved) < len(self.products):
            say(f"{len(self.proved)} of {len(self.products)} crates are proved already")
        with ThreadPoolExecutor(len(self.products)) as pool:
            self.start(pool, processors)
            while self.running:
                for future in wait(self.running, return_when=FIRST_COMPLETED).done:
                    self.end(future)
                self.start(pool, processors)
        return not self.failed


def duration(seconds):
    return f"{seconds:.0f} seconds" if seconds < 90 else f"{seconds / 60:.0f} minutes"


def all_products():
    crates, products = read_crates(), {}
    for crate in crates.values():
        below = [products[it.name] for it in crates_below(crate.name, crates)]
        products[crate.name] = Product(crate, below)
    return products


def products_of(top):
    """A crate and those below it, lowest first."""
    products = all_products()
    if top not in products:
        sys.exit(f"build: crates.txt has no crate {top}")
    return {it.name: it for it in [*products[top].below, products[top]]}


def clear():
    for product in all_products().values():
        if product.crate.is_library and not product.is_fresh():
            shutil.rmtree(product.made.parent, ignore_errors=True)
        elif not product.crate.is_library:
            product.made.unlink(missing_ok=True)


def wait_for_others(lock):
    try:
        fcntl.flock(lock, fcntl.LOCK_EX | fcntl.LOCK_NB)
    except BlockingIOError:
        say("another run proves crates of this tree, and goes first")
        fcntl.flock(lock, fcntl.LOCK_EX)


def main(top):
    # One run at a time works in a tree.
    with open(CRATES_TXT) as lock:
        wait_for_others(lock)
        if top == "--clear":
            clear()
            return 0
        products = products_of(top)
        product = products[top]
        if product.crate.is_library or not is_proved(product.made):
            build = Build(products)
            if not build.run():
                return 1
            # No text of any crate that has not changed since is newer.
            os.utime(product.mark, ns=(build.began, build.began))
    say(f"{product.made.relative_to(ROOT)} is proved and built")
    return 0


if __name__ == "__main__":
    sys.exit(main(*sys.argv[1:]))
