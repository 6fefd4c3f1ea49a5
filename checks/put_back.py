#!/usr/bin/env python3
"""Puts the normal form of a program's .debug_frame back into the program, and shows that readelf tells the same rows and that gdb
finds the same frames through it. Without the section gdb finds others. It needs gcc, binutils, gdb and Python 3; PROGRAM is dwframe."""
import os
import re
import subprocess
import sys
import tempfile

SOURCE = """
__attribute__((noinline)) int innermost(int n) {
    volatile int room[8] = {n};
    return room[n & 7] + 1;
}
__attribute__((noinline)) int middle(int n, int m) {
    int a[16];
    int sum = 0;
    for (int i = 0; i < 16; i++) a[i] = n * i + m;
    for (int i = 0; i < 16; i++) sum += innermost(a[i]);
    return sum + m;
}
__attribute__((noinline)) int outer(int n) { return middle(n, n + 3) * 2 + middle(n + 1, n); }
int main(int argc, char **argv) { return outer(argc) & 1; }
"""
FLAGS = ["-g", "-O2", "-fomit-frame-pointer", "-fno-asynchronous-unwind-tables"]


def run(*words):
    return subprocess.run(words, check=True, stdout=subprocess.PIPE, stderr=subprocess.PIPE).stdout


def rows_of(program):
    """What readelf tells of each FDE: its range, and the rules at each address where they change."""
    text = run("readelf", "--debug-dump=frames-interp", "-W", program).decode()
    text = text[text.index("Contents of the .debug_frame section") :]
    initial, found = {}, {}
    for block in re.split(r"\n\s*\n", text):
        lines = [line for line in block.splitlines() if line.strip()]
        head = re.match(r"([0-9a-f]+) \S+ \S+ (CIE|FDE)(?: cie=([0-9a-f]+) pc=([0-9a-f]+)\.\.([0-9a-f]+))?", lines[0]) if lines else None
        if not head:
            continue
        columns = lines[1].split()[2:] if len(lines) > 1 else []
        rows = []
        for line in lines[2:]:
            at, cfa, *rules = line.split()
            rules = {name: rule for name, rule in zip(columns, rules) if rule != "u"}
            if not rows or rows[-1][1:] != (cfa, rules):
                rows.append((int(at, 16), cfa, rules))
        if head[2] == "CIE":
            initial[head[1]] = rows[0][1:]
        else:
            found[head[4], head[5]] = rows or [(int(head[4], 16), *initial[head[3]])]
    return found


def frames_of(program):
    """The frames that gdb finds in the innermost function."""
    text = run("gdb", "-batch", "-nx", "-ex", "break innermost", "-ex", "run", "-ex", "bt", program).decode()
    return [line for line in text.splitlines() if line.startswith("#")]


def main(dwframe):
    with tempfile.TemporaryDirectory() as folder:
        path = lambda name: os.path.join(folder, name)
        with open(path("frames.c"), "w") as out:
            out.write(SOURCE)
        run("gcc", *FLAGS, "-o", path("source"), path("frames.c"))
        run("objcopy", "-O", "binary", "--only-section=.debug_frame", "--set-section-flags", ".debug_frame=alloc", path("source"), path("section"))
        with open(path("normal"), "wb") as out:
            out.write(run(dwframe, "normal", "--size", "8", "--order", "little", path("section")))
        run("objcopy", f"--update-section=.debug_frame={path('normal')}", path("source"), path("put_back"))
        run("objcopy", "--remove-section=.debug_frame", path("source"), path("without"))
        source, put_back = rows_of(path("source")), rows_of(path("put_back"))
        assert source and source == put_back, (source, put_back)
        # One name for all, since gdb prints it.
        frames = {}
        for name in ["source", "put_back", "without"]:
            os.replace(path(name), path("program"))
            frames[name] = frames_of(path("program"))
        assert len(frames["source"]) == 4 and frames["source"] == frames["put_back"], frames
        assert frames["source"] != frames["without"], "gdb does not need the section"
        sizes = [os.path.getsize(path(name)) for name in ["section", "normal"]]
        print(f"put back: {len(source)} FDEs, {sizes[0]} bytes and {sizes[1]} as the normal form; readelf's rows and gdb's {len(frames['source'])} frames as before")


if __name__ == "__main__":
    main(sys.argv[1])
