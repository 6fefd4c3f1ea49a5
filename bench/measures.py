"""What a run takes: instructions, memory, processor seconds."""
import re
import resource
import subprocess

ROUNDS = 15


def counted_run(command, *options):
    """The instructions of a run, or of the part that callgrind's options name, and its status."""
    valgrind = ["valgrind", "--tool=callgrind", "--callgrind-out-file=/dev/null", *options]
    told = {"stdout": subprocess.DEVNULL, "stderr": subprocess.PIPE, "text": True}
    run = subprocess.run([*valgrind, *command], **told)
    found = re.search(r"Collected : (\d+)", run.stderr)
    if not found:
        raise SystemExit(f"valgrind counted nothing:\n{run.stderr}")
    return int(found[1]), run.returncode


def instructions(command):
    """Those of a run that has to be done well."""
    count, status = counted_run(command)
    if status != 0:
        raise SystemExit(f"{command} ended with status {status}")
    return count


def peak_memory(command):
    """In bytes."""
    told = {"stdout": subprocess.DEVNULL, "stderr": subprocess.PIPE, "text": True}
    run = subprocess.run(["/usr/bin/time", "-v", *command], **told)
    return 1024 * int(re.search(r"Maximum resident set size \(kbytes\): (\d+)", run.stderr)[1])


def processor_seconds(command):
    """Those of one run, and of the kernel for it."""
    before = resource.getrusage(resource.RUSAGE_CHILDREN)
    subprocess.run(command, stdout=subprocess.DEVNULL, stderr=subprocess.DEVNULL)
    after = resource.getrusage(resource.RUSAGE_CHILDREN)
    return after.ru_utime + after.ru_stime - before.ru_utime - before.ru_stime


def least_seconds(commands, rounds=ROUNDS):
    """The least of each command's runs, which take turns so that all meet the same machine."""
    turns = [[processor_seconds(command) for command in commands] for _ in range(rounds)]
    return [min(runs) for runs in zip(*turns)]
