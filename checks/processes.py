"""Runs commands that end where the run itself is stopped."""
import contextlib
import os
import signal
import subprocess
import sys
import threading


class Processes:
    """The commands that threads run. A signal that stops this process ends them, with all that they
    started."""

    def __init__(self):
        self.running, self.lock, self.is_stopped = set(), threading.Lock(), False
        for number in (signal.SIGHUP, signal.SIGINT, signal.SIGTERM):
            signal.signal(number, self.stop)

    def run(self, command, **how):
        """Runs a command to its end. Returns its status, negative where a signal ended it, and what
        it said. Not for the main thread, which takes the signals."""
        how = {"stdout": subprocess.PIPE, "stderr": subprocess.STDOUT, "errors": "replace", **how}
        with self.lock:
            if self.is_stopped:
                return 1, ""
            process = subprocess.Popen(
                command, stdin=subprocess.DEVNULL, text=True, start_new_session=True, **how
            )
            self.running.add(process)
        said = process.communicate()[0]
        with self.lock:
            self.running.discard(process)
        return process.returncode, said

    def stop(self, number, _frame):
        with self.lock:
            self.is_stopped = True
            for process in self.running:
                with contextlib.suppress(ProcessLookupError):
                    os.killpg(process.pid, signal.SIGKILL)
        sys.exit(128 + number)
