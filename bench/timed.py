"""Runs a program of crates/bench_* for a clock, five times."""
import os
import subprocess
import sys

TOP = os.path.dirname(os.path.dirname(os.path.abspath(__file__)))
MIB = 1024 * 1024


class Program:
    """The built program of a crate, which tells a time in parts of a second, so many, and what came of it."""

    def __init__(self, crate, parts):
        self.path, self.parts = os.path.join(TOP, "crates", crate, "out", crate), parts
        if not os.path.exists(self.path):
            sys.exit(f"build the program first: cd crates/{crate} && rt run")

    def run(self, word, count):
        """Seconds, what came of it, greatest memory in bytes."""
        child = subprocess.Popen([self.path, word, str(count)], stdout=subprocess.PIPE)
        told = child.stdout.read().split()
        _, status, usage = os.wait4(child.pid, 0)
        if status:
            sys.exit(f"{word} {count} ended with status {os.waitstatus_to_exitcode(status)}")
        return int(told[0]) / self.parts, int(told[1]), usage.ru_maxrss * 1024

    def best(self, word, count):
        """The least seconds and the least memory of five runs, and what came of the first."""
        runs = [self.run(word, count) for _ in range(5)]
        return min(time for time, _, _ in runs), runs[0][1], min(memory for _, _, memory in runs)
