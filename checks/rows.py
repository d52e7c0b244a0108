#!/usr/bin/env python3
"""Runs the rows of rows/ (all, or these folders and files), each in several ways with the same answers.

The ways: as it stands; each line of a script a phase of its own; neighbouring phases of one host joined; over files
where it is in memory; by frames, a script's lines as requests of `vtl serve`. A way in which no script differs from the
row is left out. --program PATH: another program than the proved one. --first: only as it stands. --show: prints what
the program answers to each line; it writes no row. --selftest: rows that are wrong on purpose, with a program that
stands here, must be refused with their line."""
import argparse
import concurrent.futures
import os
import re
import shutil
import subprocess
import sys
import tempfile
import time

import frames_owed
import front_end
import rowfile

TOP = os.path.dirname(os.path.dirname(os.path.abspath(__file__)))
PROVED = os.path.join(TOP, "crates", "vtl", "out", "vtl")
WAYS = ("as it stands", "each line a phase", "phases joined", "over files", "by frames")
END = rowfile.Line(0, b"--")
SECONDS = 300
# the library that is built in, as a configuration
BUILT_IN = b"""drive = [{ number = 1, reservations = "drive1.pr" }]
cartridge = [{ barcode = "BUILTIN", file = "builtin.tape", capacities = [16777216], home = 1 }]
"""


def hosts(phase):
    return {line.host for line in phase if line.kind == "command"}


def cut(parted):
    """Each command that another line follows gets a `--` behind it."""
    laid = []
    for phase in parted:
        for at, line in enumerate(phase):
            laid.append(line)
            follows = [other.kind for other in phase[at + 1:] if other.kind != "skipped"]
            if line.kind == "command" and line.has_end and follows[:1] == ["command"]:
                laid.append(END)
    return laid


def joined(parted):
    """A `--` between two phases of one host is left out."""
    laid = []
    for at, phase in enumerate(parted):
        ends = phase[-1].kind == "end" and at + 1 < len(parted)
        laid += phase[:-1] if ends and len(hosts(phase) | hosts(parted[at + 1])) == 1 else phase
    return laid


def laid_out(run, way):
    """The lines of a run's script in this way, and the number of the one that is refused. From the phase that is
    refused on they stay, and so they do where no script is read."""
    lines, refused = run.lines, run.refused
    if way not in WAYS[1:3] or (run.status and all(line.answer is None for line in lines) and refused is None):
        return lines, refused
    start = len(lines) if refused is None else max(
        (at + 1 for at, line in enumerate(lines[:refused - 1]) if line.kind in ("end", "move")), default=0)
    parted = rowfile.phases(lines[:start])
    laid = cut(parted) if way == WAYS[1] else joined(parted)
    return laid + lines[start:], refused and refused + len(laid) - start


def wanted(lines):
    """The lines whose answers the program writes, in its order: a phase's by rising host."""
    order = []
    for phase in rowfile.phases(lines):
        owed = [line for line in phase if line.answer is not None]
        order += sorted((line for line in owed if line.kind == "command"), key=lambda line: line.host or 0)
        order += [line for line in owed if line.kind == "move"]
    return order


def script(lines):
    return b"".join(line.text + (b"\n" if line.has_end else b"") for line in lines)


def is_in_memory(run):
    return run.words[:1] == [b"run"] and run.words in ([b"run"], [b"run", b"--memory"]) or (
        len(run.words) == 4 and run.words[:1] == [b"run"] and b"--memory" in run.words and b"--config" in run.words)


def short(text):
    shown = text.decode(errors="replace")
    return shown if len(shown) <= 120 else f"{shown[:80]}.. ({len(text):,} bytes)"


class Room:
    """A folder in which one row is run in one way."""

    def __init__(self, program, row, way, room, show=False):
        self.program, self.row, self.way, self.room, self.show = program, row, way, room, show
        self.said, self.runs, self.has_run = [], 0, False

    def tell(self, number, said):
        self.said.append(f"{self.row.path}:{number}: {self.way}: {said}")

    def path(self, step):
        return os.path.join(os.fsencode(self.room), step.name)

    def all(self):
        for step in self.row.steps:
            if isinstance(step, rowfile.Run):
                self.run(step)
            elif step.kind in ("config", "file"):
                with open(self.path(step), "wb") as file:
                    file.write(step.content)
            elif step.kind == "folder":
                os.makedirs(self.path(step))
            elif step.kind == "link":
                os.symlink(step.content, self.path(step))
            elif step.kind == "remove":
                (shutil.rmtree if os.path.isdir(self.path(step)) else os.remove)(self.path(step))
            elif step.kind == "gone":
                if os.path.lexists(self.path(step)):
                    self.tell(step.number, f"{short(step.name)} is there")
            else:
                self.compare_file(step)
        return self

    def compare_file(self, step):
        try:
            with open(self.path(step), "rb") as file:
                found = file.read()
        except OSError:
            self.tell(step.number, f"{short(step.name)} cannot be read")
            return
        if found != step.content:
            at = next((at for at, (a, b) in enumerate(zip(found, step.content)) if a != b),
                      min(len(found), len(step.content)))
            here, there = (it[at:at + 16].hex() or "none" for it in (found, step.content))
            self.tell(step.number, f"{short(step.name)} has {len(found)} bytes, and {here} at {at}, in the place of "
                      f"{len(step.content)} and {there}")

    def ended(self, words, room, given):
        self.runs += 1
        return subprocess.run([self.program, *words], cwd=room, input=given, stdout=subprocess.PIPE,
                              stderr=subprocess.PIPE, timeout=SECONDS)

    def over_files(self, run):
        """The words and the folder of the same run over files, which are made there."""
        room = tempfile.mkdtemp(dir=self.room)
        if b"--config" in run.words:
            name = run.words[run.words.index(b"--config") + 1]
            source = os.path.join(os.fsencode(self.room), name)
            config = open(source, "rb").read() if os.path.isfile(source) else None
        else:
            name, config = b"library.toml", BUILT_IN
        if config is not None:
            with open(os.path.join(os.fsencode(room), name), "wb") as file:
                file.write(config)
        self.ended([b"create", b"--config", name], room, b"")
        return [b"run", b"--config", name], room

    def run(self, run):
        lines, refused = laid_out(run, self.way)
        words, room = run.words, self.room
        if self.way == WAYS[3] and is_in_memory(run):
            words, room = self.over_files(run)
        if self.way == WAYS[4] and front_end.is_served(run):
            self.served(run)
            return
        try:
            done = self.ended(words, room, script(lines))
        except subprocess.TimeoutExpired:
            self.tell(run.number, f"the program did not end within {SECONDS} seconds")
            return
        owed = [(line.answered_at, line.answer) for line in wanted(lines)] if run.lines else run.output
        found = done.stdout.split(b"\n")
        if found.pop():
            self.tell(run.number, "the last line of standard output has no end")
        if self.show:
            self.shown(lines, found)
        self.has_run |= words[:1] == [b"run"]
        self.compare(run, owed, found)
        self.compare_end(run, done.returncode, done.stderr, refused)

    def served(self, run):
        """The run by frames, which has no script that could be refused."""
        self.runs += 1
        self.has_run = True
        status, errors, answers, faults = front_end.serve(self.program, run.words, self.room, rowfile.phases(run.lines))
        for fault in faults:
            self.tell(run.number, fault)
        owed = wanted(run.lines)
        self.compare(run, [(line.answered_at, line.answer) for line in owed],
                     [answers.get(id(line), b"(no answer)") for line in owed])
        # the parser's text names the word
        self.compare_end(run, status, errors.replace(b"Usage: vtl serve ", b"Usage: vtl run "), None)

    def compare_end(self, run, status, errors, refused):
        error = b"" if run.error is None else run.error + b"\n"
        if refused is not None:
            error = b"vtl: script line %d refused\n" % refused
        error += b"".join(line + b"\n" for line in run.because)
        # what the answers mean names lines of the script as it stands
        if self.way == WAYS[0]:
            error = b"".join(line + b"\n" for line in run.means) + error
        else:
            errors = re.sub(rb"(?m)^line \d+: .*\n", b"", errors)
        error = b"".join(line + b"\n" for line in run.says) + error
        if status != run.status:
            self.tell(run.status_at, f"status {status} in the place of {run.status}")
        if errors != error:
            self.tell(run.error_at, f"standard error {errors!r} in the place of {error!r}")

    def compare(self, run, owed, found):
        for (number, answer), line in zip(owed, found):
            if self.has_run:
                line = frames_owed.line_as_owed(line, answer)
            if line != answer:
                self.tell(number, f"{short(line)} in the place of {short(answer)}")
                return
        if len(found) > len(owed):
            self.tell(owed[-1][0] if owed else run.number, f"one line too many: {short(found[len(owed)])}")
        elif len(found) < len(owed):
            self.tell(owed[len(found)][0], f"no line in the place of {short(owed[len(found)][1])}")

    def shown(self, lines, found):
        order = [line for phase in rowfile.phases(lines) for line in
                 sorted((line for line in phase if line.kind in ("command", "move")),
                        key=lambda line: (line.kind == "move", line.host or 0))]
        for line, answer in zip(order, found):
            print(f"{self.row.path}:{line.number}: {short(line.text)} -> {short(answer)}")


def ways_of(row):
    """The ways in which the row is another one, and the row as it stands."""
    plain = [script(run.lines) for run in row.runs]
    ways = [WAYS[0]]
    ways += [way for way in WAYS[1:3] if [script(laid_out(run, way)[0]) for run in row.runs] != plain]
    ways += [WAYS[3]] if any(map(is_in_memory, row.runs)) else []
    return ways + [WAYS[4]] if any(map(front_end.is_served, row.runs)) else ways


def run_in(program, row, way, show=False):
    with tempfile.TemporaryDirectory(prefix="vtl-rows-") as room:
        return Room(program, row, way, room, show).all()


def read_all(names):
    """The rows of these paths, and what is malformed."""
    rows, said = [], []
    for path in rowfile.paths(names):
        try:
            rows.append(rowfile.read(path))
        except rowfile.Bad as bad:
            said.append(str(bad))
    return rows, said


def run_all(program, rows, first=False, show=False):
    """What differs, and how many runs there were."""
    jobs = [(row, way) for row in rows for way in (WAYS[:1] if first else ways_of(row))]
    said, runs = [], 0
    with concurrent.futures.ThreadPoolExecutor(1 if show else os.cpu_count()) as pool:
        for done in pool.map(lambda job: run_in(program, *job, show), jobs):
            said += done.said
            runs += done.runs
    return said, runs


def main():
    parser = argparse.ArgumentParser()
    parser.add_argument("names", nargs="*", default=[os.path.join(TOP, "rows")])
    parser.add_argument("--program", default=PROVED)
    for flag in ("--first", "--show", "--selftest"):
        parser.add_argument(flag, action="store_true")
    given = parser.parse_args()
    if given.selftest:
        import rows_selftest
        return rows_selftest.main()
    program, started = os.path.abspath(given.program), time.monotonic()
    if not os.path.exists(program):
        sys.exit(f"{given.program} is not there; build the program first: make vtl")
    rows, said = read_all(given.names)
    differ, runs = run_all(program, rows, given.first, given.show)
    said += differ
    print("\n".join(said), end="\n" if said else "")
    print(f"rows: {len(rows)} rows, {runs} runs, {len(said)} other than expected, "
          f"{time.monotonic() - started:.0f} seconds")
    return 1 if said or not rows else 0


if __name__ == "__main__":
    sys.exit(main())
