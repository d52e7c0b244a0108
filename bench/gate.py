#!/usr/bin/env python3
"""Runs rt ci on a copy of the repository, from nothing, and prints what each crate cost it, as the table of
docs/GATE.md.

gate.py [--log FILE] [CRATE..]         with names: these crates and those below them alone; what rt ci prints goes to
                                       the file
gate.py [--log FILE] [--write] --here  runs the gate itself, .ci/run, where it stands; with --write, if it passes, the
                                       table and the paragraph over it replace those of docs/GATE.md

`rt selftest` is run three times before and three times after. The median of their processor time is the unit in which
machines are compared.

A processor minute is user and system time. The gate's processes are looked at ten times a second. Each counts for the
crate that its command line names: as proofs, as tests, or, on a copy, as edits. The rest of the whole time is the row
of the rest: rt itself, linking, the runs of programs and tests, and what a process did after the last look."""
import datetime
import os
import re
import resource
import shutil
import statistics
import subprocess
import sys
import tempfile
import time

TOP = os.path.dirname(os.path.dirname(os.path.abspath(__file__)))
KINDS = ("proofs", "tests", "edits")
TICKS = os.sysconf("SC_CLK_TCK")


def rows_of_crates():
    """Each line of crates.txt that names a crate, by the name, and the names behind its colon."""
    with open(os.path.join(TOP, "crates.txt"), encoding="utf-8") as file:
        lines = [line.partition("#")[0].strip() for line in file]
    parted = [(line, *line.partition(":")[::2]) for line in lines if line]
    return {head.split()[0]: (line, re.split(r"[\s,]+", below.strip())) for line, head, below in parted}


def with_those_below(names, rows):
    found = []
    for name in names:
        below = with_those_below([it for it in rows[name][1] if it in rows], rows)
        found += [it for it in [*below, name] if it not in found]
    return found


def descendants(pid):
    found, left = [], [pid]
    while left:
        pid = left.pop()
        try:
            for task in os.listdir(f"/proc/{pid}/task"):
                with open(f"/proc/{pid}/task/{task}/children", encoding="ascii") as file:
                    children = [int(it) for it in file.read().split()]
                found += children
                left += children
        except OSError:
            pass
    return found


def label_of(pid):
    """The crate that a process proves, and for what, or None."""
    with open(f"/proc/{pid}/cmdline", "rb") as file:
        words = file.read().decode(errors="replace").split("\0")
    if "--crate-name" not in words[:-1]:
        return None
    crate = words[words.index("--crate-name") + 1]
    is_edit = "/rt-edit-" in os.readlink(f"/proc/{pid}/cwd")
    return crate, "edits" if is_edit else "tests" if "--test" in words else "proofs"


def look(pid, labels, ticks):
    """Notes the time of each process below this one, under the label that it or one above it has."""
    for child in descendants(pid):
        try:
            with open(f"/proc/{child}/stat", encoding="ascii", errors="replace") as file:
                fields = file.read().rpartition(")")[2].split()
            key = child, fields[19]
            if labels.get(key) is None:
                parent = next((it for it in labels if it[0] == int(fields[1]) and labels[it]), None)
                labels[key] = label_of(child) or labels.get(parent)
            ticks[key] = int(fields[11]) + int(fields[12])
        except (OSError, ValueError, IndexError):
            pass


def measured(command, room, log):
    """Processor seconds by crate and kind, all of them, seconds by the clock, what was printed and the status."""
    labels, ticks = {}, {}
    started = time.monotonic()
    before = resource.getrusage(resource.RUSAGE_CHILDREN)
    child = subprocess.Popen(command, cwd=room, stdin=subprocess.DEVNULL, stdout=log, stderr=subprocess.STDOUT)
    while child.poll() is None:
        look(child.pid, labels, ticks)
        time.sleep(0.1)
    usage = resource.getrusage(resource.RUSAGE_CHILDREN)
    spent = {}
    for key, count in ticks.items():
        if labels[key]:
            spent[labels[key]] = spent.get(labels[key], 0) + count / TICKS
    log.seek(0)
    said = log.read().splitlines()
    whole = usage.ru_utime + usage.ru_stime - before.ru_utime - before.ru_stime
    return spent, whole, time.monotonic() - started, said, child.returncode


def selftests():
    """The processor seconds of each of three runs of `rt selftest`."""
    found = []
    for _ in range(3):
        before = resource.getrusage(resource.RUSAGE_CHILDREN)
        subprocess.run(["rt", "selftest"], stdin=subprocess.DEVNULL, stdout=subprocess.DEVNULL, check=True)
        after = resource.getrusage(resource.RUSAGE_CHILDREN)
        found.append(after.ru_utime + after.ru_stime - before.ru_utime - before.ru_stime)
    return found


def table(names, spent, whole):
    """A row for each crate; a cell is empty where there is nothing, or less than three seconds."""
    minutes = lambda seconds: f"{seconds / 60:.1f}" if seconds >= 3 else ""
    rows = ["| Crate | Proofs | Tests | Edits | Tried | All |", "|---|---|---|---|---|---|"]
    for name in names:
        row = [spent.get((name, kind), 0) for kind in KINDS]
        folder = os.path.join(TOP, "crates", name, "must-fail")
        count = len([it for it in os.listdir(folder) if it.endswith(".edit")]) if os.path.isdir(folder) else 0
        rows.append(f"| `{name}` | {' | '.join(map(minutes, row))} | {count or ''} | {minutes(sum(row))} |")
    rows.append(f"| the rest | | | | | {minutes(whole - sum(spent.values()))} |")
    sums = [sum(seconds for (_, it), seconds in spent.items() if it == kind) for kind in KINDS]
    return "\n".join([*rows, f"| all | {' | '.join(map(minutes, sums))} | | {minutes(whole)} |"])


def measurement(whole, seconds, units, ended):
    """The lines over the table: when and on what the gate was measured, in which units, and how it ended."""
    cores, unit = len(os.sched_getaffinity(0)), statistics.median(units)
    return (f"Measured on {datetime.date.today()} on {cores} processors: {whole / 60:.0f} processor minutes, "
            f"{seconds / 60:.0f} minutes by the clock; {ended}.\n"
            f"These are {whole / unit:.0f} times `rt selftest`, of which six runs there took {min(units):.0f} to "
            f"{max(units):.0f} processor seconds, in the median {unit:.0f}.")


def write(made, line):
    """Replaces the table of docs/GATE.md and the paragraph over it."""
    path = os.path.join(TOP, "docs", "GATE.md")
    with open(path, encoding="utf-8") as file:
        text = file.read()
    text = re.sub(r"(?m)^Measured on .*(\n.+)*", lambda _: line, text, count=1)
    text = re.sub(r"(?m)^\| Crate \|.*\n(\|.*\n)*", lambda _: made + "\n", text, count=1)
    with open(path, "w", encoding="utf-8") as file:
        file.write(text)


def copied(room, names, rows):
    """A repository of these crates, in which nothing was proved yet."""
    os.mkdir(room)
    shutil.copy(os.path.join(TOP, "HANDLES"), room)
    with open(os.path.join(room, "crates.txt"), "w", encoding="utf-8") as file:
        file.writelines(f"{rows[it][0]}\n" for it in names)
    leave = shutil.ignore_patterns("out", "wrong.edits")
    for name in names:
        shutil.copytree(os.path.join(TOP, "crates", name), os.path.join(room, "crates", name), ignore=leave)
    subprocess.run(["git", "init", "-q", room], check=True)


def main(words):
    path = words[1] if words[:1] == ["--log"] and len(words) > 1 else None
    names, rows = words[2:] if path else words, rows_of_crates()
    is_here, writes = names[-1:] == ["--here"], names == ["--write", "--here"]
    names = [] if is_here else names
    for name in names:
        if name not in rows:
            sys.exit(f"{name} is no crate of crates.txt\n\n{__doc__}")
    names = [it for it in rows if it in with_those_below(names or [*rows], rows)]
    with tempfile.TemporaryDirectory(prefix="gate_") as room:
        with open(path or os.path.join(room, "log"), "w+", encoding="utf-8") as log:
            place = TOP if is_here else os.path.join(room, "copy")
            if not is_here:
                copied(place, names, rows)
            units = selftests()
            spent, whole, seconds, said, status = measured([".ci/run"] if is_here else ["rt", "ci"], place, log)
            units += selftests()
    for line in said:
        if re.search(r"NOT PROVED|NOT REFUSED|BAD EDIT|FAILED", line):
            print(line)
    made = table(names, spent, whole)
    line = measurement(whole, seconds, units, said[-1] if said else "nothing was printed")
    print(f"{line}\n\n{made}")
    if writes and not status:
        write(made, line)
    return status


if __name__ == "__main__":
    sys.exit(main(sys.argv[1:]))
