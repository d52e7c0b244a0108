#!/usr/bin/env python3
"""Time of starts of the built program over many files: of 1,000 in four starts, since a library has 288 at most, 16
drives' stores and a cartridge at each of the 272 element addresses. The files are new and cached, the script is empty.
The best of five rounds, by the clock and in the processor's time, beside a library of no file and a plain reading of
the same files. With `strace` also the calls of a start over 288 files, and the bytes that it writes: one of each store,
eleven of each cartridge in a drive (the ten that its side begins with, and the gate behind them), no more.

--program PATH: another program than the proved one. The files lie in a new folder beside the repository's own, or in
the one that a word names."""
import argparse
import collections
import os
import re
import resource
import shutil
import subprocess
import sys
import tempfile
import time

TOP = os.path.dirname(os.path.dirname(os.path.abspath(__file__)))
PROVED = os.path.join(TOP, "crates", "vtl", "out", "vtl")
DRIVES, SLOTS, FILES, ROUNDS = 16, 256, 1_000, 5
GREATEST = DRIVES + DRIVES + SLOTS
CALL = re.compile(r"^(?:\d+ +)?(\w+)\((.*)\) += (-?\d+)")


def library(files):
    """A configuration of so many files: the drives, a cartridge in each, and the others in slots."""
    drives = [f'{{ number = {at}, reservations = "{at}.pr" }}' for at in range(1, DRIVES + 1) if files]
    homes = [*range(1, DRIVES + 1), *range(1001, 1001 + SLOTS)][:max(files - DRIVES, 0)]
    tapes = [f'{{ barcode = "C{home}", file = "{home}.tape", capacities = [4096], home = {home} }}' for home in homes]
    return f"drive = [{', '.join(drives)}]\ncartridge = [{', '.join(tapes)}]\n"


def made(program, folder, files):
    os.makedirs(folder)
    with open(os.path.join(folder, "lib.toml"), "w", encoding="utf-8") as file:
        file.write(library(files))
    created = subprocess.run([program, "create", "--config", "lib.toml"], cwd=folder, check=True, capture_output=True)
    if created.stdout.count(b"\n") != files:
        sys.exit(f"create made {created.stdout.count(b'created ')} files of {files}")
    return folder


def spent():
    """The processor's seconds of the programs that have ended."""
    usage = resource.getrusage(resource.RUSAGE_CHILDREN)
    return usage.ru_utime + usage.ru_stime


def start(words, folder):
    """Seconds of a run with an empty script, by the clock and of the processor."""
    before, begun = spent(), time.perf_counter()
    done = subprocess.run([*words, "run", "--config", "lib.toml"], cwd=folder, stdin=subprocess.DEVNULL,
                          capture_output=True)
    seconds = time.perf_counter() - begun, spent() - before
    if done.returncode or done.stdout or done.stderr:
        sys.exit(f"a start ended with status {done.returncode}: {done.stderr.decode(errors='replace')}")
    return seconds


def contents(folder):
    """The bytes of each file by its name."""
    found = {}
    for name in sorted(os.listdir(folder)):
        with open(os.path.join(folder, name), "rb", buffering=0) as file:
            found[name] = file.read()
    return found


def reading(folders):
    begun = time.perf_counter()
    for folder in folders:
        contents(folder)
    return time.perf_counter() - begun


def traced(program, folder):
    """How often a start makes each call, and the bytes that it writes by the file's name."""
    with tempfile.NamedTemporaryFile("r", encoding="utf-8", errors="replace") as log:
        start(["strace", "-f", "-y", "-o", log.name, program], folder)
        calls = [found for found in map(CALL.match, log) if found]
    written = collections.Counter()
    for _, name, words, done in ((0, *call.groups()) for call in calls):
        path = re.match(r"\d+<([^>]*)>", words)
        if name in ("write", "pwrite64", "writev", "pwritev", "pwritev2") and path and int(done) > 0:
            written[os.path.basename(path[1])] += int(done)
    return collections.Counter(call[1] for call in calls), written


def calls_of(program, full, empty):
    if not shutil.which("strace"):
        print("strace is not there: calls and written bytes are not counted")
        return
    calls, written = traced(program, full)
    bare, _ = traced(program, empty)
    owed = collections.Counter({f"{at}.{kind}": count for at in range(1, DRIVES + 1)
                                for kind, count in (("pr", 1), ("tape", 11))})
    if written != owed:
        sys.exit(f"a start wrote {dict(written - owed)} more than it has to, and {dict(owed - written)} less")
    more = calls - bare
    by_name = ", ".join(f"{name} {count / GREATEST:.2f}" for name, count in more.most_common() if count >= DRIVES)
    print(f"a start over {GREATEST} files writes {sum(written.values())} bytes, one of each store and eleven "
          f"of each cartridge in a drive; {sum(more.values()) / GREATEST:.2f} calls a file: {by_name}")


def main():
    parser = argparse.ArgumentParser()
    parser.add_argument("folder", nargs="?", default=os.path.dirname(TOP))
    parser.add_argument("--program", default=PROVED)
    given = parser.parse_args()
    program = os.path.abspath(given.program)
    if not os.path.exists(program):
        sys.exit(f"{given.program} is not there; build the program first: make vtl")
    with tempfile.TemporaryDirectory(dir=given.folder) as room:
        counts = [GREATEST] * (FILES // GREATEST) + [FILES % GREATEST]
        full = [made(program, os.path.join(room, str(at)), count) for at, count in enumerate(counts)]
        empty = made(program, os.path.join(room, "empty"), 0)
        before = [contents(folder) for folder in full]
        rounds = [([start([program], folder) for folder in full], start([program], empty), reading(full))
                  for _ in range(ROUNDS)]
        if [contents(folder) for folder in full] != before:
            sys.exit("a start changed a file")
        for at, what in enumerate(("by the clock", "of the processor")):
            whole = min(sum(times[at] for times in starts) for starts, _, _ in rounds)
            one, bare = min(starts[0][at] for starts, _, _ in rounds), min(it[at] for _, it, _ in rounds)
            print(f"{FILES:,} new files, {len(counts)} starts: {whole:.3f} s {what}, of which a start without a file "
                  f"takes {bare * 1e3:.1f} ms each; {(whole - len(counts) * bare) / FILES * 1e6:.0f} us a file; a "
                  f"start over {GREATEST} files {one * 1e3:.1f} ms")
        print(f"a plain reading of the files: {min(it for _, _, it in rounds) / FILES * 1e6:.0f} us a file")
        calls_of(program, full[0], empty)


if __name__ == "__main__":
    main()
