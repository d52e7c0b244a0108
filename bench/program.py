#!/usr/bin/env python3
"""Speed of the built program over files, beside the raw file in one run; of five times, taken in turns, the best and
the median.

Appending blocks of 256 KiB with a filemark each 64 MiB, through a script and by a program that calls the library with
no script between, beside the same bytes written with a sync each 64 MiB, beside as many syncs as the library makes, and
beside cat of the script; a filemark that is stored before its answer, beside a sync; reading back, beside a read of the
file, both cached and not; opening a cartridge of 100,000 blocks of 1 KiB, and its memory.

The files lie in a new folder beside the repository's own, or in the one that a word names: a disk that keeps nothing
over a loss of power, as one in memory, measures no sync."""
import os
import statistics
import subprocess
import sys
import tempfile
import time

TOP = os.path.dirname(os.path.dirname(os.path.abspath(__file__)))
PROGRAM = os.path.join(TOP, "crates", "vtl", "out", "vtl")
LIBRARY = os.path.join(TOP, "crates", "bench_buffer", "out", "bench_buffer")
# as many blocks of a frame wait in a drive's buffer at most: 4,194,304 bytes
BLOCK, COUNT, GROUP, WAIT, MARKS, SMALL = 262_144, 1_024, 256, 16, 200, 100_000
READY = b"1 1 000000000000\n"
ATTENTION = b"CHECK 700006000000000a00000000290000000000\n"
CONFIG = """cartridge = [{ barcode = "T00001L6", file = "t1.tape", capacities = [1_099_511_627_776], home = 1 }]
drive = [{ number = 1, reservations = "d1.pr" }]
"""


def run(folder, words, script=None):
    """Seconds, greatest memory in bytes; what it wrote lies in the file out."""
    with open(script or os.devnull, "rb") as stdin, open(os.path.join(folder, "out"), "wb") as stdout:
        start = time.perf_counter()
        child = subprocess.Popen(words, cwd=folder, stdin=stdin, stdout=stdout)
        _, status, usage = os.wait4(child.pid, 0)
        seconds = time.perf_counter() - start
    if status:
        sys.exit(f"{' '.join(words)} ended with status {os.waitstatus_to_exitcode(status)}")
    return seconds, usage.ru_maxrss * 1024


def new_library(folder):
    for name in ("t1.tape", "d1.pr"):
        if os.path.exists(os.path.join(folder, name)):
            os.remove(os.path.join(folder, name))
    run(folder, [PROGRAM, "create", "--config", "lib.toml"])


def answered(folder, wanted):
    """Whether the answers are these pieces, each so many times."""
    with open(os.path.join(folder, "out"), "rb") as out:
        right = all(out.read(len(piece)) == piece for piece, times in wanted for _ in range(times)) and not out.read(1)
    if not right:
        sys.exit("another answer than expected")


def scripted(folder, name, pieces):
    path = os.path.join(folder, name)
    with open(path, "wb") as out:
        for piece, times in pieces:
            for _ in range(times):
                out.write(piece)
    return path


def raw_append(folder, group=GROUP, syncs=1):
    """The blocks to a new file, with so many syncs behind each group of them."""
    block = b"\x5a" * BLOCK
    path = os.path.join(folder, "raw")
    if os.path.exists(path):
        os.remove(path)
    start = time.perf_counter()
    file = os.open(path, os.O_WRONLY | os.O_CREAT | os.O_EXCL, 0o600)
    for i in range(COUNT):
        os.write(file, block)
        if i % group == group - 1:
            for _ in range(syncs):
                os.fsync(file)
    seconds = time.perf_counter() - start
    os.close(file)
    return seconds


def raw_syncs(folder, count):
    file = os.open(os.path.join(folder, "small"), os.O_WRONLY | os.O_CREAT | os.O_TRUNC, 0o600)
    start = time.perf_counter()
    for _ in range(count):
        os.write(file, b"x")
        os.fsync(file)
    seconds = time.perf_counter() - start
    os.close(file)
    return seconds


def raw_read(folder, count=COUNT):
    start = time.perf_counter()
    with open(os.path.join(folder, "raw"), "rb", buffering=0) as file:
        for _ in range(count):
            file.read(BLOCK)
    return time.perf_counter() - start


def dropped(folder, name):
    """What the system keeps of a file in memory goes."""
    file = os.open(os.path.join(folder, name), os.O_RDONLY)
    os.fsync(file)
    os.posix_fadvise(file, 0, 0, os.POSIX_FADV_DONTNEED)
    os.close(file)


def by_library(folder):
    path = os.path.join(folder, "library.tape")
    if os.path.exists(path):
        os.remove(path)
    run(folder, [LIBRARY, "file", str(COUNT), path])
    with open(os.path.join(folder, "out"), "rb") as out:
        return int(out.read().split()[0]) / 1e9


def by_script(folder, script, wanted):
    new_library(folder)
    seconds, _ = run(folder, [PROGRAM, "run", "--config", "lib.toml"], script)
    answered(folder, wanted)
    return seconds


class Times:
    """The seconds of a work, of several rounds."""

    def __init__(self, seconds):
        self.best, self.median = min(seconds), statistics.median(seconds)

    def beside(self, other):
        """How fast this is as a part of the other, by the best times and by the medians."""
        return f"{other.best / self.best:.2f} ({other.median / self.median:.2f})"


def best(works):
    """The times of each work, taken in turns."""
    rounds = [[work() for work in works] for _ in range(5)]
    return [Times(times) for times in zip(*rounds)]


def speed(name, times, others=(), size=COUNT * BLOCK):
    beside = "".join(f"; {times.beside(other)} of {what}" for what, other in others)
    print(f"{name}: {times.best:.3f} s (median {times.median:.3f}), {size / 1e6 / times.best:.0f} MB/s{beside}",
          flush=True)


def blocks(folder):
    write = b"1 1 0a0004000000 " + b"5a" * BLOCK + b"\n"
    mark = b"1 1 100000000100\n"
    group = [(write, GROUP), (mark, 1), (b"--\n", 1)]
    script = scripted(folder, "blocks", [(READY, 1), *group * (COUNT // GROUP)])
    wanted = [(ATTENTION, 1), (b"GOOD\n", COUNT + COUNT // GROUP)]
    raw, often, cat, library, through = best([
        lambda: raw_append(folder), lambda: raw_append(folder, WAIT, 2), lambda: run(folder, ["cat"], script)[0],
        lambda: by_library(folder), lambda: by_script(folder, script, wanted)])
    speed(f"{COUNT:,} blocks of {BLOCK:,} bytes, a sync each {GROUP}, to a raw file", raw)
    speed(f"the same with two syncs each {WAIT}, as many as wait at most and make a frame", often)
    raws = [("the raw file", raw), ("that with as many syncs", often)]
    speed("the same, a filemark each, by a program that calls the library", library, raws)
    speed("the same through vtl run", through, [*raws, ("cat of the script", cat)])
    speed("cat of the script", cat, size=os.path.getsize(script))


def reading(folder):
    reads = scripted(folder, "reads", [(READY, 1), (b"1 1 080004000000\n--\n", GROUP)])
    wanted = [(ATTENTION, 1), (b"GOOD " + b"5a" * BLOCK + b"\n", GROUP)]

    def back(is_cold):
        if is_cold:
            dropped(folder, "t1.tape")
        return run(folder, [PROGRAM, "run", "--config", "lib.toml"], reads)[0]

    def raw(is_cold):
        if is_cold:
            dropped(folder, "raw")
        return raw_read(folder, GROUP)

    for name, is_cold in (("cached", False), ("not cached", True)):
        file, blocks_back = best([lambda: raw(is_cold), lambda: back(is_cold)])
        answered(folder, wanted)
        speed(f"{GROUP} blocks of a raw file, {name}", file, size=GROUP * BLOCK)
        speed(f"{GROUP} blocks read back through vtl run, {name}, the opening included", blocks_back,
              [("the raw file", file)], GROUP * BLOCK)


def marks(folder):
    script = scripted(folder, "marks", [(READY, 1), (b"1 1 0a0000000100 78\n1 1 100000000100\n", MARKS)])
    none = scripted(folder, "none", [(READY, 1)])
    wanted = [(ATTENTION, 1), (b"GOOD\n", 2 * MARKS)]
    raw, through, start = best([lambda: raw_syncs(folder, MARKS), lambda: by_script(folder, script, wanted),
                                lambda: by_script(folder, none, [(ATTENTION, 1)])])
    pair = (through.best - start.best) / MARKS
    print(f"a byte and a filemark that is stored before its answer: {pair * 1e6:.0f} us, of which a sync of the raw "
          f"file behind a byte is {raw.best / MARKS * 1e6:.0f} us; each takes two syncs", flush=True)


def opening(folder):
    script = scripted(folder, "small_blocks", [(READY, 1), (b"1 1 0a0000040000 " + b"78" * 1_024 + b"\n", SMALL)])
    wanted = [(ATTENTION, 1), (b"GOOD\n", SMALL)]
    by_script(folder, script, wanted)
    ready = scripted(folder, "none", [(READY, 1)])
    runs = [run(folder, [PROGRAM, "run", "--config", "lib.toml"], ready) for _ in range(3)]
    empty = [run(folder, [PROGRAM, "run"], ready) for _ in range(3)]
    seconds, memory = min(time for time, _ in runs), max(memory for _, memory in runs)
    size = os.path.getsize(os.path.join(folder, "t1.tape"))
    print(f"opening a cartridge of {SMALL:,} blocks of 1,024 bytes, a file of {size:,} bytes: {seconds:.3f} s, "
          f"{memory / 1e6:.0f} MB; the built-in one in memory: {min(time for time, _ in empty):.3f} s, "
          f"{max(memory for _, memory in empty) / 1e6:.0f} MB", flush=True)


def main(words):
    for program in (PROGRAM, LIBRARY):
        if not os.path.exists(program):
            sys.exit("build the programs first: make vtl, and rt run in crates/bench_buffer")
    with tempfile.TemporaryDirectory(dir=words[0] if words else os.path.dirname(TOP)) as folder:
        with open(os.path.join(folder, "lib.toml"), "w", encoding="utf-8") as file:
            file.write(CONFIG)
        blocks(folder)
        reading(folder)
        marks(folder)
        opening(folder)


if __name__ == "__main__":
    main(sys.argv[1:])
