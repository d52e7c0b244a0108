#!/usr/bin/env python3
"""Speed and memory of the built program on scripts, beside cat of the same text; the time of a motion over long and
short tapes, and of commands with and without reservations. Best of five runs. --beside PATH: how many times as fast it
runs short lines as another program, in turns, and nothing else.

Texts are rows of (piece, times), so that this process stays small: the memory of a child counts from its parent's."""
import os
import statistics
import subprocess
import sys
import tempfile
import time

TOP = os.path.dirname(os.path.dirname(os.path.abspath(__file__)))
PROGRAM = os.path.join(TOP, "crates", "vtl", "out", "vtl")
MIB = 1024 * 1024


def run(words, source, sink):
    """Seconds, greatest memory in bytes, status."""
    with open(source, "rb") as stdin, open(sink, "wb") as stdout:
        start = time.perf_counter()
        child = subprocess.Popen(words, stdin=stdin, stdout=stdout)
        _, status, usage = os.wait4(child.pid, 0)
        seconds = time.perf_counter() - start
    return seconds, usage.ru_maxrss * 1024, os.waitstatus_to_exitcode(status)


def best(words, source, sink, times=5):
    runs = [run(words, source, sink) for _ in range(times)]
    if any(status for _, _, status in runs):
        sys.exit(f"{words[0]} ended with a status other than 0")
    return min(seconds for seconds, _, _ in runs), max(memory for _, memory, _ in runs)


def written(path, row):
    with open(path, "wb") as file:
        for piece, times in row:
            for _ in range(times):
                file.write(piece)
    return os.path.getsize(path)


def is_text(path, row):
    with open(path, "rb") as file:
        return all(file.read(len(piece)) == piece for piece, times in row for _ in range(times)) and not file.read(1)


def timed(folder, name, script, answers):
    """Seconds and greatest memory of the script, which must have these answers, and the bytes of both texts."""
    source, sink = os.path.join(folder, "in"), os.path.join(folder, "out")
    size = written(source, script)
    seconds, memory = best([PROGRAM, "run"], source, sink)
    if not is_text(sink, answers):
        sys.exit(f"{name}: another answer than expected")
    return seconds, memory, size + os.path.getsize(sink)


def measure(folder, name, script, answers):
    seconds, memory, moved = timed(folder, name, script, answers)
    lines = sum(piece.count(b"\n") * times for piece, times in script)
    cat, _ = best(["cat"], os.path.join(folder, "in"), os.path.join(folder, "out"))
    print(f"{name}: {lines} lines, {seconds:.3f} s, {lines / seconds / 1e6:.2f} million lines a second, "
          f"{moved / 1e6 / seconds:.0f} MB/s of text, {memory / MIB:.0f} MiB; cat {cat:.3f} s")


def line(block, sent="", host=1):
    return f"{host} 1 {block} {sent}\n".encode()


def order(host, action, kind, key, other=0):
    """A line of PERSISTENT RESERVE OUT, with the two keys of its list."""
    return line(f"5f{action:02x}{kind:02x}00000000001800", f"{key:016x}{other:016x}{0:016x}", host)


READY, REWIND, ONE = line("000000000000"), line("010000000000"), line("0a0000000100", "78")
INQUIRY, POSITION = line("120000002400"), line("34000000000000000000")
GOOD, BREAK = b"GOOD\n", b"--\n"
ATTENTION = (b"CHECK 700006000000000a00000000290000000000\n", 1)
EARLY_WARNING = b"CHECK f00040000000000a00000000000200000000\n"
DRIVE = b"GOOD 018006021f00000056544c49422020205441504520445249564520202020202030303031\n"
OBJECT_0 = b"GOOD 8000000000000000000000000000000000000000\n"
# so many blocks of one byte, 17 each, come before early warning, which begins a sixteenth below 16,777,216 bytes
BEFORE_WARNING = 15_728_640 // 17


def commands(folder):
    rows = (("TEST UNIT READY", READY, GOOD), ("INQUIRY", INQUIRY, DRIVE), ("READ POSITION", POSITION, OBJECT_0))
    for name, command, answer in rows:
        measure(folder, f"3,000,000 {name} in phases of 10,000",
                [(READY, 1), (command * 10_000 + BREAK, 300)], [ATTENTION, (answer * 10_000, 300)])
    measure(folder, "1,000,000 TEST UNIT READY in one phase",
            [(READY, 1), (READY * 10_000, 100)], [ATTENTION, (GOOD * 10_000, 100)])


def transfers(folder):
    block = (bytes(range(256)) * 256).hex()
    write, read = line("0a0001000000", block), line("080001000000")
    answers = [ATTENTION, (GOOD, 201), (f"GOOD {block}\n".encode(), 200)]
    measure(folder, "200 WRITEs and 200 READs of 64 KiB in one phase",
            [(READY, 1), (write, 200), (REWIND, 1), (read, 200)], answers)
    measure(folder, "the same in phases of 10 lines",
            [(READY, 1), (write * 10 + BREAK, 20), (REWIND, 1), (read * 10 + BREAK, 20)], answers)
    for count in (246_723, 493_447, 986_895):
        good = min(count, BEFORE_WARNING)
        measure(folder, f"{count} blocks of one byte in phases of 1,000",
                [(READY, 1), (ONE * 1_000 + BREAK, count // 1_000), (ONE, count % 1_000)],
                [ATTENTION, (GOOD, good), (EARLY_WARNING, count - good)])


def space(code, count):
    return line(f"11{code:02x}{count & 0xffffff:06x}00")


def locate(to):
    return line(f"2b0000{to:08x}000000")


def blocks(count):
    """A tape of so many blocks, a multiple of 1,000, at its beginning: script and answers."""
    return [(READY, 1), (ONE * 1_000 + BREAK, count // 1_000), (REWIND + BREAK, 1)], [ATTENTION, (GOOD, count + 1)]


def filemarks(count):
    return [(READY, 1), (line(f"1000{count:06x}00"), 1), (REWIND + BREAK, 1)], [ATTENTION, (GOOD, 2)]


def runs(count):
    """A tape of so many filemarks, a multiple of 1,000, with a block before each."""
    pair = ONE + line("100100000100")
    return ([(READY, 1), (pair * 1_000 + BREAK, count // 1_000), (REWIND + BREAK, 1)],
            [ATTENTION, (GOOD, 2 * count + 1)])


def time_of(folder, name, before, pair, times, answer=GOOD):
    """Seconds of a command of this pair, each answered so and given so often, less the time of what comes before."""
    script, answers = before
    alone, _, _ = timed(folder, name, script, answers)
    pairs = ((pair[0] + pair[1]) * 10 + BREAK, times // 10)
    whole, _, _ = timed(folder, name, [*script, pairs], [*answers, (answer, 2 * times)])
    return (whole - alone) / (2 * times)


def motions(folder):
    long, short, few = 100_000, 1_000, 10
    grown = []
    for kind, code, tape in (("blocks", 0, blocks), ("filemarks", 1, filemarks),
                             ("filemarks with a block before each", 1, runs)):
        name = f"SPACE over {long:,} {kind}, both ways"
        near, far = (time_of(folder, name, tape(long), (space(code, count), space(code, -count)), 500_000)
                     for count in (few, long))
        print(f"{name}: {far * 1e9:.0f} ns a command; over {few} {near * 1e9:.0f} ns: {far / near:.2f} times")
        grown += [name] if far > 1.5 * near else []
    for name, there in (("LOCATE", locate), ("SPACE to the end of data", lambda _: space(3, 0))):
        near, far = (time_of(folder, name, blocks(count), (there(count), locate(0)), 500_000)
                     for count in (short, long))
        print(f"{name} and LOCATE to object 0: {near * 1e9:.0f} ns a command over {short:,} blocks, "
              f"{far * 1e9:.0f} ns over {long:,}")
        grown += [name] if far > 2 * near else []
    if grown:
        sys.exit(f"{' and '.join(grown)} takes longer on a longer tape")


def registered(count):
    """So many hosts, each registered with its number as the key: script and answers."""
    script = [(line("000000000000", host=host) + order(host, 0, 0, 0, host) + BREAK, 1) for host in range(1, count + 1)]
    return script, [(ATTENTION[0] + GOOD, count)]


def reservations(folder):
    for count in (1, 64):
        keys = "".join(f"{host:016x}" for host in range(1, count + 1))
        read, reread = line("5e000000000000020800"), line("5e010000000000020800")
        for name, pair, times, answer in (
            ("READ KEYS", (read, read), 50_000, f"GOOD {count:08x}{8 * count:08x}{keys}\n".encode()),
            ("READ RESERVATION", (reread, reread), 500_000, f"GOOD {count:08x}{0:08x}\n".encode()),
            ("RESERVE and RELEASE, type 5", (order(1, 1, 5, 1), order(1, 2, 5, 1)), 200_000, GOOD),
            ("REGISTER of the same key", (order(1, 0, 0, 1, 1), order(1, 0, 0, 1, 1)), 200_000, GOOD),
        ):
            seconds = time_of(folder, name, registered(count), pair, times, answer)
            print(f"{name} with {count} registered: {1 / seconds / 1e6:.2f} million lines a second, "
                  f"{seconds * 1e9:.0f} ns a command")
    script, answers = registered(64)
    fenced, seen = ([*script, (order(64, 1, 5, 64) + BREAK, 1)], [*answers, (GOOD, 1)]), []
    for name, command, times in (("TEST UNIT READY", READY, 1_000_000), ("WRITE of one byte", ONE, 450_000)):
        free, held = (time_of(folder, name, before, (command, command), times)
                      for before in (([(READY, 1)], [ATTENTION]), fenced))
        print(f"{name}: {free * 1e9:.0f} ns without a reservation, {held * 1e9:.0f} ns by a registered host under one")
        seen += [name] if held > 1.5 * free else []
    if seen:
        sys.exit(f"{' and '.join(seen)} takes longer under a reservation")


def beside(folder, other):
    """Short lines by the other program and by this one, in turns."""
    source, sink = os.path.join(folder, "in"), os.path.join(folder, "out")
    written(source, [(READY, 1), (READY * 10_000 + BREAK, 300)])
    rounds = [[run([program, "run"], source, sink)[0] for program in (other, PROGRAM)] for _ in range(5)]
    before, now = zip(*rounds)
    print(f"3,000,000 TEST UNIT READY in phases of 10,000: {3 / min(now):.1f} million lines a second, "
          f"{min(before) / min(now):.2f} times those of the other program (medians: "
          f"{statistics.median(before) / statistics.median(now):.2f})")


def main(words):
    if not os.path.exists(PROGRAM):
        sys.exit("build the program first: make vtl")
    with tempfile.TemporaryDirectory() as folder:
        if words[:1] == ["--beside"] and len(words) == 2:
            return beside(folder, os.path.abspath(words[1]))
        commands(folder)
        transfers(folder)
        motions(folder)
        reservations(folder)


if __name__ == "__main__":
    main(sys.argv[1:])
