#!/usr/bin/env python3
"""Many libraries on one machine, a `vtl serve` each, of a drive and two cartridges over files: memory, time to start
and processor time at rest of 1, 16, 64 and 256 idle ones; and beside 0, 15, 63 and 255 idle ones how fast one host is.

Memory is what the libraries have of their own (Pss), so that pages of the program are counted once. A start is the time
until the last of those that were started together has answered. A host's figures are the best of three runs.
--program PATH: another program than the proved one. --into FILE: the table is written there. The files lie in a new
folder beside the repository's own."""
import argparse
import os
import shutil
import subprocess
import sys
import tempfile
import time

from peers import TOP, Peer

sys.path.append(os.path.join(TOP, "checks"))
from marked_text import put  # noqa: E402

PROVED = os.path.join(TOP, "crates", "vtl", "out", "vtl")
COUNTS, REST, RUNS = (1, 16, 64, 256), 3, 3
READY, MARK, WRITE = bytes(6), bytes.fromhex("100000000100"), b"\x0a\x00\x04\x00\x00\x00"
TRIPS, BLOCKS, MARKS, BLOCK = 3_000, 256, 200, os.urandom(262_144)
HEAD = ("| Idle | Memory, MiB | Start of all, s | Processor in 3 s | Beside one fewer: TEST UNIT READY, µs | "
        "blocks of 256 KiB, MB/s | filemarks a second |", "|---|---|---|---|---|---|---|")
CONFIG = """cartridge = [{ barcode = "T00001L6", file = "t1.tape", capacities = [1_099_511_627_776], home = 1 },
             { barcode = "T00002L6", file = "t2.tape", capacities = [1_099_511_627_776], home = 1001 }]
drive = [{ number = 1, reservations = "d1.pr" }]
"""


def made(program, folder):
    """A new library in a folder."""
    os.makedirs(folder)
    with open(os.path.join(folder, "lib.toml"), "w", encoding="utf-8") as file:
        file.write(CONFIG)
    subprocess.run([program, "create", "--config", "lib.toml"], cwd=folder, check=True, stdout=subprocess.DEVNULL)
    return folder


def own_memory(peer):
    with open(f"/proc/{peer.process.pid}/smaps_rollup", encoding="ascii") as file:
        return next(int(line.split()[1]) for line in file if line.startswith("Pss:"))


def spent(peer):
    """The processor's seconds of a process."""
    with open(f"/proc/{peer.process.pid}/stat", encoding="ascii") as file:
        fields = file.read().rpartition(")")[2].split()
    return (int(fields[11]) + int(fields[12])) / os.sysconf("SC_CLK_TCK")


def timed(work):
    begun = time.perf_counter()
    work()
    return time.perf_counter() - begun


def started(program, folders):
    """The libraries of these folders, started together, and the seconds until the last one has answered."""
    begun = time.perf_counter()
    peers = [Peer([program, "serve", "--config", "lib.toml"], folder) for folder in folders]
    for peer in peers:
        peer.exchange(READY)
    return peers, time.perf_counter() - begun


def host(program, folder):
    """Microseconds of a TEST UNIT READY, MB/s of blocks with a filemark behind them, and marks in a second."""
    peer = Peer([program, "serve", "--config", "lib.toml"], folder)
    peer.exchange(READY)

    def blocks():
        for _ in range(BLOCKS):
            peer.exchange(WRITE, BLOCK)
        peer.exchange(MARK)

    def marks():
        for _ in range(MARKS):
            peer.exchange(b"\x0a\x00\x00\x00\x01\x00", b"x")
            peer.exchange(MARK)

    trips = min(timed(lambda: [peer.exchange(READY) for _ in range(TRIPS)]) for _ in range(RUNS))
    best = [min(timed(work) for _ in range(RUNS)) for work in (blocks, marks)]
    peer.end()
    return trips / TRIPS * 1e6, BLOCKS * len(BLOCK) / best[0] / 1e6, MARKS / best[1]


def row(program, room, count):
    """A line of the table: this many idle libraries, and one host beside one fewer."""
    folders = [made(program, os.path.join(room, f"{count}-{at}")) for at in range(count + 1)]
    peers, seconds = started(program, folders[:count])
    memory = sum(map(own_memory, peers))
    before = sum(map(spent, peers))
    time.sleep(REST)
    busy = sum(map(spent, peers)) - before
    peers.pop().end()
    trip, speed, marks = host(program, folders[count])
    for peer in peers:
        peer.end()
    for folder in folders:
        shutil.rmtree(folder)
    return (f"| {count} | {memory / 1024:.0f} | {seconds:.2f} | {busy:.2f} | {trip:.0f} | {speed:.0f} | {marks:.0f} |")


def main():
    parser = argparse.ArgumentParser()
    parser.add_argument("--program", default=PROVED)
    parser.add_argument("--into")
    words = parser.parse_args()
    lines = list(HEAD)
    with tempfile.TemporaryDirectory(prefix="vtl-libraries-", dir=os.path.dirname(TOP)) as room:
        for count in COUNTS:
            lines.append(row(os.path.abspath(words.program), room, count))
            print(lines[-1], flush=True)
    if words.into:
        put(words.into, "libraries", lines)


if __name__ == "__main__":
    sys.exit(main())
