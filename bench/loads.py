#!/usr/bin/env python3
"""Time and memory of a load over files, by the built program: the start over a cartridge in a drive, with an empty
script, beside a plain reading of its file in pieces of 65,536 bytes and beside a start over a new cartridge. Cartridges
of blocks of 1 KiB, 64 KiB, 256 KiB and 1 MiB, cached and not cached; best of three times, taken in turns.

--size N: so many bytes of blocks, at most, in each file (default 1 GiB; 100,000 blocks of 1 KiB in the first).
--program PATH: another program than the proved one. --library PATH: that of crates/bench_buffer, which makes the files
of larger blocks. The files lie in a new folder beside the repository's own, or in the one that a word names."""
import argparse
import itertools
import os
import subprocess
import sys
import tempfile
import time

TOP = os.path.dirname(os.path.dirname(os.path.abspath(__file__)))
PROVED = os.path.join(TOP, "crates", "vtl", "out", "vtl")
# an index has an entry of so many bytes for each block
PIECE, ROUNDS, SMALL, ENTRY = 65_536, 3, 100_000, 24
READY, TO_END = b"1 1 000000000000\n", b"1 1 110300000000\n--\n"
CONFIG = """cartridge = [{ barcode = "T00001L6", file = "t1.tape", capacities = [1_099_511_627_776], home = 1 }]
drive = [{ number = 1, reservations = "d1.pr" }]
"""


def run(program, folder, script):
    """Seconds of a run of this script, in pieces, over the files that there are."""
    with open(os.path.join(folder, "in"), "wb") as file:
        file.writelines(script)
    with open(os.path.join(folder, "in"), "rb") as stdin, open(os.path.join(folder, "out"), "wb") as stdout:
        start = time.perf_counter()
        done = subprocess.run([program, "run", "--config", "lib.toml"], cwd=folder, stdin=stdin, stdout=stdout)
        seconds = time.perf_counter() - start
    if done.returncode:
        sys.exit(f"a run ended with status {done.returncode}")
    return seconds


def memory(program, folder):
    """The most memory that a run had once its cartridge was loaded, in bytes."""
    with subprocess.Popen([program, "run", "--config", "lib.toml"], cwd=folder, stdin=subprocess.PIPE,
                          stdout=subprocess.PIPE) as child:
        child.stdin.write(READY + b"--\n")
        child.stdin.flush()
        child.stdout.readline()
        with open(f"/proc/{child.pid}/status", encoding="ascii") as status:
            most = next(int(line.split()[1]) for line in status if line.startswith("VmHWM:"))
        child.communicate()
    return most * 1024


def new_library(program, folder):
    for name in ("t1.tape", "d1.pr"):
        if os.path.exists(os.path.join(folder, name)):
            os.remove(os.path.join(folder, name))
    subprocess.run([program, "create", "--config", "lib.toml"], cwd=folder, check=True, capture_output=True)


def reading(path):
    """Seconds of a plain reading of a file, in pieces."""
    piece = bytearray(PIECE)
    start = time.perf_counter()
    with open(path, "rb", buffering=0) as file:
        while file.readinto(piece):
            pass
    return time.perf_counter() - start


def dropped(path):
    """What the system keeps of a file in memory goes."""
    file = os.open(path, os.O_RDONLY)
    os.fsync(file)
    os.posix_fadvise(file, 0, 0, os.POSIX_FADV_DONTNEED)
    os.close(file)


def small_blocks(program, folder):
    """A cartridge of many blocks of 1 KiB; how many they are."""
    new_library(program, folder)
    write = b"1 1 0a0000040000 " + b"78" * 1_024 + b"\n"
    pieces = itertools.chain([READY], itertools.repeat(write * 100 + b"--\n", SMALL // 100))
    run(program, folder, pieces)
    return SMALL


def large_blocks(program, library, folder, size, total):
    """A cartridge of blocks of 256 KiB, by the program of crates/bench_buffer, or of others by a script."""
    new_library(program, folder)
    count = total // size
    path = os.path.join(folder, "t1.tape")
    if size == 262_144 and library:
        os.remove(path)
        subprocess.run([library, "file", str(count), path], check=True, capture_output=True)
    else:
        write = b"1 1 0a00%06x00 " % size + b"5a" * size + b"\n"
        # a script has 2,147,483,648 bytes at most
        each = (1 << 29) // size
        for begun in range(0, count, each):
            run(program, folder, itertools.chain([READY, TO_END], (
                write + (b"--\n" if at % 16 == 15 else b"") for at in range(begun, min(begun + each, count)))))
        os.remove(os.path.join(folder, "in"))
    return count


def measured(program, folder, name, count, empty):
    """A load beside a plain reading; what it takes of memory beside a load of a new cartridge and its index."""
    path = os.path.join(folder, "t1.tape")
    size, most = os.path.getsize(path), memory(program, folder)
    for is_cold in (False, True):
        loads, plain = [], []
        for _ in range(ROUNDS):
            if is_cold:
                dropped(path)
            plain.append(reading(path))
            if is_cold:
                dropped(path)
            loads.append(run(program, folder, []))
        load, read = min(loads), min(plain)
        state = "not cached" if is_cold else "cached"
        print(f"a load of {count:,} blocks of {name}, a file of {size:,} bytes, {state}: {load:.3f} s, "
              f"{load / read:.2f} of a plain reading ({read:.3f} s), {size / 1e6 / load:,.0f} MB/s; "
              f"{most / 1024:,.0f} KiB, beside a new cartridge and 24 bytes a block "
              f"{(most - empty - ENTRY * count) / 1024:,.0f}", flush=True)


def main():
    words = argparse.ArgumentParser()
    words.add_argument("--program", default=PROVED)
    words.add_argument("--library", default=os.path.join(TOP, "crates", "bench_buffer", "out", "bench_buffer"))
    words.add_argument("--size", type=int, default=1 << 30)
    words.add_argument("folder", nargs="?", default=os.path.dirname(TOP))
    asked = words.parse_args()
    if not os.path.exists(asked.program):
        sys.exit("build the program first: make vtl")
    library = asked.library if os.path.exists(asked.library) else None
    with tempfile.TemporaryDirectory(dir=asked.folder) as folder:
        with open(os.path.join(folder, "lib.toml"), "w", encoding="utf-8") as file:
            file.write(CONFIG)
        new_library(asked.program, folder)
        empty, least = min(run(asked.program, folder, []) for _ in range(ROUNDS)), memory(asked.program, folder)
        print(f"a load of a new cartridge: {empty:.3f} s, {least / 1024:,.0f} KiB", flush=True)
        measured(asked.program, folder, "1 KiB", small_blocks(asked.program, folder), least)
        for size, name in ((65_536, "64 KiB"), (262_144, "256 KiB"), (1_048_576, "1 MiB")):
            count = large_blocks(asked.program, library, folder, size, asked.size)
            measured(asked.program, folder, name, count, least)


if __name__ == "__main__":
    main()
