#!/usr/bin/env python3
"""How many bytes of memory the proved program asks for, and that they stay within these limits: by a file that stands
before the C library and notes each call of malloc and realloc (faults.c, which takes `cc`).

A block of 1,048,576 bytes that is written to a file through a script: once for its data, and for the line; its frame
is written in the room that its drive has. Later such blocks ask for no more than that, and their lines for nothing.
Lines without data, of which a phase has more: nothing for each. A library of 16 drives, each with a cartridge and a
store, at rest: the room of each drive's longest frame, and 131,072 bytes. The same block by a frame to `vtl serve`: its
data once; and a frame that is refused: nothing, whatever its header says. Blocks that are read again and again, by
frames and by lines of a phase: each READ asks for its block once, and for nothing else.

--program PATH: another program than the proved one, not one that is built with checks, as that of unproved.py; --reads:
the READs alone; --tell: prints the figures alone; --selftest: READs that take more memory behind the program's back
must be found."""
import argparse
import os
import subprocess
import sys
import tempfile

from front_end import COMMAND, HEADER

TOP = os.path.dirname(os.path.dirname(os.path.abspath(__file__)))
PROVED = os.path.join(TOP, "crates", "vtl", "out", "vtl")
BLOCK = 1_048_576
# the room of a drive for the longest frame that its buffer stores: 4 MiB of blocks, 256 heads of records, and 5 bytes
# around them; what else a drive takes, and the index and the names of what is written
FRAME, DRIVE, BESIDE = 4_194_304 + 256 * 10 + 5, 131_072, 131_072
# the longest line, and the byte that shows that one is longer
LINE = 2_200_001
WRITE = f"1 1 0a00{BLOCK:06x}00 " + "5a" * BLOCK + "\n1 1 100000000000\n--\n"
READY = "1 1 000000000000\n"
# the same as frames, and headers that are refused: for their length of data, their host and their kind; of a move with
# data, which an answer to one may have
READY_FRAME = HEADER.pack(COMMAND, 1, 1, 6, 0, 0) + bytes(6)
WRITE_FRAMES = (HEADER.pack(COMMAND, 1, 1, 6, BLOCK, 1) + bytes.fromhex("0a0010000000") + b"\x5a" * BLOCK
                + HEADER.pack(COMMAND, 1, 1, 6, 0, 2) + bytes.fromhex("100000000100"))
REFUSED = [HEADER.pack(COMMAND, 1, 1, 6, 0xFFFF_FFFF, 1), HEADER.pack(COMMAND, 65, 1, 6, 1_100_000, 1),
           HEADER.pack(9, 1, 1, 6, 1_100_000, 1), HEADER.pack(2, 0, 0, 0, 1_100_000, 1)]
# blocks that are read, each longer than a reply holds without memory; and so many times more than once
LENGTHS, TIMES = [25, 512, 4_096, 65_536, 262_144, BLOCK], 50
# a READ that asks for one byte more, and one that copies an index of 1,536 objects
PLANTED = (1, 36_864)
# what is taken and freed at the start, so that the C library's allocator keeps freed memory
FREED = 33_000_000
# what is less than this is not looked at one by one: replies, names, words of the command line
SMALL = 4_096


def config(drives):
    cartridges = "".join(f'[[cartridge]]\nbarcode = "T{i:05}L6"\nfile = "{i}.tape"\ncapacities = [1_099_511_627_776]\n'
                         f"home = {i}\n" for i in range(1, drives + 1))
    return cartridges + "".join(f'[[drive]]\nnumber = {i}\nreservations = "{i}.pr"\n' for i in range(1, drives + 1))


def six(code, count):
    """A command block of six bytes, whose count has three."""
    return bytes([code, 0, *count.to_bytes(3, "big"), 0])


def frame(block, data=b""):
    return HEADER.pack(COMMAND, 1, 1, len(block), len(data), 0) + block + data


def line(block, data=b""):
    return f"1 1 {block.hex()} {data.hex()}\n".encode()


def asked(program, shim, folder, words, given, status=0, takes=0):
    """The bytes of each call of malloc and realloc. Each read of a file at a place takes so many bytes more."""
    notes = os.path.join(folder, "asked")
    more = {"LD_PRELOAD": shim, "FAULTS_ASKED": notes, "FAULTS_TAKES": str(takes)}
    done = subprocess.run([program, *words], cwd=folder, input=given, stdout=subprocess.PIPE, check=False,
                          stderr=subprocess.PIPE, env={**os.environ, **more})
    if done.returncode != status:
        sys.exit(f"vtl {' '.join(words)} ended with status {done.returncode}")
    with open(notes, encoding="ascii") as lines:
        return [int(line) for line in lines]


def large(sizes):
    return sorted((size for size in sizes if size >= SMALL), reverse=True)


def more_than(sizes, others):
    """What was asked for beside the others."""
    left = list(others)
    return [size for size in sizes if not (size in left and not left.remove(size))]


def read_back(program, shim, folder, takes=0):
    """The figures of READs of blocks that were read before, beside as many commands TEST UNIT READY."""
    blocks = LENGTHS * TIMES
    for word, way, end, what in (("serve", frame, b"", "frames"), ("run", line, b"--\n", "lines of a phase")):
        ready, reads = way(bytes(6)), [way(six(0x01, 0)), *(way(six(0x08, length)) for length in LENGTHS)]
        writes = [*(way(six(0x0A, length), b"\x5a" * length) for length in LENGTHS), way(six(0x10, 1))]
        begin, found = b"".join([ready, *writes, *reads, end]), []
        for given in (b"".join(reads) * TIMES, ready * len(reads) * TIMES):
            new_library(program, folder)
            found.append(asked(program, shim, folder, [word, "--config", "one.toml"], begin + given, takes=takes))
        more, name = more_than(*found), f"of {len(blocks)} READs by {what}"
        yield f"growths {name}, beside one of the length of each block, in calls", len(more_than(more, blocks)), 0
        yield f"blocks {name}, of whose length there is no growth", len(more_than(blocks, more)), 0


def selftest(program, shim, folder):
    """How many READs that take more are not found."""
    missed = 0
    for takes in PLANTED:
        found = [name for name, figure, limit in read_back(program, shim, folder, takes) if figure > limit]
        ways = [way for way in ("frames", "lines") if any(name.startswith("growths") and way in name for name in found)]
        missed += 2 - len(ways)
        print(f"READs that take {takes:,} bytes more are found by {' and '.join(ways) or 'nothing'}", flush=True)
    return missed


def new_library(program, folder, drives=1):
    """A new library, of one.toml or of all.toml."""
    for name in os.listdir(folder):
        if ".tape" in name or name.endswith(".pr"):
            os.remove(os.path.join(folder, name))
    name = "one.toml" if drives == 1 else "all.toml"
    with open(os.path.join(folder, name), "w", encoding="utf-8") as file:
        file.write(config(drives))
    subprocess.run([program, "create", "--config", name], cwd=folder, check=True, stdout=subprocess.DEVNULL)


def figures(program, shim, folder):
    """Names, figures and limits in bytes."""
    run = lambda script, drives="one.toml": asked(program, shim, folder, ["run", "--config", drives], script.encode())
    serve = lambda frames, status=0: asked(program, shim, folder, ["serve", "--config", "one.toml"], frames, status)
    new_library(program, folder, 16)
    idle = run(READY, "all.toml")
    yield "calls more or fewer than the one for what is freed at the start", abs(idle.count(FREED) - 1), 0
    yield "a library of 16 drives at rest, in all beside it", sum(more_than(idle, [FREED])), 16 * (FRAME + DRIVE)
    new_library(program, folder)
    rest, one, many = run(READY), run(READY + WRITE), run(READY + WRITE * 9)
    block = large(more_than(one, rest))
    yield "a WRITE of a block of 1,048,576 bytes, in all", sum(block), BLOCK + LINE + BESIDE
    yield "its largest growth, of its line", block[0], LINE
    yield "eight such WRITEs more, in all", sum(large(more_than(many, one))), 8 * (BLOCK + BESIDE)
    few, lines = run(READY * 1_001), run(READY * 10_001)
    yield "growths of a phase's lines, 10,000 and not 1,000 of them, in calls", len(lines) - len(few), 20
    rest = serve(READY_FRAME)
    block = large(more_than(serve(READY_FRAME + WRITE_FRAMES), rest))
    yield "such a WRITE by a frame, in all", sum(block), BLOCK + BESIDE
    rest = serve(READY_FRAME)
    for header in REFUSED:
        found = large(more_than(serve(READY_FRAME + header, 1), rest))
        yield f"a frame that begins with {header[:8].hex()}, and is refused, in all", sum(found), 0
    yield from read_back(program, shim, folder)


def main():
    parser = argparse.ArgumentParser()
    parser.add_argument("--program", default=PROVED)
    parser.add_argument("--tell", action="store_true")
    parser.add_argument("--reads", action="store_true")
    parser.add_argument("--selftest", action="store_true")
    given = parser.parse_args()
    program, wrong = os.path.abspath(given.program), 0
    with tempfile.TemporaryDirectory(prefix="vtl-asked-") as folder:
        shim = os.path.join(folder, "shim.so")
        source = os.path.join(TOP, "checks", "faults.c")
        subprocess.run(["cc", "-shared", "-fPIC", "-O2", "-o", shim, source], check=True)
        if given.selftest:
            sys.exit(selftest(program, shim, folder))
        for name, figure, limit in (read_back if given.reads else figures)(program, shim, folder):
            wrong += figure > limit
            print(f"{name}: {figure:,}; at most {limit:,}{' is allowed' if figure > limit else ''}", flush=True)
    print(f"{wrong} too large")
    sys.exit(1 if wrong and not given.tell else 0)


if __name__ == "__main__":
    main()
