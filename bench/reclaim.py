#!/usr/bin/env python3
"""Speed of `vtl reclaim` over files, beside `cp` of the same bytes with one sync behind it: over a file of as many
bytes, as a reclaim goes over the file of the one before, and to a new file. Of five times, taken in turns, the best and
the median; and the most memory that it takes, beside a load of the same cartridge.

A cartridge of 1 GiB of blocks of 256 KiB, half of which was written over, is reclaimed again and again: each time as
much is copied to the other file. The file that then counts must have the length of what stands, no more; the blocks are
read before and after it, and compared; `vtl check` must say as many objects as before, and frames of 4 MiB. In the
first reclaim standard error is a terminal, which has to have a line for each GiB; in the others a pipe, which has to
have nothing.

--size N: so many bytes of blocks stand (default 1 GiB; half as many beside them were written over). --program PATH:
another program than the proved one. The files lie in a new folder beside the repository's own, or in the one that a
word names."""
import argparse
import hashlib
import itertools
import os
import pty
import statistics
import subprocess
import sys
import tempfile
import time

sys.path.append(os.path.join(os.path.dirname(os.path.dirname(os.path.abspath(__file__))), "checks"))
import cartridge_files  # noqa: E402

TOP = os.path.dirname(os.path.dirname(os.path.abspath(__file__)))
PROVED = os.path.join(TOP, "crates", "vtl", "out", "vtl")
BLOCK, ROUNDS, LONGEST, AIM = 262_144, 5, 4_194_304, 1.5
# a script has 2,147,483,648 bytes at most, and a line takes two characters a byte
LINES = 2_000_000_000 // (2 * BLOCK + 32)
CONFIG = """cartridge = [{ barcode = "T00001L6", file = "t1.tape", capacities = [1_099_511_627_776], home = 1 }]
drive = [{ number = 1, reservations = "d1.pr" }]
"""
READY = b"1 1 000000000000\n"


def block(number):
    """A block of its own bytes."""
    return hashlib.sha256(b"%d" % number).digest() * (BLOCK // 32)


def locate(number):
    return b"1 1 2b0000%08x000000\n" % number


def run(program, folder, words, script=(), stderr=None):
    """Seconds, and the most memory in bytes; what it wrote lies in the file out."""
    with open(os.path.join(folder, "in"), "wb") as file:
        file.writelines(script)
    with open(os.path.join(folder, "in"), "rb") as stdin, open(os.path.join(folder, "out"), "wb") as stdout:
        start = time.perf_counter()
        child = subprocess.Popen([program, *words], cwd=folder, stdin=stdin, stdout=stdout, stderr=stderr)
        _, status, usage = os.wait4(child.pid, 0)
        seconds = time.perf_counter() - start
    os.remove(os.path.join(folder, "in"))
    if status:
        sys.exit(f"vtl {' '.join(words)} ended with status {os.waitstatus_to_exitcode(status)}")
    return seconds, usage.ru_maxrss * 1024


def write(program, folder, first, numbers):
    """Writes blocks of these numbers from an object on, in scripts that are short enough."""
    numbers = list(numbers)
    for at in range(0, len(numbers), LINES):
        lines = (b"1 1 0a00%06x00 %s\n" % (BLOCK, block(number).hex().encode()) + b"--\n" * (number % 16 == 15)
                 for number in numbers[at:at + LINES])
        run(program, folder, ["run", "--config", "lib.toml"], itertools.chain([READY, locate(first + at)], lines))


def read_back(program, folder, count):
    """What is read of each block: the digest of all answers, in scripts that are short enough."""
    found = hashlib.sha256()
    for at in range(0, count, LINES):
        reads = (b"1 1 0800%06x00\n" % BLOCK + b"--\n" for _ in range(min(LINES, count - at)))
        run(program, folder, ["run", "--config", "lib.toml"], itertools.chain([READY, locate(at)], reads))
        with open(os.path.join(folder, "out"), "rb") as out:
            for line in itertools.islice(out, 2, None):
                found.update(line)
    return found.hexdigest()


def owed(numbers):
    """The same of the blocks that stand."""
    found = hashlib.sha256()
    for number in numbers:
        found.update(b"GOOD " + block(number).hex().encode() + b"\n")
    return found.hexdigest()


def copied(folder, path, is_new):
    """Seconds of cp and one sync of the copy, to a new file, or over the one that stands there."""
    target = os.path.join(folder, "new" if is_new else "raw")
    start = time.perf_counter()
    subprocess.run(["cp", path, target], check=True)
    file = os.open(target, os.O_RDWR)
    os.fsync(file)
    os.close(file)
    return time.perf_counter() - start


def length_of(count):
    """The bytes of a copy of so many blocks: its header, frames of as many as their bodies hold, a closed gate."""
    each = LONGEST // (BLOCK + 10)
    frames = -(-count // each)
    return 39 + 8 + frames * 5 + count * (BLOCK + 10) + 1, frames


def checked(program, folder, count, frames):
    run(program, folder, ["check", "t1.tape"])
    with open(os.path.join(folder, "out"), "rb") as out:
        found = out.read().decode()
    used = count * (BLOCK + 16)
    wanted = f"cartridge T00001L6 partitions 1 frames {frames}\npartition 0 objects {count} used {used}\n"
    if found != wanted:
        sys.exit(f"check prints {found!r} in the place of {wanted!r}")


def rest_of(stream):
    """All that is left in a terminal or a pipe whose other end is closed."""
    found = b""
    while True:
        try:
            more = os.read(stream, 65_536)
        except OSError:  # a terminal's end
            more = b""
        if not more:
            os.close(stream)
            return found
        found += more


def reclaimed(program, folder, epoch, whole):
    """Seconds, and the most memory in bytes, of a reclaim that writes so many bytes."""
    terminal = epoch == 1
    ours, theirs = pty.openpty() if terminal else os.pipe()
    seconds, memory = run(program, folder, ["reclaim", "--config", "lib.toml", "T00001L6"], stderr=theirs)
    os.close(theirs)
    said = rest_of(ours)
    with open(os.path.join(folder, "out"), "rb") as out:
        if out.read() != b"reclaimed T00001L6 epoch %d\n" % epoch:
            sys.exit("another line of reclaim than expected")
    # a terminal makes two characters of a line feed
    if said != b"".join(b"%d GiB written\r\n" % (full + 1) for full in range(whole >> 30) if terminal):
        sys.exit(f"{said!r} on standard error, which is a {'terminal' if terminal else 'pipe'}")
    return seconds, memory


def measured(program, folder, count):
    """Fills the cartridge, reclaims it, and says what came of it; what is wrong."""
    path, old = os.path.join(folder, "t1.tape"), count // 2
    run(program, folder, ["create", "--config", "lib.toml"])
    # the second half of the blocks is written over
    write(program, folder, 0, range(count))
    write(program, folder, count - old, range(count, count + old))
    stands = owed([*range(count - old), *range(count, count + old)])
    before = os.path.getsize(path)
    if read_back(program, folder, count) != stands:
        sys.exit("other blocks are read than were written")
    load = run(program, folder, ["run", "--config", "lib.toml"])[1]
    whole, frames = length_of(count)
    copied(folder, path, False)
    times, plain, new, most = [], [], [], 0
    for epoch in range(1, ROUNDS + 1):
        seconds, memory = reclaimed(program, folder, epoch, whole)
        times, most = [*times, seconds], max(most, memory)
        side = path + (cartridge_files.SECOND if epoch % 2 else "")
        if os.path.getsize(side) != whole:
            sys.exit(f"the copy has {os.path.getsize(side):,} bytes in the place of {whole:,}")
        plain.append(copied(folder, side, False))
        new.append(copied(folder, side, True))
        os.remove(os.path.join(folder, "new"))
        if epoch <= 2:
            checked(program, folder, count, frames)
    if read_back(program, folder, count) != stands:
        sys.exit("other blocks are read behind a reclaim than before it")
    best, middle = min(times) / min(plain), statistics.median(times) / statistics.median(plain)
    beside = min(times) / min(new), statistics.median(times) / statistics.median(new)
    print(f"a file of {before:,} bytes, of which {count:,} blocks of {BLOCK:,} stand, is reclaimed to one of "
          f"{whole:,}: {min(times):.3f} s, {whole / 1e6 / min(times):,.0f} MB/s, {best:.2f} ({middle:.2f}) times cp "
          f"with one sync over a file of as many bytes ({min(plain):.3f} s), {beside[0]:.2f} ({beside[1]:.2f}) times "
          f"cp to a new file ({min(new):.3f} s); at most {AIM} is the aim")
    print(f"the most memory of a reclaim: {most / 1024:,.0f} KiB; of a load of it {load / 1024:,.0f} KiB, and the "
          f"buffer of a frame has {LONGEST / 1024:,.0f}", flush=True)


def main():
    words = argparse.ArgumentParser()
    words.add_argument("--program", default=PROVED)
    words.add_argument("--size", type=int, default=1 << 30)
    words.add_argument("folder", nargs="?", default=os.path.dirname(TOP))
    asked = words.parse_args()
    program = os.path.abspath(asked.program)
    if not os.path.exists(program):
        sys.exit("build the program first: make vtl")
    if not cartridge_files.reclaims(program):
        print("the program has no `vtl reclaim`: nothing is measured")
        return
    with tempfile.TemporaryDirectory(dir=asked.folder) as folder:
        with open(os.path.join(folder, "lib.toml"), "w", encoding="utf-8") as file:
            file.write(CONFIG)
        measured(program, folder, asked.size // BLOCK)


if __name__ == "__main__":
    main()
