#!/usr/bin/env python3
"""Gives `vtl check` 100,000 files that nobody meant well, and compares its lines and its status with those of a plain
reader of docs/FORMATS.md (plain_sides.py).

The files (side_maker.py) are made from a seed: random bytes, alone, behind headers and behind gates; sides with bytes,
lengths and gates changed, with frames moved, cut, spliced; bodies that spell no changes or no state, or changes that do
not apply; whole sides; frames as long as may be. None may stop the program or change a byte of the file; standard error
stays empty; each answer comes for one file in a hundred at least.

Of a program that has `vtl reclaim` each second one is a pair (pair_maker.py), the file that is checked and the one with
`.2`: pairs that were reclaimed, or left by a reclaim that was stopped, and pairs of which one file is missing, cut, of
another cartridge, of an older epoch, or any bytes. Neither may change, and a missing one may not be made.

A file is opened in memory for eight times its bytes and a mebibyte, beside what a new cartridge takes. A program that
the system can limit is held to that for each nineteenth file. One that is built with checks, as that of unproved.py,
cannot be limited so: there no single growth may be larger.

--program PATH another program than the proved one; --count N files; --seed S; --jobs J at a time; --one N looks at the
file of that number alone; --heads: pairs that were reclaimed, each byte of both heads set to each value, whose answers
a table has that was worked out by hand (pairs_selftest.py); --selftest: the plain reader is compared with the rows of
rows/ and with that table, and programs that are wrong on purpose must be found."""
import argparse
import collections
import concurrent.futures
import itertools
import os
import resource
import signal
import subprocess
import sys
import tempfile
import time

import cartridge_files
import pair_maker
import pairs_selftest
import plain_sides
import side_maker

TOP = os.path.dirname(os.path.dirname(os.path.abspath(__file__)))
PROVED = os.path.join(TOP, "crates", "vtl", "out", "vtl")
NEW = (b"\xa5VTLCART1\0\x01T00001L6" + b" " * 8 + (4_096).to_bytes(8, "big") + b"\0",
       b"cartridge T00001L6 partitions 1 frames 0\npartition 0 objects 0 used 0\n")
ANSWERS = ("cartridge", "reservations", "not a side", "damaged at", "bad record at")
# one file in so many is limited: of each kind some, since the kinds come in turn, and they are 15
BATCH, LIMITED, SECONDS, MIB = 500, 19, 60, 1 << 20
# where a sync asks nothing of a device
MEMORY = "/dev/shm" if os.path.isdir("/dev/shm") else None

Ended = collections.namedtuple("Ended", "status out said")


def room_for(size):
    """The memory that a file of this size may take, in bytes, beside that of a new cartridge."""
    return MIB + 8 * size


class Late(Exception):
    """The program did not end."""


def late(number, frame):
    raise Late


class Room:
    """A folder in which files are checked one after the other."""

    def __init__(self, program, base, folder, is_paired=False):
        self.program, self.base, self.is_paired = program, base, is_paired
        self.path, self.out, self.said = (os.path.join(folder, name) for name in ("side", "out", "said"))
        signal.signal(signal.SIGALRM, late)

    def started(self, size, limit):
        """The program's process over the file, in this room of memory."""
        words = [self.program, "check", self.path]
        growth = str(1 + room_for(size) // MIB)
        environ = {**os.environ, "ASAN_OPTIONS": f"allocator_may_return_null=1:max_allocation_size_mb={growth}"}
        if limit:
            with open(self.out, "wb") as out, open(self.said, "wb") as said:
                child = subprocess.Popen(words, stdout=out, stderr=said, env=environ, preexec_fn=lambda:
                                         resource.setrlimit(resource.RLIMIT_AS, (limit, limit)))
            # it is waited for by its number
            child.returncode = 0
            return child.pid
        flags = os.O_WRONLY | os.O_CREAT | os.O_TRUNC
        return os.posix_spawn(self.program, words, environ, file_actions=[
            (os.POSIX_SPAWN_OPEN, 1, self.out, flags, 0o600), (os.POSIX_SPAWN_OPEN, 2, self.said, flags, 0o600)])

    def put(self, files):
        """Writes the file, and its second one or none."""
        for path, data in zip((self.path, self.path + cartridge_files.SECOND), files):
            if data is not None:
                with open(path, "wb") as file:
                    file.write(data)
            elif os.path.exists(path):
                os.remove(path)

    def checked(self, files, limit=None):
        """How the program ends over these bytes."""
        self.put(files)
        child = self.started(size_of(files), limit)
        signal.alarm(SECONDS)
        try:
            status = os.waitstatus_to_exitcode(os.waitpid(child, 0)[1])
        except Late:
            os.kill(child, signal.SIGKILL)
            os.waitpid(child, 0)
            status = "none in time"
        finally:
            signal.alarm(0)
        return Ended(status, read(self.out), read(self.said))

    def wrong(self, files, limited):
        """The answer that is owed for these bytes, and what differs from it."""
        lines, status = owed(files, self.is_paired)
        limit = self.base + room_for(size_of(files)) if limited and self.base else None
        ended, wanted = self.checked(files, limit), Ended(status, lines.encode(), b"")
        if ended != wanted:
            return lines, f"{ended} in the place of {wanted}" + (f", in {limit} bytes of memory" if limit else "")
        return lines, None if cartridge_files.pair(self.path) == tuple(files) else "a file has changed"


def size_of(files):
    return sum(len(data) for data in files if data is not None)


def owed(files, is_paired):
    """The lines and the status for a file and its second one."""
    return plain_sides.checked_pair(*files) if is_paired else plain_sides.checked(files[0])


def made(seed, number, is_paired):
    """The kind and the files of that number."""
    if is_paired and number % 2:
        return pair_maker.made_pair(seed, number // 2)
    kind, data = side_maker.made(seed, number // 2 if is_paired else number)
    return kind, [data, None]


def read(path):
    with open(path, "rb") as file:
        return file.read()


def batch(program, base, is_paired, seed, numbers):
    """How often each kind of file and each answer came, and what is wrong."""
    kinds, answers, wrong = collections.Counter(), collections.Counter(), []
    with tempfile.TemporaryDirectory(prefix="vtl-hostile-", dir=MEMORY) as folder:
        room = Room(program, base, folder, is_paired)
        for number in numbers:
            kind, files = made(seed, number, is_paired)
            lines, differs = room.wrong(files, number % LIMITED == 0)
            kinds[kind] += 1
            answers[next(answer for answer in ANSWERS if lines.startswith(answer))] += 1
            if differs:
                wrong.append(f"file {number} of seed {seed} ({kind}, {size_of(files)} bytes): {differs[:600]}")
    return kinds, answers, wrong


def least_memory(program):
    """The address space in which a new cartridge is checked; None where the program cannot be limited."""
    with tempfile.TemporaryDirectory(prefix="vtl-hostile-", dir=MEMORY) as folder:
        room = Room(program, None, folder)
        for limit in range(4 * MIB, 128 * MIB, 3 * MIB):
            if room.checked([NEW[0], None], limit) == Ended(0, NEW[1], b""):
                return limit
    return None


def all_batches(program, seed, count, jobs):
    """The same of all files."""
    kinds, answers, wrong = collections.Counter(), collections.Counter(), []
    base, is_paired = least_memory(program), cartridge_files.reclaims(program)
    with concurrent.futures.ProcessPoolExecutor(jobs) as pool:
        done = [pool.submit(batch, program, base, is_paired, seed, range(at, min(at + BATCH, count)))
                for at in range(0, count, BATCH)]
        for found in concurrent.futures.as_completed(done):
            more, those, differ = found.result()
            kinds.update(more)
            answers.update(those)
            wrong += differ
    few = [answer for answer in ANSWERS if answers[answer] * 100 < count]
    wrong += [f"{answer}: the answer to {answers[answer]} files alone" for answer in few if count >= 100]
    return base, kinds, answers, wrong


def heads_batch(program, first, step):
    """Of the pairs with a byte of a head set, each so-manieth from one on: how many, and what is wrong."""
    count, wrong = 0, []
    with tempfile.TemporaryDirectory(prefix="vtl-hostile-", dir=MEMORY) as folder:
        room = Room(program, None, folder, is_paired=True)
        for where, sides, _, (lines, status) in itertools.islice(pairs_selftest.altered(), first, None, step):
            ended, wanted = room.checked(sides), Ended(status, lines.encode(), b"")
            count += 1
            if ended != wanted:
                wrong.append(f"{where}: {ended} in the place of {wanted}")
            elif cartridge_files.pair(room.path) != tuple(sides):
                wrong.append(f"{where}: a file has changed")
    return count, wrong


def heads(program, jobs):
    with concurrent.futures.ProcessPoolExecutor(jobs) as pool:
        found = [each.result() for each in [pool.submit(heads_batch, program, at, jobs) for at in range(jobs)]]
    wrong = [line for _, lines in found for line in lines]
    print("\n".join(wrong[:50]), end="\n" if wrong else "")
    print(f"heads: {sum(count for count, _ in found)} pairs with a byte set, {len(wrong)} other than expected")
    return 1 if wrong else 0


def look_at(program, seed, number):
    is_paired = cartridge_files.reclaims(program)
    kind, files = made(seed, number, is_paired)
    with tempfile.TemporaryDirectory(prefix="vtl-hostile-", dir=MEMORY) as folder:
        ended = Room(program, None, folder).checked(files)
    said = " and ".join("none" if data is None else data[:400].hex() for data in files)
    print(f"file {number} of seed {seed} ({kind}, {size_of(files)} bytes): {said}\n{ended}\n{owed(files, is_paired)}")


def main():
    parser = argparse.ArgumentParser()
    parser.add_argument("--program", default=PROVED)
    for name, value in (("--count", 100_000), ("--seed", 1), ("--jobs", os.cpu_count()), ("--one", None)):
        parser.add_argument(name, type=int, default=value)
    parser.add_argument("--selftest", action="store_true")
    parser.add_argument("--heads", action="store_true")
    given, started = parser.parse_args(), time.monotonic()
    if given.selftest:
        import hostile_selftest
        return hostile_selftest.main()
    program = os.path.abspath(given.program)
    if not os.path.exists(program):
        sys.exit(f"{given.program} is not there; build the program first: make vtl")
    if given.heads:
        return heads(program, given.jobs)
    if given.one is not None:
        return look_at(program, given.seed, given.one)
    base, kinds, answers, wrong = all_batches(program, given.seed, given.count, given.jobs)
    print("\n".join(wrong[:50]), end="\n" if wrong else "")
    print("\n".join(f"{name}: {times}" for name, times in [*sorted(kinds.items()), *sorted(answers.items())]))
    print(f"a new cartridge: {base:,} bytes of address space" if base else "single growths were limited alone")
    print(f"hostile: {given.count} files of seed {given.seed}, {len(wrong)} other than expected, "
          f"{time.monotonic() - started:.0f} seconds")
    return 1 if wrong or not given.count else 0


if __name__ == "__main__":
    sys.exit(main())
