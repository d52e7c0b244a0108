#!/usr/bin/env python3
"""Reads the files of a virtual tape library without its program: cartridges, and stores of reservations. It is written
from docs/FORMATS.md alone, needs Python 3.11 and nothing else, and opens these files for reading alone.

  list FILE     what the two files are, the partitions and their objects; what a store has saved
  check FILE    the lines of `vtl check FILE --data`, and on standard error what is wrong there
  extract FILE [--partition P] [--from A] [--to B] [--into FOLDER]
                the blocks as one stream, or as files: file-000003-00000012 is behind 3 filemarks, from object 12 on

FILE is the first file, FILE.2 the second one. A reading ends at the first damage. --past reads on: frames behind a bad
one, a lost length or a closed gate, found by their form, and what is missing is said. That is a guess: a change that is
lost may have been an ERASE or a WRITE over old blocks, what stands behind a closed gate may never have been
acknowledged, a block with a cartridge's file in it looks like frames. --side 1 or 2 reads that file as if it counted,
whatever its gate, mark, name and capacities say. Where a disk gives errors, copy it first (ddrescue).
Status: 0 whole and all there, 1 not whole or something asked for is missing, 2 a file cannot be read or written."""
import argparse
import array
import collections
import fcntl
import functools
import itertools
import os
import re
import struct
import sys

CARTRIDGE, STORE, OPEN, BLOCK, MARKS, ERASE = b"VTLCART1", b"VTLRESV1", b"\xa5", 1, 2, 3
NUMBERS = {BLOCK: range(1, 1_048_577), MARKS: range(1, 16_000_001), ERASE: range(1)}
CAPACITIES, LENGTHS, MOST_OBJECTS, OVERHEAD = range(4096, (1 << 40) + 1), range(1, 8_388_609), 16_000_000, 16
SCANNED, CHANGE, LIKE_A_FRAME = 1 << 20, struct.Struct(">BBII"), re.compile(rb"\xa5(?=\x00[\x00-\x80])")
AT_MARKS, AT_GAP, AT_BLOCK = 0, 1, 2  # in the place of a block's place, which is greater
say = functools.partial(print, file=sys.stderr)


class File:
    """A file that is open for reading alone. One that may be missing has no byte then."""

    def __init__(self, path, may_lack):
        self.path, self.opened, self.size = path, None, 0
        if may_lack and not os.path.lexists(path):
            return
        if not os.path.isfile(path):
            raise OSError(f"{path} is missing, or no regular file")
        self.opened, self.size = open(path, "rb", 8192), os.path.getsize(path)
        try:
            fcntl.flock(self.opened, fcntl.LOCK_SH | fcntl.LOCK_NB)
        except BlockingIOError:
            raise OSError(f"{path} is in use") from None
        except OSError:
            pass  # a file system without locks

    def at(self, place, count):
        """These bytes, fewer where the file ends."""
        if place >= self.size:
            return b""
        self.opened.seek(place)
        return self.opened.read(count)


# layout: 1, or 2 with epoch and base; head: how many bytes of a change stand before its block
Header = collections.namedtuple("Header", "is_store name capacities layout epoch base first_gate head")


def header_of(file, as_it_is):
    """The header of a file, None where it has none. As it is: whatever its gate, mark, name and capacities say."""
    start = file.at(0, 27)
    layout, count = ({0x00: 1, 0x80: 2}.get(start[10] & 0xF0), start[10] & 0x0F) if len(start) == 27 else (None, 0)
    size = 8 * count + (12 if layout == 2 else 0)
    fields, mark, name = file.at(27, size), start[1:9], start[11:].rstrip(b" ")
    capacities = [int.from_bytes(fields[at:at + 8]) for at in range(0, 8 * count, 8)]
    is_store, good = mark == STORE, mark == CARTRIDGE and count and re.fullmatch(rb"[A-Z0-9]{1,16}", name)
    if is_store or as_it_is and start[10:11] == b"\0":
        is_store, good = True, start[9:11] == b"\0\0" and re.fullmatch(rb"DRIVE([1-9]|1[0-6])", name)
    if layout is None or count > 4 or len(fields) < size or not as_it_is and not (
            start[:1] == OPEN and good and all(each in CAPACITIES for each in capacities)):
        return None
    epoch, base = struct.unpack(">QI", fields[-12:]) if layout == 2 else (0, 0)
    name = re.sub(rb"[^A-Z0-9]", b"?", name).decode()
    return Header(is_store, name, capacities, layout, epoch, base, 27 + size, CHANGE.size)


def counting(files, headers):
    """Which file counts, 0 or 1; None where neither does."""
    first, second = starts = [file.at(0, 10) for file in files]
    if headers[0] and (headers[0].is_store or first[9:] != OPEN):
        return 0 if headers[0].layout == 1 else None
    opened = [which for which in (0, 1) if starts[which][:1] == OPEN]
    epochs = [headers[which].epoch if headers[which] else None for which in opened]
    if (first[1:], second[1:9]) != (CARTRIDGE + OPEN, CARTRIDGE) or second[9:] in (b"", OPEN):
        return None
    return None if not opened or None in epochs or epochs[0] in epochs[1:] else opened[epochs.index(max(epochs))]


def state_of(body):
    """APTPL, type, holder and the hosts' keys of a state of reservations, None where the body spells none."""
    (aptpl, kind, holder, count), hosts = body[:4].ljust(4, b"\0"), list(body[4::9])
    keys = {host: int.from_bytes(body[9 * at + 5:9 * at + 13]) for at, host in enumerate(hosts)}
    holders = {0: [0], 7: [0] if hosts else [], 8: [0] if hosts else []}.get(kind, hosts)
    good = hosts == sorted(keys) and all(keys.values()) and all(host in range(1, 65) for host in hosts)
    good = good and aptpl < 2 and kind in (0, 1, 3, 5, 6, 7, 8) and holder in holders
    return (aptpl, kind, holder, keys) if good and len(body) == 4 + 9 * count else None


class Partition:
    """The objects of a partition, by runs: a block, filemarks, or what is missing. Of each three numbers are kept."""

    def __init__(self, capacity):
        self.capacity, self.used, self.count = capacity, 0, 0
        self.firsts, self.places, self.numbers = self.columns = [array.array("Q") for _ in range(3)]

    def size(self, place, number):
        return OVERHEAD + number if place >= AT_BLOCK else OVERHEAD * number if place == AT_MARKS else 0

    def add(self, place, number):
        for column, value in zip(self.columns, (self.count, place, number)):
            column.append(value)
        self.count += number if place < AT_BLOCK else 1
        self.used += self.size(place, number)

    def carry_out(self, kind, stay, number, place, past):
        """Carries a change out, or says why it does not apply. Past a damage all do: what is not there is missing."""
        if stay > self.count and not past:
            return f"{stay} of {self.count} objects are to stay"
        if stay > self.count:
            self.add(AT_GAP, stay - self.count)
        while self.count > stay:
            self.count, old, its = (column.pop() for column in self.columns)
            self.used -= self.size(old, its)
            if self.count < stay:
                self.add(old, stay - self.count)
        if kind != ERASE:
            self.add(place if kind == BLOCK else AT_MARKS, number)
        return None if past or self.used <= self.capacity and self.count <= MOST_OBJECTS else "it has no room"


class Side:
    """What a file holds: its frames up to the end or the first damage, and the volume or the state that they give."""

    def __init__(self, file, header, until=None, reads_blocks=False):
        self.file, self.header, self.reads_blocks, self.frames, self.state = file, header, reads_blocks, 0, None
        self.partitions = [Partition(capacity) for capacity in header.capacities]
        self.damage = self.bad = self.why = self.end = None
        place = header.first_gate
        while place != until and not self.damage and not self.end:
            gate, behind = self.frame(place)
            if gate == OPEN and behind:
                why = not self.bad and self.take(place + 5, behind)[1]
                self.bad, self.why = (place, why) if why else (self.bad, self.why)
                self.frames, place = self.frames + 1, behind
            elif gate in (b"", OPEN) or self.frames < header.base:
                self.damage, self.why = place, f"at {place} a gate or a whole frame is missing"
            else:
                self.end = place

    def frame(self, place):
        """The gate that stands there, and the place of the one behind its frame, None where that is not whole."""
        start = self.file.at(place, 5)
        length = int.from_bytes(start[1:]) if len(start) == 5 else 0
        return start[:1], place + 5 + length if length in LENGTHS and place + 5 + length < self.file.size else None

    def take(self, place, end, past=False, only_look=False):
        """Carries a body out: the place where that ends, and what is wrong there, if anything is."""
        if self.header.is_store:
            state = state_of(self.file.at(place, min(end - place, 1024)))
            self.state = state if state and not only_look else self.state
            return (end, None) if state else (place, f"at {place} no state is spelled")
        while place < end:
            block = place + self.header.head
            kind, partition, stay, number = CHANGE.unpack(self.file.at(place, CHANGE.size).ljust(CHANGE.size, b"\0"))
            behind = block + number if kind == BLOCK else block
            if behind > end or number not in NUMBERS.get(kind, ()) or partition >= len(self.partitions):
                return place, f"at {place} kind {kind}, partition {partition}, number {number} are no change"
            if self.reads_blocks and kind == BLOCK:
                self.file.at(block, number)
            why = None if only_look else self.partitions[partition].carry_out(kind, stay, number, block, past)
            if why:
                return place, f"at {place} a change of partition {partition} does not apply: {why}"
            place = behind
        return place, None

    def is_frame(self, place):
        behind = self.frame(place)[1]
        return behind is not None and self.take(place + 5, behind, only_look=True)[1] is None

    def next_frame(self, place):
        """The place of the next open gate with a frame that spells something; the file's end where there is none."""
        for start in range(place, self.file.size, SCANNED):
            for found in LIKE_A_FRAME.finditer(self.file.at(start, SCANNED + 2)):
                if self.is_frame(start + found.start()):
                    return start + found.start()
        return self.file.size

    def go_past(self, place):
        """Reads on from a gate at which a reading ends."""
        while place + 1 < self.file.size:
            gate, behind = self.frame(place)
            if gate != OPEN:
                say(f"the gate at {place} is closed, and {self.file.size - place - 1} bytes stand behind it")
            is_whole = behind and (self.is_frame(place) or behind + 1 == self.file.size or self.is_frame(behind))
            stopped, _ = self.take(place + 5, behind if is_whole else self.file.size, past=True)
            place = behind if is_whole else self.next_frame(max(stopped, place + 1))
            if stopped < place:
                say(f"bytes {stopped} to {place - 1} spell nothing")

    def lines(self):
        """The lines of `check`."""
        if self.damage or self.bad:
            return [f"damaged at {self.damage}" if self.damage else f"bad record at {self.bad}"]
        if self.header.is_store:
            left = len(self.state[3]) if self.state and self.state[0] else 0
            return [f"reservations {self.header.name} frames {self.frames} registrations {left}"]
        return [f"cartridge {self.header.name} partitions {len(self.partitions)} frames {self.frames}"] + [
            f"partition {number} objects {part.count} used {part.used}" for number, part in enumerate(self.partitions)]


def list_side(side):
    """The objects of each partition, what stands between two filemarks on one line; or the state that is saved."""
    print(f"frames from {side.header.first_gate} to {side.end or side.damage or 'a bad one'}")
    if side.header.is_store:
        aptpl, kind, holder, keys = side.state or (0, 0, 0, {})
        print(f"APTPL {aptpl}, reservation of type {kind}, holder {holder}")
        print("".join(f"  host {host}: key {key:016x}\n" for host, key in keys.items()), end="")
    for number, part in enumerate(side.partitions):
        print(f"partition {number} objects {part.count} used {part.used} of {part.capacity}")
        for kind, group in itertools.groupby(range(len(part.places)), lambda at: min(part.places[at], AT_BLOCK)):
            start = next(group)
            end = max(group, default=start)
            last, of = (*part.firsts[end + 1:end + 2], part.count)[0] - 1, part.numbers[start:end + 1]
            what = {AT_MARKS: "filemarks", AT_GAP: "missing"}.get(kind, "blocks")
            of = f" of {min(of)}{f' to {max(of)}' * (min(of) < max(of))} bytes, {sum(of)} in all" * (kind == AT_BLOCK)
            print(f"  objects {part.firsts[start]} to {last}: {what} {last - part.firsts[start] + 1}{of}")


def extract(side, given):
    """Writes the blocks of a range of objects. Whether all that was asked for is there."""
    part = dict(enumerate(side.partitions)).get(given.partition, Partition(0))
    last, file, marks, blocks, size = part.count - 1 if given.to is None else given.to, None, 0, 0, 0
    is_all = last < part.count and given.start <= part.count
    for first, place, number in zip(*part.columns):
        behind = first + (number if place < AT_BLOCK else 1)
        if place == AT_MARKS:
            marks, file = marks + number, file and file.close()
        elif place == AT_GAP and behind > given.start and first <= last:
            file, is_all = file and file.close(), False
            say(f"objects {max(first, given.start)} to {min(behind - 1, last)} are missing")
        elif given.start <= first <= last:
            if given.into and not file:
                file = open(os.path.join(given.into, f"file-{marks:06}-{first:08}"), "xb")
            (file or sys.stdout.buffer).write(side.file.at(place, number))
            blocks, size = blocks + 1, size + number
    (file or sys.stdout.buffer).flush()
    say(f"{blocks} blocks, {size} bytes; {part.count} objects of partition {given.partition} were found")
    return is_all and given.partition in range(len(side.partitions))


def work(given):
    files = [File(given.file, given.side == 2), File(given.file + ".2", given.side != 2)]
    headers = [header_of(file, bool(given.side)) for file in files]
    which, tell = given.side - 1 if given.side else counting(files, headers), say if given.order == "extract" else print
    for number, (file, its) in enumerate(zip(files, headers) if given.order == "list" else ()):
        gates = " ".join(f"{byte:02x}" for byte in file.at(0, 10)[::9]) if file.opened else "missing"
        what = its and f"layout {its.layout} of {its.name}, epoch {its.epoch}, base {its.base}" or "no header"
        counts = ", counts" * (which == number and not given.side)
        print(f"{file.path}: bytes {file.size}, gates {gates}, {what}{counts}")
    if which is None or headers[which] is None:
        tell("not a side")
        return 1
    side = Side(files[which], headers[which], reads_blocks=given.order == "check")
    tell("\n".join(side.lines()[:None if given.order == "check" else 1]))
    if side.why:
        say(side.why)
    elif side.frame(side.frame(side.end)[1] or files[which].size)[0] == OPEN:
        say(f"frames behind the end at {side.end}")
    before = Side(files[which], headers[which], until=side.bad) if side.bad else side
    if given.past:
        before.go_past(side.bad or side.damage or side.end)
    if given.order == "list":
        list_side(before)
    is_all = given.order != "extract" or extract(before, given)
    return 0 if is_all and not side.why else 1


def main():
    parser = argparse.ArgumentParser(description=__doc__, formatter_class=argparse.RawDescriptionHelpFormatter)
    parser.add_argument("order", choices=("list", "check", "extract"))
    parser.add_argument("file", metavar="FILE")
    parser.add_argument("--past", action="store_true")
    parser.add_argument("--side", type=int, choices=(1, 2))
    for name, known_as, default in (("--partition", "partition", 0), ("--from", "start", 0), ("--to", "to", None)):
        parser.add_argument(name, type=int, dest=known_as, default=default)
    parser.add_argument("--into")
    try:
        return work(parser.parse_args())
    except OSError as error:
        say(f"cartridge.py: {error}")
        return 2


if __name__ == "__main__":
    sys.exit(main())
