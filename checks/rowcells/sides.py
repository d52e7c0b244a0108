"""The bytes of a file as docs/FORMATS.md says them: what a file holds, and why it is refused."""
import re

from .fields import TYPED
from .reservations import Reservations
from .work import MARK, MOST_OBJECTS, Cartridge

LEAST, MOST = 4_096, 1_099_511_627_776
BODY = 8_388_608
FRAME = 4_194_304
BLOCK = 1_048_576
BARCODE = re.compile(rb"([A-Z0-9]{1,16}) *")
STORE = re.compile(rb"(DRIVE(?:[1-9]|1[0-6])) *")


class Refused(Exception):
    """A file is refused: the line of `vtl check`, and why."""

    def __init__(self, line, why):
        super().__init__(why)
        self.line, self.why = line, why


class Side:
    """What a file holds: its kind, name and frames, and a Cartridge or the Reservations after a loss of power; of a
    cartridge's file whether its pair gate is open, and of a copy its epoch and base."""

    def __init__(self, kind, name, content, frames=0):
        self.kind, self.name, self.content, self.frames = kind, name, content, frames
        self.is_paired, self.is_copy, self.epoch, self.base = False, False, 0, 0

    def lines(self, frames):
        if self.kind == "store":
            left = self.content.copy()
            left.lose_power()
            return [f"reservations {self.name} frames {frames} registrations {len(left.keys)}"]
        parts = self.content.parts
        return [f"cartridge {self.name} partitions {len(parts)} frames {frames}"] + [
            f"partition {at} objects {len(objects)} used {objects.taken(len(objects))}"
            for at, objects in enumerate(parts)]


def none(why):
    return Refused("not a side", why)


def header(raw):
    """The side without its frames, and the place of the first gate."""
    if len(raw) < 27:
        raise none("shorter than a header" if raw else "empty")
    if raw[0] != 0xA5:
        raise none("the header's gate is closed" if not raw[0] else "the header's gate has another value")
    kind = {b"VTLCART1": "cartridge", b"VTLRESV1": "store"}.get(raw[1:9])
    if kind is None:
        raise none("another name of the format")
    count, name = raw[10], raw[11:27]
    if kind == "store":
        if raw[9]:
            raise none("a store's pair gate is not 00h")
        if count:
            raise none("a store of partitions")
        found = STORE.fullmatch(name)
        if not found:
            raise none("a store of another name")
        return Side(kind, found[1].decode(), Reservations()), 27
    return head(raw, count, name)


def head(raw, count, name):
    """The same of a cartridge's file."""
    is_copy, count = count >= 0x80, count & 0x7F
    if not 1 <= count <= 4:
        raise none(f"{count} partitions")
    found = BARCODE.fullmatch(name)
    if not found:
        raise none("a barcode that is none")
    if len(raw) < 27 + 8 * count:
        raise none("a capacity is missing")
    capacities = [int.from_bytes(raw[27 + 8 * at:35 + 8 * at], "big") for at in range(count)]
    for capacity in capacities:
        if not LEAST <= capacity <= MOST:
            raise none(f"a capacity of {capacity:,}")
    side, at = Side("cartridge", found[1].decode(), Cartridge(capacities)), 27 + 8 * count
    side.is_paired, side.is_copy = raw[9] == 0xA5, is_copy
    if is_copy:
        if len(raw) < at + 12:
            raise none("an epoch or a base is missing")
        side.epoch, side.base = (int.from_bytes(raw[at + it:at + end], "big") for it, end in ((0, 8), (8, 12)))
        at += 12
    return side, at


def begins(entry):
    """Whether a file begins with the ten bytes of a cartridge's side."""
    return isinstance(entry, Side) and entry.kind == "cartridge" or (
        isinstance(entry, bytes) and len(entry) >= 10 and entry[1:9] == b"VTLCART1")


def is_open(entry):
    return isinstance(entry, Side) or entry[0] == 0xA5


def is_paired(entry):
    return entry.is_paired if isinstance(entry, Side) else entry[9] == 0xA5


def headed(entry):
    """The header of an open file, as a Side."""
    return entry if isinstance(entry, Side) else header(entry)[0]


def counting(first, second):
    """Which of two files counts, 0 or 1, and why, as a cell; each is bytes, or a Side that a run left."""
    if not is_paired(first):
        if headed(first).is_copy:
            raise none("a copy behind a closed pair gate")
        return 0, "the pair gate is closed" if not second else "the pair gate is closed, beside a second file"
    if not begins(second):
        raise none("the pair gate is open, and the second file does not begin so")
    if is_paired(second):
        raise none("both pair gates are open")
    found = [(at, entry) for at, entry in enumerate((first, second)) if is_open(entry)]
    if not found:
        raise none("no gate is open")
    try:
        epochs = [(headed(entry).epoch, at) for at, entry in found]
    except Refused as why:
        raise none("an open file without a header") from why
    if len({epoch for epoch, _ in epochs}) < len(epochs):
        raise none("both are of one epoch")
    which = max(epochs)[1]
    why = "is of the greater epoch" if len(epochs) == 2 else "is open alone"
    return which, f"{('first', 'second')[which]} file {why}"


def bodies(raw, at):
    """Each frame's place and body."""
    found = []
    if at >= len(raw):
        raise Refused(f"damaged at {at}", "the first gate is missing")
    while raw[at] == 0xA5:
        size = int.from_bytes(raw[at + 1:at + 5], "big")
        why = "the length is missing" if len(raw) < at + 5 else "a length of 0" if not size else \
            "a length of 8,388,609" if size > BODY else "the body is missing" if len(raw) < at + 5 + size else \
            "the gate behind the body is missing" if len(raw) == at + 5 + size else None
        if why:
            raise Refused(f"damaged at {at}", why + (" of a later frame" if found else ""))
        found.append((at, raw[at + 5:at + 5 + size]))
        at += 5 + size
    if raw[at]:
        return found, ["a gate of another value ends the frames"]
    return found, ["what lies behind a closed gate counts for nothing"] if len(raw) > at + 1 else []


def changes(body, cartridge):
    """Carries out the changes of a body; what is wrong with it otherwise."""
    at = 0
    while at < len(body):
        if len(body) < at + 10:
            return "a change is cut short"
        kind, partition = body[at], body[at + 1]
        stay, number = (int.from_bytes(body[at + it:at + it + 4], "big") for it in (2, 6))
        at += 10
        if kind not in (1, 2, 3):
            return f"kind {kind:02X}h"
        if partition >= len(cartridge.parts):
            return "a partition that is not there"
        objects = cartridge.parts[partition]
        if stay > len(objects):
            return "more objects stay than there are"
        if kind == 3 and number:
            return "an erase of another number than 0"
        if kind == 1 and not 1 <= number <= BLOCK:
            return f"a block of {number:,} bytes"
        if kind == 2 and not 1 <= number <= MOST_OBJECTS:
            return f"{number:,} filemarks"
        if kind == 1 and len(body) < at + number:
            return "the bytes of a block are cut short"
        count, block = (0, MARK) if kind == 3 else (1, body[at:at + number]) if kind == 1 else (number, MARK)
        at += number if kind == 1 else 0
        if objects.taken(stay) + count * (16 + len(block or b"")) > cartridge.capacities[partition]:
            return "more than the capacity"
        if stay + count > MOST_OBJECTS:
            return "more than 16,000,000 objects"
        objects.write(stay, block, count)
    return None


def state(body):
    """The Reservations of a body, or what is wrong with it."""
    if len(body) < 4 or len(body) != 4 + 9 * body[3]:
        return "another length than its registrations take"
    aptpl, kind, holder, count = body[:4]
    if aptpl > 1:
        return "an APTPL above 1"
    if kind and kind not in TYPED:
        return f"type {kind:02X}h"
    if count > 64:
        return "65 registrations"
    found = Reservations()
    for at in range(4, len(body), 9):
        nexus, key = body[at], int.from_bytes(body[at + 1:at + 9], "big")
        if not 1 <= nexus <= 64:
            return f"nexus {nexus}"
        if nexus <= max(found.keys, default=0):
            return "a nexus twice" if nexus in found.keys else "nexuses that do not rise"
        if not key:
            return "a key of 0"
        found.keys[nexus] = key
    if kind in (0, 7, 8) and holder:
        return f"a holder under type {kind}"
    if kind in (7, 8) and not found.keys:
        return f"type {kind} without a registration"
    if kind in (1, 3, 5, 6) and holder not in found.keys:
        return "a holder that is not registered" if holder else "a type without a holder"
    found.type, found.holder, found.aptpl = kind, holder, aptpl
    return found


def read(raw):
    """The Side of these bytes, whatever its pair gate is, and what of them is worth a cell; Refused otherwise."""
    side, at = header(raw)
    found, notes = bodies(raw, at)
    if len(found) < side.base:
        place = found[-1][0] + 5 + len(found[-1][1]) if found else at
        raise Refused(f"damaged at {place}", "fewer frames than the base")
    for place, body in found:
        made = changes(body, side.content) if side.kind == "cartridge" else state(body)
        if isinstance(made, str):
            raise Refused(f"bad record at {place}", f"{side.kind}: {made}")
        if side.kind == "store":
            side.content = made
    side.frames = len(found)
    return side, notes


def read_pair(first, second):
    """The Side that counts of a cartridge's two files, or of a store's, what of them is worth a cell, and which of the
    two it is."""
    if not begins(first):
        return *(read(first) if isinstance(first, bytes) else (first, [])), 0
    which, why = counting(first, second)
    entry = (first, second)[which]
    side, notes = (entry, []) if isinstance(entry, Side) else read(entry)
    return side, [*notes, why], which


def copied(side):
    """The bytes of a copy, in a file whose pair gate is closed."""
    records = []
    for part, tape in enumerate(side.content.parts):
        at = 0
        while at < len(tape):
            end = at + 1
            while tape[at] is MARK and end < len(tape) and tape[end] is MARK:
                end = tape.run(end)[1]
            head = bytes([1 if tape[at] is not MARK else 2, part]) + at.to_bytes(4, "big")
            block = tape[at] or b""
            records.append(head + (len(block) or end - at).to_bytes(4, "big") + block)
            at = end
    frames = []
    for record in records:
        if not frames or len(frames[-1]) + len(record) > FRAME:
            frames.append(b"")
        frames[-1] += record
    capacities = side.content.capacities
    head = b"\xa5VTLCART1\0" + bytes([0x80 + len(capacities)]) + side.name.encode().ljust(16)
    head += b"".join(it.to_bytes(8, "big") for it in capacities) + (side.epoch + 1).to_bytes(8, "big")
    head += len(frames).to_bytes(4, "big")
    return head + b"".join(b"\xa5" + len(it).to_bytes(4, "big") + it for it in frames) + b"\0"
