"""Files as a loss of power may leave them, by the calls that were noted (faults.c)."""
import collections

from cartridge_files import content

Call = collections.namedtuple("Call", "letter name place bytes")
# between the calls of two processes
OPENED = Call("O", "", 0, b"")
FILLS = [b"\x00", b"\xa5", b"\xff"]


def noted(path):
    """The calls that were noted: those that did something to a file of the library, to its folder, or to standard
    output, and the syncs that failed."""
    text, at, calls = content(path), 0, []
    while at < len(text):
        end = text.index(b"\n", at)
        letter, name, place, count = text[at:end].decode().split()
        calls.append(Call(letter, name, int(place), text[end + 1:end + 1 + int(count)]))
        at = end + 1 + int(count)
    return calls


class Disk:
    """A file, as a loss of power may leave it: what is safe, and the calls since. Where a sync failed, later ones may
    pass over the bytes that were written before it, until they are written again: these by their places, with what is
    safe there."""

    # that so many bytes of one write stay which an opening writes over the same ones is a premise of its own
    stays = 1

    def __init__(self, safe):
        self.safe, self.calls, self.passed, self.again, self.is_opened = safe, [], {}, set(), False

    def seen(self):
        image = bytearray(self.safe)
        for call in self.calls:
            if call.letter == "T":
                del image[call.place:]
            else:
                image[call.place:call.place + len(call.bytes)] = call.bytes
        return bytes(image)

    def places(self, call):
        return range(call.place, call.place + len(call.bytes))

    def do(self, call):
        if call.letter == "W":
            self.again.update(self.places(call))
        if call.letter == "T":
            self.passed = {place: old for place, old in self.passed.items() if place < call.place}
        if call.letter == "F":
            # of a place that was in doubt before, what is safe stays what it was
            doubt = {place: (self.safe[place:place + 1] or b"\0")[0] for it in self.calls if it.letter == "W"
                     for place in self.places(it)}
            self.passed, self.again = {**doubt, **self.passed}, set()
        elif call.letter == "S":
            self.passed = {place: old for place, old in self.passed.items() if place not in self.again}
            self.safe, self.calls, self.again, self.is_opened = self.seen(), [], set(), True
        elif call.letter == "T" or self.is_opened or len(call.bytes) > self.stays or (
                self.seen()[call.place:call.place + len(call.bytes)] != call.bytes):
            self.calls.append(call)

    def image(self, chance):
        """One of the images; in each the bytes that syncs pass over are as they were written, or older, or any."""
        image, way = bytearray(self.image_of_calls(chance)), chance.randrange(4)
        for place, old in self.passed.items() if way else ():
            if place < len(image) and (way == 1 or chance.random() < 0.5):
                image[place] = chance.randrange(256) if way == 3 else old
        return bytes(image)

    def image_of_calls(self, chance):
        """One of those that the calls leave: all of them, none, or each in its own way."""
        whole = chance.random()
        if whole < 0.1 or not self.calls:
            return self.seen()
        if whole < 0.2:
            return self.safe
        image = bytearray(self.safe)
        for call in self.calls:
            image = smeared(chance, image, call)
        return bytes(image)


def some(chance, count):
    way = chance.randrange(5)
    return FILLS[way] * count if way < 3 else chance.randbytes(count)


def smeared(chance, old, call):
    """What the call may have made of these bytes."""
    if call.letter == "T":
        return old[:call.place] + chance.choice([b"", old[call.place:], some(chance, chance.randrange(40))])
    at, end = min(call.place, len(old)), min(call.place + len(call.bytes), len(old))
    stood, wanted = bytes(old[at:end]), bytes(call.bytes)[:end - at]
    landed = chance.randint(0, len(wanted))
    within = chance.choice([stood, wanted, wanted[:landed] + stood[landed:],
                            wanted[:landed] + some(chance, len(wanted) - landed), some(chance, len(wanted))])
    beyond = bytes(call.bytes)[end - at:]
    landed = chance.randint(0, len(beyond))
    tail = chance.choice([b"", beyond, beyond[:landed], beyond[:landed] + some(chance, len(beyond) - landed),
                          beyond + some(chance, chance.randrange(40)), some(chance, chance.randrange(40))])
    if end != len(old):
        tail = chance.choice([b"", some(chance, chance.randrange(40))])
    return old[:at] + within + old[end:] + tail


class World:
    """The files of a library, their folder, and what was written to standard output."""

    def __init__(self, sides, is_sync_forgotten, unnamed=()):
        self.disks = {file: Disk(side) for file, side in sides.items() if side is not None}
        # files whose names are safe; not those of files that a killed process had just made
        self.named, self.out, self.forgets = set(self.disks).difference(unnamed), "", is_sync_forgotten

    def do(self, call):
        if call.letter == "A":
            self.out += call.bytes.decode("latin-1")
        elif call.letter == "O":
            for disk in self.disks.values():
                disk.is_opened = False
        elif call.letter == "C":
            self.disks.setdefault(call.name, Disk(b""))
        elif call.name in self.disks:
            if call.letter != "S" or not self.forgets():
                self.disks[call.name].do(call)
        elif call.letter == "S":
            self.named = set(self.disks)

    def images(self, chance):
        return {file: disk.image(chance) for file, disk in self.disks.items()
                if file in self.named or chance.random() < 0.5}
