"""Files for hostile.py, each made from a seed and its number: whole sides, sides with damage, and bytes that are
none."""
import random

from plain_sides import (CARTRIDGE, DRIVES, LETTERS, LONGEST_BLOCK, LONGEST_BODY, MOST_OBJECTS, OPEN, STORE, Partition,
                         applies)

GATES = (0x00, 0x01, 0x5A, 0xA4, OPEN, 0xFF)
# numbers at borders, of four bytes and of one
NUMBERS = (0, 1, 2, 4, 5, 255, 256, LONGEST_BLOCK, LONGEST_BLOCK + 1, LONGEST_BODY, LONGEST_BODY + 1, MOST_OBJECTS - 1,
           MOST_OBJECTS, MOST_OBJECTS + 1, 2 ** 31 - 1, 2 ** 31, 2 ** 32 - 1)
BYTES = (0, 1, 2, 3, 4, 5, 6, 7, 8, 9, 0x40, 0x41, 0x7F, 0x80, 0xA4, OPEN, 0xA6, 0xFE, 0xFF)
TYPES = (1, 3, 5, 6, 7, 8)


def spelled(kind, part, kept, value, block=b""):
    return bytes([kind, part]) + kept.to_bytes(4, "big") + value.to_bytes(4, "big") + block


class Side:
    """A header and the bodies of frames behind it."""

    def __init__(self, head, bodies):
        self.head, self.bodies = head, bodies

    def gates(self):
        """The places of the gates, the last one's too."""
        places = [len(self.head)]
        for body in self.bodies:
            places.append(places[-1] + 5 + len(body))
        return places

    def bytes(self):
        whole = [bytes([OPEN]) + len(body).to_bytes(4, "big") + body for body in self.bodies]
        return self.head + b"".join(whole) + b"\0"


class Maker:
    """Makes one file."""

    def __init__(self, seed, at):
        self.chance = random.Random(f"{seed}/{at}")

    def many(self, most):
        """A small number, now and then a greater one."""
        return self.chance.randint(0, self.chance.choice((1, 4, 16, most)))

    def any_bytes(self, most):
        return self.chance.randbytes(self.many(most))

    def value(self):
        """A number of four bytes: small, at a border, or any."""
        return self.chance.choice((self.chance.randint(0, 9), self.chance.choice(NUMBERS),
                                   self.chance.getrandbits(32)))

    # whole sides

    def cartridge_head(self, capacities):
        name = bytes(self.chance.choices(LETTERS, k=self.chance.randint(1, 16)))
        return (bytes([OPEN]) + CARTRIDGE + bytes([0, len(capacities)]) + name.ljust(16)
                + b"".join(capacity.to_bytes(8, "big") for capacity in capacities))

    def store_head(self):
        return bytes([OPEN]) + STORE + bytes(2) + self.chance.choice(DRIVES).ljust(16)

    def good_change(self, partitions):
        """The bytes of a change that applies, which is carried out; it may be one that puts nothing."""
        part = self.chance.randrange(len(partitions))
        volume = partitions[part]
        kept = self.chance.choice((volume.count, self.chance.randint(0, volume.count)))
        kind, value, block = self.chance.choice((1, 1, 2, 3)), 0, b""
        if kind == 1:
            block = self.chance.randbytes(self.chance.choice((1, 2, 5, self.chance.randint(1, 1_000))))
            value = len(block)
        elif kind == 2:
            value = self.chance.choice((1, 2, self.chance.randint(1, 300), self.chance.randint(1, MOST_OBJECTS)))
        found = spelled(kind, part, kept, value, block)
        if applies(partitions, found):
            return found
        applies(partitions, spelled(3, part, kept, 0))
        return spelled(3, part, kept, 0)

    def cartridge(self):
        most = 1_099_511_627_776
        capacities = [self.chance.choice((4_096, 4_111, 65_536, 16_777_216, most, self.chance.randint(4_096, most)))
                      for _ in range(self.chance.choice((1, 1, 2, 3, 4)))]
        partitions = [Partition(capacity) for capacity in capacities]
        bodies = [b"".join(self.good_change(partitions) for _ in range(self.chance.choice((1, 1, 2, 5))))
                  for _ in range(self.many(24))]
        return Side(self.cartridge_head(capacities), bodies)

    def good_state(self):
        hosts = sorted(self.chance.sample(range(1, 65), self.many(64)))
        kind = self.chance.choice((0,) + TYPES) if hosts else 0
        holder = self.chance.choice(hosts) if kind in (1, 3, 5, 6) else 0
        keys = [max(1, self.chance.getrandbits(self.chance.choice((1, 8, 64)))) for _ in hosts]
        return bytes([self.chance.randint(0, 1), kind, holder, len(hosts)]) + b"".join(
            bytes([host]) + key.to_bytes(8, "big") for host, key in zip(hosts, keys))

    def store(self):
        return Side(self.store_head(), [self.good_state() for _ in range(self.many(20))])

    def side(self):
        return self.chance.choice((self.cartridge, self.cartridge, self.store))()

    # kinds of files

    def whole(self):
        return self.side().bytes() + self.chance.choice((b"", self.any_bytes(60)))

    def random_bytes(self):
        return self.any_bytes(4_000)

    def random_behind_a_header(self):
        return self.side().head + self.chance.choice((b"", bytes([OPEN]))) + self.any_bytes(400)

    def random_bodies(self):
        """Whole frames whose bodies are any bytes."""
        side = self.side()
        side.bodies.insert(self.many(len(side.bodies)), self.chance.randbytes(self.chance.randint(1, 80)))
        return side.bytes()

    def change_by_chance(self):
        block = self.any_bytes(12)
        kind = self.chance.choice((1, 2, 3, self.chance.choice(BYTES)))
        value = self.chance.choice((len(block), 0, self.value()))
        return spelled(kind, self.chance.choice((0, 0, 1, self.chance.choice(BYTES))),
                       self.chance.choice((0, self.chance.randint(0, 6), self.value())), value, block)

    def changes_by_chance(self):
        """A frame whose body spells changes with fields of any numbers: some spell none, some do not apply."""
        side = self.cartridge()
        body = b"".join(self.change_by_chance() for _ in range(self.chance.choice((1, 1, 2))))
        side.bodies.insert(self.many(len(side.bodies)), body)
        return side.bytes()

    def changes_at_a_border(self):
        """Filemarks and blocks that take a partition up to its end, or past it by a little."""
        capacity = self.chance.choice((4_096, 4_111, 256_000_016, 256_000_000, 255_999_999))
        count = min(capacity // 16 + self.chance.randint(-2, 2), 2 ** 32 - 1)
        head, size = self.cartridge_head([capacity]), self.chance.randint(1, 40)
        bodies = [spelled(2, 0, 0, max(1, count)), spelled(1, 0, max(0, count - self.many(3)), size, bytes(size))]
        if self.chance.random() < 0.5:
            bodies = [spelled(1, 0, 0, size, bytes(size)), spelled(2, 0, 1, max(1, count - (size + 15) // 16))]
        return Side(head, [b"".join(bodies)] if self.chance.random() < 0.5 else bodies).bytes()

    def state_by_chance(self):
        """A store with one state of which a field is any number, or hosts are not in order."""
        side = self.store()
        state = bytearray(self.good_state())
        for _ in range(self.chance.choice((1, 1, 2))):
            at = self.chance.choice((0, 1, 2, 3, self.chance.randrange(len(state))))
            state[at] = self.chance.choice((self.chance.choice(BYTES), self.chance.randint(0, 66)))
        tail = self.chance.choice((b"", b"", bytes(1), bytes([9]) + bytes(7) + b"\1"))
        side.bodies.insert(self.many(len(side.bodies)), bytes(state) + tail)
        return side.bytes()

    def bytes_changed(self):
        data = bytearray(self.side().bytes())
        for _ in range(self.chance.choice((1, 1, 1, 2, 8))):
            at = self.chance.choice((self.chance.randrange(len(data)), self.chance.randrange(min(len(data), 60))))
            data[at] = self.chance.choice((self.chance.choice(BYTES), self.chance.randint(0, 255),
                                           data[at] ^ 1 << self.chance.randint(0, 7)))
        return bytes(data)

    def header_changed(self):
        data = bytearray(self.side().bytes())
        at = self.chance.randrange(min(len(data), 36))
        data[at] = self.chance.choice((self.chance.choice(BYTES), self.chance.choice(LETTERS), 0x20))
        return bytes(data)

    def cut(self):
        data = self.side().bytes()
        return data[:self.chance.randint(0, len(data))]

    def moved(self):
        """Bytes are put in, or taken out."""
        data = self.side().bytes()
        at = self.chance.randint(0, len(data))
        return data[:at] + self.any_bytes(20) + data[at + self.many(20):]

    def lengths_changed(self):
        """The length of a frame is another one."""
        side = self.side()
        data, gates = bytearray(side.bytes()), side.gates()
        at = self.chance.choice(gates)
        size = self.chance.choice((self.value(), self.chance.randint(1, 60), len(data) - at - 6, len(data) - at - 5))
        data[at] = OPEN
        data[at + 1:at + 5] = max(size, 0).to_bytes(4, "big")
        return bytes(data)

    def gates_changed(self):
        side = self.side()
        data = bytearray(side.bytes())
        for _ in range(self.chance.choice((1, 2))):
            data[self.chance.choice(side.gates())] = self.chance.choice(GATES)
        return bytes(data)

    def frames_moved(self):
        """Frames are exchanged, given twice or left out: their changes then may not apply."""
        side = self.side()
        if side.bodies:
            at, other = self.chance.randrange(len(side.bodies)), self.chance.randrange(len(side.bodies))
            way = self.chance.randint(0, 2)
            if way == 0:
                side.bodies[at], side.bodies[other] = side.bodies[other], side.bodies[at]
            elif way == 1:
                side.bodies.insert(at, side.bodies[other])
            else:
                del side.bodies[at]
        return side.bytes()

    def spliced(self):
        """The beginning of one side, and the end of another."""
        one, other = self.side(), self.side()
        head, tail = one.bytes()[:self.chance.choice(one.gates())], other.bytes()[self.chance.choice(other.gates()):]
        return head + tail

    def long(self):
        """A frame of a body as long as may be, or nearly, or a byte longer; whole or cut."""
        size = LONGEST_BODY - self.chance.choice((0, 1, 2, -1, self.chance.randint(0, 8_000_000)))
        left, records = size, []
        while left > 11:
            block = min(LONGEST_BLOCK, left - 10)
            records.append(spelled(1, 0, len(records), block, bytes(block)))
            left -= 10 + block
        body = b"".join(records) + bytes(left)
        data = Side(self.cartridge_head([1_099_511_627_776]), [body, spelled(2, 0, 0, 1)]).bytes()
        return data[:self.chance.choice((len(data), len(data), self.chance.randint(40, len(data))))]


KINDS = (Maker.whole, Maker.random_bytes, Maker.random_behind_a_header, Maker.random_bodies, Maker.changes_by_chance,
         Maker.changes_at_a_border, Maker.state_by_chance, Maker.bytes_changed, Maker.header_changed, Maker.cut,
         Maker.moved, Maker.lengths_changed, Maker.gates_changed, Maker.frames_moved, Maker.spliced)
# one file in so many is long
LONG = 2_000


def kind_of(at):
    """What makes the file of that number."""
    return Maker.long if at % LONG == LONG - 1 else KINDS[at % len(KINDS)]


def made(seed, at):
    """The kind and the bytes of the file of that number."""
    kind = kind_of(at)
    return kind.__name__.replace("_", " "), kind(Maker(seed, at))
