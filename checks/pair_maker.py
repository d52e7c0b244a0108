"""Pairs of files for hostile.py, each made from a seed and its number: whole pairs, pairs that a reclaim left where it
was stopped, and pairs of which one file is missing, cut, of another cartridge, of an older epoch, or any bytes."""
from plain_sides import CARTRIDGE, OPEN
from side_maker import GATES, Maker, Side

PREPARED = b"\0" + CARTRIDGE + b"\0"
# epochs and bases at borders
EPOCHS = (0, 1, 2, 255, 256, 2 ** 63, 2 ** 64 - 1)
BASES = (0, 1, 2, 255, 256, 2 ** 31, 2 ** 32 - 1)
BYTES = (0, 1, 4, 5, 0x80, 0x81, 0x84, 0x85, OPEN, 0xFF)


def with_byte(data, place, value):
    return data[:place] + bytes([value]) + data[place + 1:] if place < len(data) else data


class PairMaker(Maker):
    """Makes the two files of one cartridge; the second one may be missing, which is None."""

    def side_of(self, epoch):
        """A side of that epoch, with some frames, of which a copy's base has some; its pair gate is closed."""
        side = self.cartridge()
        if epoch:
            base = self.chance.choice((len(side.bodies), self.chance.randint(0, len(side.bodies))))
            head = bytearray(side.head)
            head[10] += 0x80
            side = Side(bytes(head) + epoch.to_bytes(8, "big") + base.to_bytes(4, "big"), side.bodies)
        return side

    def sides(self):
        """A cartridge that was reclaimed some times: the sides on its two files, the second may be None, and which
        counts."""
        epoch = self.chance.choice((0, 0, 1, 1, 2, 3, self.chance.randint(1, 2 ** 64 - 1)))
        if epoch == 0:
            return [self.side_of(0), None], 0
        # the epochs on the first file are even
        sides = [self.side_of(epoch - epoch % 2), self.side_of(epoch - 1 + epoch % 2)]
        sides[0].head = with_byte(sides[0].head, 9, OPEN)
        return sides, epoch % 2

    def files(self):
        """The bytes of both, and which counts; of a cartridge that was never reclaimed the second is any of those that
        may stand there."""
        sides, which = self.sides()
        second = sides[1].bytes() if sides[1] else self.chance.choice((None, None, b"", PREPARED))
        return [sides[0].bytes(), second], which

    def spare_of(self, which):
        return self.chance.choice((0, 1, 1 - which))

    # kinds of pairs

    def whole_pair(self):
        files, _ = self.files()
        return [file and file + self.chance.choice((b"", self.any_bytes(60))) for file in files]

    def stopped_reclaim(self):
        """A reclaim was stopped: in its first passes where nothing was reclaimed yet, or in the writing of a copy."""
        sides, which = self.sides()
        epoch = int.from_bytes(sides[which].head[-12:-4], "big") if sides[which].head[10] >= 0x80 else 0
        copy = with_byte(self.side_of((epoch + 1) % 2 ** 64).bytes(), 0, 0)
        if sides[1] is None:
            first = with_byte(sides[0].bytes(), 9, self.chance.choice((0, OPEN, *GATES)))
            cut = self.chance.choice((b"", PREPARED[:self.chance.randint(0, 10)], PREPARED))
            return [first, self.chance.choice((cut, copy, copy[:self.chance.randint(10, len(copy))]))]
        spare = self.chance.choice((sides[1 - which].bytes(), copy, copy, with_byte(copy, 0, OPEN)))
        spare = with_byte(spare, 0, self.chance.choice((spare[0], *GATES)))
        if self.chance.random() < 0.5:
            spare = spare[:self.chance.choice((10, self.chance.randint(10, len(spare))))]
        if self.chance.random() < 0.2:
            spare += self.any_bytes(200)
        counts = sides[which].bytes()
        # the pair gate stays open, whichever file is written
        return [with_byte(spare, 9, OPEN), counts] if which else [counts, with_byte(spare, 9, 0)]

    def missing_second(self):
        files, _ = self.files()
        return [files[0], self.chance.choice((None, None, b""))]

    def random_second(self):
        files, _ = self.files()
        front = self.chance.choice((b"", PREPARED, PREPARED, with_byte(PREPARED, self.chance.choice((0, 9)), OPEN)))
        return [files[0], front + self.any_bytes(400)]

    def of_two_cartridges(self):
        """Each file is of a cartridge of its own, or one is that of a store."""
        first, second = self.files()[0][0], self.files()[0][1]
        if self.chance.random() < 0.2:
            first = self.store().bytes()
        elif self.chance.random() < 0.2:
            second = self.store().bytes()
        return [first, second]

    def epochs_changed(self):
        """Epochs of any size, also equal ones, with either pair gate at any value."""
        epochs = [self.chance.choice((*EPOCHS, self.chance.getrandbits(64))) for _ in range(2)]
        if self.chance.random() < 0.3:
            epochs[1] = epochs[0]
        files = [self.side_of(epoch).bytes() for epoch in epochs]
        gates = self.chance.choice(((OPEN, 0), (OPEN, 0), (OPEN, 7), (0, 0), (OPEN, OPEN)))
        return [with_byte(file, 9, gate) for file, gate in zip(files, gates)]

    def bases_changed(self):
        sides, which = self.sides()
        side = sides[which]
        if side.head[10] >= 0x80:
            base = self.chance.choice((*BASES, len(side.bodies), len(side.bodies) + 1, self.chance.randint(0, 30)))
            side.head = side.head[:-4] + base.to_bytes(4, "big")
        return [side and side.bytes() for side in sides]

    def lengths_of_files(self):
        """One of the files is cut, or longer."""
        files, which = self.files()
        at = self.spare_of(which)
        if files[at] is not None:
            kept = self.chance.choice((self.chance.randint(0, 60), self.chance.randint(0, len(files[at]))))
            files[at] = self.chance.choice((files[at][:kept], files[at][:kept], files[at] + self.any_bytes(4_000)))
        return files

    def heads_changed(self):
        """Bytes of a head are others."""
        files, which = self.files()
        for _ in range(self.chance.choice((1, 1, 2))):
            at = self.chance.choice((which, 0, 1))
            if files[at]:
                place = self.chance.choice((self.chance.randrange(60), 9, 10, self.chance.randrange(35, 48)))
                value = self.chance.choice((self.chance.randrange(256), self.chance.choice(BYTES)))
                files[at] = with_byte(files[at], place, value)
        return files

    def pair_gates_changed(self):
        files, _ = self.files()
        for _ in range(self.chance.choice((1, 2))):
            at, place = self.chance.choice(((0, 0), (0, 9), (1, 0), (1, 9)))
            if files[at]:
                files[at] = with_byte(files[at], place, self.chance.choice(GATES))
        return files

    def damaged_side(self):
        """The side that counts has frames that are cut, changed or moved, or bodies of any bytes."""
        sides, which = self.sides()
        side = sides[which]
        way = self.chance.randint(0, 3)
        if way == 0:
            side.bodies.insert(self.many(len(side.bodies)), self.chance.randbytes(self.chance.randint(1, 80)))
        elif way == 1 and side.bodies:
            del side.bodies[self.chance.randrange(len(side.bodies))]
        files, gates = [it and it.bytes() for it in sides], side.gates()
        if way == 2:
            files[which] = with_byte(files[which], self.chance.choice(gates), self.chance.choice(GATES))
        elif way == 3:
            place = self.chance.randrange(len(files[which]))
            files[which] = with_byte(files[which], place, self.chance.randrange(256))
        return files

    def exchanged(self):
        """The second file has the first one's name, and the other way round."""
        files, _ = self.files()
        return [files[1] or b"", files[0]]

    def one_file(self):
        """A file that is no pair's, alone or beside a side, or any bytes."""
        kind = self.chance.choice((self.whole, self.random_bytes, self.random_behind_a_header, self.header_changed))
        return [kind(), self.chance.choice((None, self.side_of(1).bytes(), self.any_bytes(60)))]


PAIR_KINDS = (PairMaker.whole_pair, PairMaker.stopped_reclaim, PairMaker.missing_second, PairMaker.random_second,
              PairMaker.of_two_cartridges, PairMaker.epochs_changed, PairMaker.bases_changed,
              PairMaker.lengths_of_files, PairMaker.heads_changed, PairMaker.pair_gates_changed, PairMaker.damaged_side,
              PairMaker.exchanged, PairMaker.one_file)


def pair_kind_of(at):
    """What makes the pair of that number."""
    return PAIR_KINDS[at % len(PAIR_KINDS)]


def made_pair(seed, at):
    """The kind and the bytes of the two files of that number."""
    kind = pair_kind_of(at)
    return kind.__name__.replace("_", " "), kind(PairMaker(f"{seed}/pair", at))
