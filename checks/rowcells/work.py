"""What a drive's commands do to its cartridge, as docs/FORMATS.md says it, and the cells that this shows."""
import bisect

MARK = None
MOST_OBJECTS = 16_000_000


def check(*words, **named):
    from .drive import check as checked
    return checked(*words, **named)


class Tape:
    """The objects of a partition, filemarks behind one another as one run."""

    def __init__(self):
        self.starts, self.blocks, self.sizes, self.length = [], [], [], 0

    def __len__(self):
        return self.length

    def __getitem__(self, at):
        return self.blocks[bisect.bisect_right(self.starts, at) - 1]

    def run(self, at):
        """Where the run of this object begins, and where it ends."""
        place = bisect.bisect_right(self.starts, at)
        return self.starts[place - 1], self.starts[place] if place < len(self.starts) else self.length

    def taken(self, at):
        """What the objects before this one take of the capacity."""
        place = bisect.bisect_left(self.starts, at) - 1
        if place < 0:
            return 0
        return self.sizes[place] + (at - self.starts[place]) * (16 + len(self.blocks[place] or b""))

    def write(self, at, found, count=1):
        """So many of an object, in the place of what stands there and behind."""
        place = bisect.bisect_left(self.starts, at)
        del self.starts[place:], self.blocks[place:], self.sizes[place:]
        self.length = at
        if count:
            self.sizes.append(self.taken(at))
            self.starts.append(at)
            self.blocks.append(found)
            self.length += count


class Cartridge:
    """Its capacities and the objects of each partition, a filemark being MARK; whether its file gives none."""

    def __init__(self, capacities, damaged=False):
        self.capacities, self.parts, self.damaged = capacities, [Tape() for _ in capacities], damaged


class Work:
    """The work of a drive's commands; `see` takes the cells."""

    @property
    def objects(self):
        return self.cartridge.parts[self.partition]

    @property
    def capacity(self):
        return self.cartridge.capacities[self.partition]

    @property
    def border(self):
        return self.capacity - self.capacity // 16

    def does(self, name, where):
        self.see(f"does | {name} | {where}")

    def work(self, host, name, cdb, data):
        count = int.from_bytes(cdb[2:5], "big")
        if name == "TEST UNIT READY":
            self.does(name, "")
            return "GOOD"
        if name == "READ BLOCK LIMITS":
            self.does(name, "")
            return "GOOD 001000000001"
        if name == "REWIND":
            self.does(name, "")
            if self.partition:
                self.see("motions | REWIND stays in its partition")
            self.position = 0
            return "GOOD"
        if name in ("MODE SELECT", "MODE SENSE"):
            return self.modes(host, name, cdb, data)
        return {"READ": lambda: self.read(count, cdb[1] & 2), "WRITE": lambda: self.write(data),
                "WRITE FILEMARKS": lambda: self.write_marks(count, cdb[1] & 1),
                "SPACE": lambda: self.space(cdb[1] & 15, count), "LOCATE": lambda: self.locate(cdb),
                "READ POSITION": self.tell_position, "ERASE": self.erase,
                "LOAD UNLOAD": lambda: self.load_unload(host, cdb[4] & 1)}[name]()

    def read(self, count, sili):
        if not count:
            self.does("READ", "length 0")
            return "GOOD"
        if self.position == len(self.objects):
            self.does("READ", "at end of data")
            return check(8, 0x0005, count)
        found = self.objects[self.position]
        self.position += 1
        if found is MARK:
            self.does("READ", "at a filemark")
            return check(0, 0x0001, count, 0x80)
        self.does("READ", "at a block")
        more = "equal" if count == len(found) else "longer" if count > len(found) else "shorter"
        self.see(f"READ | the asked length is {more}, SILI {1 if sili else 0}")
        if count in (0xFFFFFF, 1):
            self.see(f"READ | TRANSFER LENGTH {count:X}h")
        if len(found) == 1_048_576 and more == "equal":
            self.see("limits | a block of 1,048,576 bytes is read")
        data = found[:count]
        if count == len(found) or sili:
            return f"GOOD {data.hex()}"
        return check(0, 0, count - len(found), 0x20, data)

    def early(self, name, used):
        """GOOD or early warning, of a write behind which so much is taken."""
        if used in (self.border, self.border + 1):
            self.see(f"early warning | {name} | takes the border"
                     f"{' and a byte' if used > self.border else ' to the byte'}")
        if used <= self.border:
            return "GOOD"
        if used == self.capacity:
            self.see(f"limits | a partition of {used:,} bytes is filled")
        self.see(f"early warning | {name}")
        return check(0, 0x0002, 0, 0x40)

    def write(self, data):
        if not data:
            self.does("WRITE", "length 0")
            return "GOOD"
        used = self.objects.taken(self.position) + len(data) + 16
        if used in (self.capacity, self.capacity + 1):
            self.see(f"full | WRITE | takes the capacity{' and a byte' if used > self.capacity else ' to the byte'}")
        if self.position >= MOST_OBJECTS:
            self.see("full | WRITE | object 16,000,001")
        if used > self.capacity or self.position >= MOST_OBJECTS:
            self.does("WRITE", "the block does not fit")
            return check(0xD, 0x0002, len(data), 0x40)
        self.does("WRITE", "the block fits")
        if self.position < len(self.objects):
            self.see("WRITE | what stood there and behind is gone")
        if len(data) in (1, 1_048_576):
            self.see(f"limits | a block of {len(data):,} byte{'s' if len(data) > 1 else ''} is written")
        self.see(f"modes | WRITE, {'buffered' if self.buffered else 'unbuffered'}")
        self.objects.write(self.position, data)
        self.position += 1
        return self.early("WRITE", used)

    def write_marks(self, count, immed):
        if not count:
            self.does("WRITE FILEMARKS", "count 0")
            self.see(f"WRITE FILEMARKS | count 0, IMMED {immed}")
            if self.objects.taken(self.position) > self.border:
                self.see("WRITE FILEMARKS | count 0 in the early zone")
            return "GOOD"
        used = self.objects.taken(self.position) + 16 * count
        if self.capacity - 15 <= used <= self.capacity + 16:
            self.see(f"full | WRITE FILEMARKS | {'the last' if used <= self.capacity else 'one'} mark "
                     f"{'that fits' if used <= self.capacity else 'too many'}")
        if self.position + count in (MOST_OBJECTS, MOST_OBJECTS + 1):
            self.see(f"full | WRITE FILEMARKS | {self.position + count:,} objects")
        if used > self.capacity or self.position + count > MOST_OBJECTS:
            self.does("WRITE FILEMARKS", "they do not all fit")
            return check(0xD, 0x0002, count, 0x40)
        self.does("WRITE FILEMARKS", "the count is above 0, and they fit")
        if self.position < len(self.objects):
            self.see("WRITE FILEMARKS | what stood there and behind is gone")
        self.see(f"WRITE FILEMARKS | IMMED {immed}, {'buffered' if self.buffered else 'unbuffered'}")
        self.objects.write(self.position, MARK, count)
        self.position += count
        return self.early("WRITE FILEMARKS", used)

    def space(self, code, count):
        objects, what = self.objects, "filemarks" if code == 1 else "blocks"
        if code == 3:
            self.does("SPACE", "to the end of data, with any count, 0 too")
            self.see(f"SPACE | to the end of data, count {'0' if not count else 'other than 0'}")
            self.position = len(objects)
            return "GOOD"
        if not count:
            self.does("SPACE", "0 blocks or 0 filemarks")
            self.see(f"SPACE | 0 {what}")
            return "GOOD"
        if count in (0x7FFFFF, 0x800000):
            self.see(f"SPACE | COUNT {count:06X}h")
        left, step = (count, 1) if count < 1 << 23 else ((1 << 24) - count, -1)
        way = "forward" if step > 0 else "backward"
        while left:
            at = self.position if step > 0 else self.position - 1
            if at < 0:
                self.does("SPACE", "the beginning is on the way")
                self.see(f"SPACE | over {what}, the beginning is on the way")
                return check(0, 0x0004, left, 0x40)
            if at == len(objects):
                self.does("SPACE", "the end of data is on the way")
                self.see(f"SPACE | over {what}, the end of data is on the way")
                return check(8, 0x0005, left)
            if code == 1 and objects[at] is MARK:
                start, end = objects.run(at)
                passed = min(left, end - at if step > 0 else at + 1 - start)
                left, self.position = left - passed, self.position + step * passed
                continue
            self.position += step
            if code == 0 and objects[at] is MARK:
                self.does("SPACE", "over blocks, and a filemark is on the way")
                self.see(f"SPACE | over blocks {way}, a filemark is on the way")
                return check(0, 0x0001, left, 0x80)
            left -= code == 0
        self.does("SPACE", "over blocks or filemarks, and all were passed")
        self.see(f"SPACE | over {what} {way}, all were passed")
        return "GOOD"

    def locate(self, cdb):
        asked = int.from_bytes(cdb[3:7], "big")
        before, self.partition = self.partition, cdb[8] if cdb[1] & 2 else self.partition
        self.see(f"LOCATE | CP {cdb[1] >> 1 & 1}, {'another' if self.partition != before else 'the same'} partition")
        if self.partition and not cdb[1] & 2:
            self.see("LOCATE | CP 0 stays in a partition other than 0")
        if asked <= len(self.objects):
            self.position = asked
            self.does("LOCATE", "the object is there, or is the end of data")
            self.see(f"LOCATE | {'the object is there' if asked < len(self.objects) else 'the end of data'}")
            return "GOOD"
        self.position = len(self.objects)
        self.does("LOCATE", "the object is behind the end of data")
        if asked == 0xFFFFFFFF:
            self.see("LOCATE | object FFFFFFFFh")
        return check(8, 0x0005)

    def tell_position(self):
        near = self.objects.taken(self.position) > self.border
        self.does("READ POSITION", "")
        self.see(f"READ POSITION | BOP {0 if self.position else 1}, EOP {int(near)}")
        self.see(f"READ POSITION | partition {self.partition}")
        if self.position > 255:
            self.see("READ POSITION | an object number above 255")
        place = self.position.to_bytes(4, "big")
        first = (0 if self.position else 0x80) | (0x40 if near else 0)
        return "GOOD " + (bytes([first, self.partition, 0, 0]) + place + place + bytes(8)).hex()

    def erase(self):
        self.does("ERASE", "")
        self.see(f"ERASE | {'at the end of data' if self.position == len(self.objects) else 'before objects'}")
        self.see(f"modes | ERASE, {'buffered' if self.buffered else 'unbuffered'}")
        if self.objects.taken(self.position) > self.border:
            self.see("ERASE | in the early zone")
        self.objects.write(self.position, MARK, 0)
        return "GOOD"

    def load_unload(self, host, asked):
        where = f"LOAD UNLOAD, LOAD {asked}"
        if self.cartridge is None:
            self.does("LOAD UNLOAD", "no cartridge in the drive")
            self.see(f"sense | 3A/00 | {where}")
            return check(2, 0x3A00)
        if self.loaded:
            self.does(where, "a loaded cartridge")
            self.loaded, self.partition, self.position = bool(asked), 0, 0
            return "GOOD"
        if not asked:
            self.does(where, "an unloaded cartridge")
            return "GOOD"
        if self.cartridge.damaged:
            self.does(where, "an unloaded cartridge that is damaged, or a device fault")
            self.see("sense | 11/00 | LOAD UNLOAD")
            return check(3, 0x1100)
        self.does(where, "an unloaded cartridge")
        self.loaded, self.partition, self.position = True, 0, 0
        if not self.buffered:
            self.see("modes | loading leaves the mode")
        self.tell([other for other in self.told if other != host], 0x2800, "LOAD")
        self.quiet[host] = "attentions | not for the host whose LOAD establishes it"
        return "GOOD"

    def modes(self, host, name, cdb, data):
        if name == "MODE SENSE":
            without = cdb[1] >> 3 & 1
            self.see(f"MODE SENSE | DBD {without}, mode {self.buffered}, PAGE CODE {cdb[2] & 0x3F:02X}h")
            head = bytes([3 if without else 11, 0, self.buffered << 4, 0 if without else 8])
            return self.given(name, head + bytes(0 if without else 8), cdb[4], "")
        self.does(name, "")
        if not data:
            self.see("mode lists | of no byte")
            return "GOOD"
        self.see(f"mode lists | {len(data)} bytes, mode {data[2] >> 4 & 7} from {self.buffered}")
        ignored = {0: 0xFF, 1: 0xFF, 2: 0x8F, **({at: 0xFF for at in range(4, 9)} if len(data) == 12 else {})}
        for place, bits in ignored.items():
            if data[place] & bits == bits:
                self.see(f"mode lists | byte {place} of {len(data)} is ignored")
        if data[2] >> 4 & 7 != self.buffered:
            self.tell([other for other in self.told if other != host], 0x2A01, "MODE SELECT")
            self.quiet[host] = "attentions | not for the host whose MODE SELECT establishes it"
        self.buffered = data[2] >> 4 & 1
        return "GOOD"
