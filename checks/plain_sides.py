"""What `vtl check` has to print of the bytes of a file, or of a cartridge's two, and its status: read byte by byte as
docs/FORMATS.md has the layout (Files, The lines of vtl check), with nothing of the program's."""

OPEN, LONGEST_BODY, LONGEST_BLOCK, MOST_OBJECTS = 0xA5, 8_388_608, 1_048_576, 16_000_000
CAPACITIES = range(4_096, 1_099_511_627_776 + 1)
LETTERS = b"ABCDEFGHIJKLMNOPQRSTUVWXYZ0123456789"
DRIVES = [b"DRIVE%d" % number for number in range(1, 17)]
CARTRIDGE, STORE = b"VTLCART1", b"VTLRESV1"


def number(data, at, width):
    """The number that so many bytes from a place on spell; None where one of them is missing."""
    if at + width > len(data):
        return None
    return int.from_bytes(data[at:at + width], "big")


class Header:
    """What a side whose gate is open says of itself: kind, name, capacities and pair gate, of a copy epoch and base. Of
    bytes that begin with no header the kind is None."""

    def __init__(self, data):
        self.kind, self.name, self.capacities = None, data[11:27].rstrip(b" "), []
        self.pair, self.is_copy, self.epoch, self.base = None, False, 0, 0
        if len(data) < 27 or data[0] != OPEN:
            return
        self.pair = data[9]
        if data[1:9] == STORE and self.pair == 0 and data[10] == 0 and self.name in DRIVES:
            self.kind = STORE
        if data[1:9] == CARTRIDGE and self.has_head(data, data[10] & 0x7F):
            self.kind = CARTRIDGE

    def has_head(self, data, count):
        """Whether a cartridge's head stands there, of so many capacities; a copy's has epoch and base behind them."""
        if not 1 <= count <= 4:
            return False
        self.capacities = [number(data, 27 + 8 * at, 8) for at in range(count)]
        self.is_copy = data[10] >= 0x80
        if self.is_copy:
            self.epoch, self.base = number(data, 27 + 8 * count, 8), number(data, 35 + 8 * count, 4)
        return self.is_barcode() and self.are_capacities() and None not in (self.epoch, self.base)

    def is_barcode(self):
        return self.name != b"" and all(byte in LETTERS for byte in self.name)

    def are_capacities(self):
        return all(capacity in CAPACITIES for capacity in self.capacities if capacity is not None) and (
            None not in self.capacities)

    @property
    def end(self):
        """The place of the first gate."""
        return 27 + 8 * len(self.capacities) + 12 * self.is_copy


def begins(data):
    """Whether the ten bytes are there that a cartridge's side begins with, whatever its two gates are."""
    return len(data) >= 10 and data[1:9] == CARTRIDGE


def counting(first, second):
    """Which of a cartridge's two files counts, 0 or 1, and its header; None where neither does."""
    if not begins(first):
        return None
    if first[9] != OPEN:
        header = Header(first)
        return (0, header) if header.kind == CARTRIDGE and not header.is_copy else None
    if not begins(second) or second[9] == OPEN:
        return None
    found = [(at, Header(side)) for at, side in enumerate((first, second)) if side[0] == OPEN]
    if not found or any(header.kind is None for _, header in found):
        return None
    if len({header.epoch for _, header in found}) < len(found):
        return None
    return max(found, key=lambda it: it[1].epoch)


def frames(data, at):
    """The places of the gates and the bodies behind them, in order, and the place of a gate whose frame is not whole,
    or None."""
    found = []
    while True:
        if at >= len(data):
            return found, found[-1][0] if found else at
        if data[at] != OPEN:
            return found, None
        size = number(data, at + 1, 4)
        # the gate behind the body has to be there
        if size is None or not 1 <= size <= LONGEST_BODY or at + 5 + size >= len(data):
            return found, at
        found.append((at, data[at + 5:at + 5 + size]))
        at += 5 + size


class Partition:
    """The objects of a partition, as runs: how many, and what each of them takes."""

    def __init__(self, capacity):
        self.capacity, self.runs = capacity, []

    @property
    def count(self):
        return sum(count for count, _ in self.runs)

    @property
    def used(self):
        return sum(count * cost for count, cost in self.runs)

    def first(self, kept):
        """The runs of the first objects."""
        first = []
        for count, cost in self.runs:
            first.append((min(count, kept), cost))
            kept -= first[-1][0]
        return [run for run in first if run[0]]

    def change(self, kept, count, cost):
        """Puts objects behind the first of those that are there; False where that does not apply."""
        if kept > self.count:
            return False
        runs = self.first(kept) + [(count, cost)] * (count > 0)
        if kept + count > MOST_OBJECTS or sum(many * each for many, each in runs) > self.capacity:
            return False
        self.runs = runs
        return True


def change(body, at):
    """The change that stands at a place of a body: partition, objects that stay, how many come and what each takes,
    and where it ends; None where none stands there."""
    if at + 10 > len(body):
        return None
    kind, part, kept, value = body[at], body[at + 1], number(body, at + 2, 4), number(body, at + 6, 4)
    at += 10
    if kind == 1 and 1 <= value <= LONGEST_BLOCK and at + value <= len(body):
        return part, kept, 1, value + 16, at + value
    if kind == 2 and 1 <= value <= MOST_OBJECTS:
        return part, kept, value, 16, at
    if kind == 3 and value == 0:
        return part, kept, 0, 0, at
    return None


def applies(partitions, body):
    """Carries out the changes of a body; False where it spells none, or one does not apply."""
    at = 0
    while at < len(body):
        found = change(body, at)
        if found is None:
            return False
        part, kept, count, cost, at = found
        if part >= len(partitions) or not partitions[part].change(kept, count, cost):
            return False
    return True


def registered(body):
    """How many hosts a state leaves registered after a loss of power; None where the body spells no state."""
    if len(body) < 4:
        return None
    aptpl, kind, holder, count = body[:4]
    if aptpl > 1 or count > 64 or len(body) != 4 + 9 * count:
        return None
    hosts = [body[4 + 9 * at] for at in range(count)]
    keys = [number(body, 5 + 9 * at, 8) for at in range(count)]
    if 0 in keys or any(not 1 <= host <= 64 for host in hosts):
        return None
    if any(host >= later for host, later in zip(hosts, hosts[1:])):
        return None
    if kind in (1, 3, 5, 6):
        held = holder in hosts
    else:
        held = holder == 0 and (kind == 0 or kind in (7, 8) and count > 0)
    return (count if aptpl else 0) if held else None


def cartridge(header, found):
    partitions = [Partition(capacity) for capacity in header.capacities]
    for gate, body in found:
        if not applies(partitions, body):
            return f"bad record at {gate}\n", 1
    head = f"cartridge {header.name.decode()} partitions {len(partitions)} frames {len(found)}\n"
    return head + "".join(f"partition {at} objects {it.count} used {it.used}\n"
                          for at, it in enumerate(partitions)), 0


def store(header, found):
    left = 0
    for gate, body in found:
        left = registered(body)
        if left is None:
            return f"bad record at {gate}\n", 1
    return f"reservations {header.name.decode()} frames {len(found)} registrations {left}\n", 0


def read_side(header, data):
    """The lines and the status for a side with this header."""
    found, damaged = frames(data, header.end)
    if damaged is None and len(found) < header.base:
        # the closed gate comes too early
        damaged = found[-1][0] + 5 + len(found[-1][1]) if found else header.end
    if damaged is not None:
        return f"damaged at {damaged}\n", 1
    return (cartridge if header.kind == CARTRIDGE else store)(header, found)


def checked(data):
    """The lines and the status of a `vtl check` that knows no second file, for these bytes."""
    header = Header(data)
    if header.kind is None or header.pair != 0 or header.is_copy:
        return "not a side\n", 1
    return read_side(header, data)


def checked_pair(first, second):
    """The lines and the status of `vtl check` for a file and its second one, which is None where it is missing."""
    found = counting(first, second or b"")
    if found:
        return read_side(found[1], (first, second)[found[0]])
    header = Header(first)
    return read_side(header, first) if header.kind == STORE else ("not a side\n", 1)
