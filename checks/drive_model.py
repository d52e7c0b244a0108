"""What drives, cartridges and reservations answer to well-formed commands, as docs/FORMATS.md says it: a second way to
the same answers, from which kills.py knows what a library that was stopped may hold."""
import copy

POWER_ON, MEDIUM, CLEARED, PREEMPTED, RELEASED, MODE = 0x2900, 0x2800, 0x2A03, 0x2A05, 0x2A04, 0x2A01
ORDER = [POWER_ON, MEDIUM, CLEARED, PREEMPTED, RELEASED, MODE]
HOSTS = range(1, 65)
FENCED = {0x01, 0x08, 0x0A, 0x10, 0x11, 0x15, 0x19, 0x1B, 0x2B}
NEEDS_MEDIUM = {0x00, 0x01, 0x08, 0x0A, 0x10, 0x11, 0x19, 0x2B, 0x34}
MARK = None


def check(key, code, information=None, flags=0):
    valid = 0x70 if information is None else 0xF0
    wide = (information or 0) & 0xFFFFFFFF
    return f"CHECK {valid:02x}00{key | flags:02x}{wide:08x}0a00000000{code:04x}00000000"


def good(data=b""):
    return f"GOOD {data.hex()}" if data else "GOOD"


def applied(objects, change):
    """The objects after a change: how many stay, and what comes behind them."""
    return objects[:change[0]] + list(change[1])


class Reservations:
    def __init__(self):
        self.keys, self.type, self.holder, self.aptpl, self.generation = {}, 0, 0, 0, 0

    def lose_power(self):
        self.generation = 0
        if not self.aptpl:
            self.keys, self.type, self.holder = {}, 0, 0

    def holds(self, host):
        return host in self.keys and (self.type in (7, 8) or (self.type != 0 and self.holder == host))

    def allows(self, host):
        return not self.type or self.holds(host) or (self.type >= 5 and host in self.keys)

    def read_keys(self):
        keys = b"".join(key.to_bytes(8, "big") for _, key in sorted(self.keys.items()))
        return self.generation.to_bytes(4, "big") + len(keys).to_bytes(4, "big") + keys

    def read_reservation(self):
        head = self.generation.to_bytes(4, "big")
        if not self.type:
            return head + bytes(4)
        holder = self.keys.get(self.holder, 0).to_bytes(8, "big")
        return head + (16).to_bytes(4, "big") + holder + bytes([0] * 5 + [self.type, 0, 0])

    def seen_later(self):
        """What is answered to READ KEYS and to READ RESERVATION after a loss of power."""
        left = copy.deepcopy(self)
        left.lose_power()
        return good(left.read_keys()), good(left.read_reservation())

    def reserve(self, host, kind):
        self.type, self.holder = kind, host if kind < 7 else 0

    def order(self, host, action, kind, key, wanted, aptpl):
        """The answer, and what other hosts are informed of."""
        others = [other for other in self.keys if other != host]
        if action in (0, 6):
            return self.register(host, action, key, wanted, aptpl, others)
        if host not in self.keys or self.keys[host] != key:
            return "CONFLICT", {}
        return [None, self.take, self.release, self.clear, self.preempt][action](host, kind, wanted, others)

    def register(self, host, action, key, wanted, aptpl, others):
        told = {}
        if action == 0 and key != self.keys.get(host, 0):
            return "CONFLICT", {}
        if host not in self.keys and not wanted:
            return "GOOD", {}
        if wanted:
            self.keys[host] = wanted
        else:
            if self.type in (5, 6) and self.holder == host:
                told = {other: RELEASED for other in others}
            if (self.type and self.holder == host) or not others:
                self.type, self.holder = 0, 0
            del self.keys[host]
        self.aptpl = aptpl
        self.generation += 1
        return "GOOD", told

    def take(self, host, kind, _wanted, _others):
        if not self.type:
            self.reserve(host, kind)
        elif not (self.holds(host) and self.type == kind):
            return "CONFLICT", {}
        return "GOOD", {}

    def release(self, host, kind, _wanted, others):
        if not self.holds(host):
            return "GOOD", {}
        if self.type != kind:
            return check(5, 0x2604), {}
        self.type, self.holder = 0, 0
        return "GOOD", {other: RELEASED for other in others} if kind >= 5 else {}

    def clear(self, _host, _kind, _wanted, others):
        self.keys, self.type, self.holder = {}, 0, 0
        self.generation += 1
        return "GOOD", {other: CLEARED for other in others}

    def preempt(self, host, kind, wanted, others):
        gone = [other for other in others if not wanted or self.keys[other] == wanted]
        if not wanted and self.type not in (7, 8):
            return check(5, 0x2600), {}
        if wanted and wanted not in self.keys.values():
            return "CONFLICT", {}
        before = self.type
        takes = not wanted or (self.type in (1, 3, 5, 6) and self.keys[self.holder] == wanted)
        if takes:
            self.reserve(host, kind)
        for other in gone:
            del self.keys[other]
        self.generation += 1
        told = {other: RELEASED for other in self.keys if other != host} if takes and kind != before else {}
        return "GOOD", {**told, **{other: PREEMPTED for other in gone}}


class Cartridge:
    """Its objects, a filemark being MARK, and each change that was accepted since it was opened."""

    def __init__(self, objects):
        self.start, self.objects, self.changes = objects, objects, []

    def change(self, at, added):
        self.changes.append((at, added))
        self.objects = applied(self.objects, (at, added))


    def states(self):
        """The objects at first, and after each change."""
        states = [self.start]
        for change in self.changes:
            states.append(applied(states[-1], change))
        return states


class Drive:
    def __init__(self, reservations, cartridge):
        self.reservations, self.cartridge, self.loaded = reservations, cartridge, cartridge is not None
        self.position, self.buffered = 0, 1
        self.told = {host: {POWER_ON} for host in HOSTS}
        # what was held at power on, and after each order that was accepted
        self.orders = [copy.deepcopy(reservations)]

    def tell(self, hosts, attention):
        for host in hosts:
            self.told[host].add(attention)

    def execute(self, host, block, sent=b""):
        """The answer; whether it acknowledges everything accepted; whether it acknowledges an order to the
        reservations."""
        due = next((it for it in ORDER if it in self.told[host]), None)
        if due:
            self.told[host].remove(due)
            return check(6, due), False, False
        if block[0] in FENCED and not self.reservations.allows(host):
            return "CONFLICT", False, False
        if block[0] in NEEDS_MEDIUM and not self.loaded:
            return check(2, 0x3A00), False, False
        if block[0] == 0x5F:
            return self.order(host, block, sent)
        answer, stored = self.work(host, block, sent)
        return answer, stored and answer.startswith("GOOD"), False

    def order(self, host, block, sent):
        key, wanted = int.from_bytes(sent[:8], "big"), int.from_bytes(sent[8:16], "big")
        answer, told = self.reservations.order(host, block[1] & 31, block[2] & 15, key, wanted, sent[20] & 1)
        for other, attention in told.items():
            self.tell([other], attention)
        if answer == "GOOD":
            self.orders.append(copy.deepcopy(self.reservations))
        return answer, False, answer == "GOOD"

    def work(self, host, block, sent):
        """The answer, and whether everything was stored before it."""
        code, count = block[0], int.from_bytes(block[2:5], "big")
        if code in (0x5E, 0x00):
            reads = [self.reservations.read_keys, self.reservations.read_reservation]
            return good(b"" if code == 0 else reads[block[1] & 31]()), False
        if code == 0x0A:
            return self.write([sent]), not self.buffered
        if code == 0x10:
            return self.write([MARK] * count) if count else "GOOD", not block[1] & 1
        if code == 0x19:
            self.cartridge.change(self.position, [])
            return "GOOD", not self.buffered
        if code == 0x15:
            return self.select(host, sent[2] >> 4 & 7), False
        if code == 0x1B:
            return self.load(host, block[4] & 1)
        return self.motion(code, block, count), True

    def write(self, added):
        self.cartridge.change(self.position, added)
        self.position += len(added)
        return "GOOD"

    def select(self, host, mode):
        if mode != self.buffered:
            self.tell([other for other in HOSTS if other != host], MODE)
        self.buffered = mode
        return "GOOD"

    def load(self, host, asked):
        if self.cartridge is None:
            return check(2, 0x3A00), False
        was, self.position = self.loaded, 0
        self.loaded = bool(asked)
        if asked and not was:
            self.tell([other for other in HOSTS if other != host], MEDIUM)
        return "GOOD", was

    def motion(self, code, block, count):
        objects = self.cartridge.objects
        if code == 0x01:
            self.position = 0
        elif code == 0x34:
            place = self.position.to_bytes(4, "big")
            return good(bytes([0x80 if not self.position else 0, 0, 0, 0]) + place + place + bytes(8))
        elif code == 0x2B:
            asked = int.from_bytes(block[3:7], "big")
            self.position = min(asked, len(objects))
            return "GOOD" if asked <= len(objects) else check(8, 0x0005)
        elif code == 0x11 and block[1] & 15 == 3:
            self.position = len(objects)
        elif code == 0x11:
            return self.space(block[1] & 15, count if count < 1 << 23 else count - (1 << 24))
        else:
            return self.read(count)
        return "GOOD"

    def space(self, code, count):
        objects, left, step = self.cartridge.objects, abs(count), 1 if count > 0 else -1
        while left:
            at = self.position if step > 0 else self.position - 1
            if at < 0:
                return check(0, 0x0004, left, 0x40)
            if at == len(objects):
                return check(8, 0x0005, left)
            self.position += step
            if objects[at] is MARK and code == 0:
                return check(0, 0x0001, left, 0x80)
            left -= (objects[at] is MARK) == (code == 1)
        return "GOOD"

    def read(self, count):
        if self.position == len(self.cartridge.objects):
            return check(8, 0x0005, count)
        found = self.cartridge.objects[self.position]
        self.position += 1
        return check(0, 0x0001, count, 0x80) if found is MARK else good(found[:count])


def move(drives, slots, source, target):
    """The answer of a move between configured drives and slots, and the cartridge of which everything was stored."""
    touched = [drives[at] for at in (source, target) if at in drives]
    if any(drive.reservations.type for drive in touched):
        return "CONFLICT", None
    found = drives[source].cartridge if source in drives else slots.get(source)
    if found is None:
        return check(5, 0x3B0E), None
    if (drives[target].cartridge if target in drives else slots.get(target)) is not None:
        return check(5, 0x3B0D), None
    stored = found if source in drives and drives[source].loaded else None
    if source in drives:
        drives[source].cartridge, drives[source].loaded = None, False
    else:
        del slots[source]
    if target in drives:
        drive = drives[target]
        drive.cartridge, drive.loaded, drive.position = found, True, 0
        drive.tell(HOSTS, MEDIUM)
    else:
        slots[target] = found
    return "GOOD", stored
