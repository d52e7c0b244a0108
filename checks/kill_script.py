"""Random scripts for kills.py, over two drives and three cartridges, with what the model of drives says of them."""
import rowfile
from drive_model import Cartridge, Drive, move

TAPES = {"KILL1L6": 1, "KILL2L6": 2, "KILL3L6": 1001}
MIXED = {"write": 40, "marks": 14, "locate": 9, "end": 6, "space": 6, "read": 9, "other": 8, "load": 3, "mode": 2}
STREAM = {"write": 80, "marks": 14, "mode": 1, "locate": 1}


def configuration(stores):
    drives = "".join(f'[[drive]]\nnumber = {at}\nreservations = "{stores}{at}.pr"\n' for at in (1, 2))
    return drives + "".join(f'[[cartridge]]\nbarcode = "{name}"\nfile = "{name}.tape"\n'
                            f"capacities = [1_099_511_627_776]\nhome = {home}\n" for name, home in TAPES.items())


class Script:
    """A random script: its lines and, answer by answer, what the drives' model says."""

    def __init__(self, chance, volumes, reservations):
        self.chance, self.text, self.answers, self.phases = chance, [], [], 0
        self.tapes = {name: Cartridge(volumes[name]) for name in TAPES}
        at = {home: self.tapes[name] for name, home in TAPES.items()}
        self.drives = {number: Drive(reservations[number], at[number]) for number in (1, 2)}
        self.slots = {1001: at[1001]}
        # how many changes of each tape, and orders of each drive, are acknowledged after each answer
        self.tape_acks, self.order_acks = [dict.fromkeys(TAPES, 0)], [{1: 0, 2: 0}]
        # how often which kinds come; in the first of the kinds little stores what waits, but for marks
        self.kinds, self.orders = chance.choice([(STREAM, 0.05), (MIXED, 0.15), (MIXED, 0.15), (STREAM, 0.6)])
        for most in [1, *chance.choices([1, 3, 8, 30, 70], k=chance.randint(3, 12))]:
            self.phase(most)

    def parted(self):
        """The lines, phase by phase."""
        return rowfile.phases([rowfile.Line(at, line.encode()[:-1]) for at, line in enumerate(self.text)])

    def answered(self, answer, stored=None, ordered=None):
        self.answers.append(answer)
        tapes, orders = dict(self.tape_acks[-1]), dict(self.order_acks[-1])
        for name, tape in self.tapes.items():
            if tape is stored:
                tapes[name] = len(tape.changes)
        if ordered:
            orders[ordered] = len(self.drives[ordered].orders) - 1
        self.tape_acks.append(tapes)
        self.order_acks.append(orders)

    def phase(self, most):
        """A phase, in which each drive has commands of one host, and sometimes a move behind it."""
        chance = self.chance
        self.phases += 1
        hosts = {number: chance.choice([1, 1, 2, 3]) for number in self.drives}
        turns = [(hosts[number], number) for number in self.drives for _ in range(chance.randint(0, most))]
        chance.shuffle(turns)
        for host, number in sorted(turns, key=lambda turn: turn[0]):
            self.command(host, number)
        if chance.random() < (0.3 if self.kinds is MIXED else 0.05):
            source, target = chance.choice([(1, 1001), (1001, 1), (2, 1), (1, 2), (2, 1002), (1002, 2)])
            self.text.append(f"move {source} {target}\n")
            self.answered(*move(self.drives, self.slots, source, target))
        else:
            self.text.append("--\n")

    def command(self, host, number):
        drive = self.drives[number]
        block, sent = self.tape_command(drive) if self.chance.random() >= self.orders else self.order(host, drive)
        self.text.append(f"{host} {number} {block.hex()} {sent.hex()}\n")
        tape = drive.cartridge
        answer, stored, ordered = drive.execute(host, block, sent)
        self.answered(answer, tape if stored else None, number if ordered else None)

    def tape_command(self, drive):
        chance, count = self.chance, len(drive.cartridge.objects) if drive.cartridge else 0
        kind = chance.choices(list(self.kinds), list(self.kinds.values()))[0]
        if kind == "write":
            size = chance.randint(1, chance.choices([40, 2000, 30_000], [50, 45, 5])[0])
            return b"\x0a\x00" + size.to_bytes(3, "big") + b"\x00", chance.randbytes(size)
        if kind == "marks":
            later = chance.randint(0, 1) if drive.buffered else 0
            return bytes([0x10, later, 0, 0, chance.randint(later, 3), 0]), b""
        if kind == "locate":
            return b"\x2b\x00\x00" + chance.randint(0, count + 1).to_bytes(4, "big") + bytes(3), b""
        if kind == "space":
            steps = chance.choice([-4, -2, -1, 1, 2, 3]) % (1 << 24)
            return bytes([0x11, chance.randint(0, 1)]) + steps.to_bytes(3, "big") + b"\x00", b""
        if kind == "mode":
            return bytes.fromhex("150000000400"), bytes([0, 0, 16 * (chance.random() < 0.7), 0])
        blocks = {"end": ["110300000000"], "read": ["080210000000"],
                  "load": ["1b0000000000", "1b0000000100", "1b0000000100"],
                  "other": ["190000000000", "010000000000", "34000000000000000000", "000000000000"]}
        return bytes.fromhex(chance.choice(blocks[kind])), b""

    def order(self, host, drive):
        """An order to the reservations, mostly with the host's own key; keys differ from host to host."""
        chance, keys = self.chance, drive.reservations.keys
        if chance.random() < 0.15:
            return bytes.fromhex(chance.choice(["5e00000000000010ff00", "5e010000000000001800"])), b""
        action = chance.choice([0, 0, 0, 1, 1, 1, 2, 2, 3, 4, 4, 6] if keys else [0, 0, 0, 6, 1])
        own = keys.get(host, 0) if chance.random() < 0.95 else 999
        new = chance.choice([0, host * 256 + chance.randint(1, 3), host * 256 + chance.randint(1, 3)])
        wanted = new if action in (0, 6) else chance.choice([0, 999, *keys.values(), *keys.values()])
        scope = chance.choice([drive.reservations.type or 5, chance.choice([1, 3, 5, 6, 7, 8])])
        flags = bytes([0, 0, 0, 0, chance.random() < 0.8, 0, 0, 0])
        sent = own.to_bytes(8, "big") + wanted.to_bytes(8, "big") + flags
        return bytes([0x5F, action, scope, 0, 0, 0, 0, 0, 24, 0]), sent
