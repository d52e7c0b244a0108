"""A drive as docs/FORMATS.md says it, for cells: each command's answer, and which cells it shows."""
from .fields import field_refused, ignored_bytes, list_refused, sent_length
from .reservations import Reservations
from .tables import ALWAYS, FENCED, LENGTHS, NAMES, NEEDS_MEDIUM
from .work import Work

ATTENTIONS = [0x2900, 0x2800, 0x2A03, 0x2A05, 0x2A04, 0x2A01]
HOSTS = range(1, 65)


def coded(code):
    return f"{code >> 8:02X}/{code & 255:02X}"


def check(key, code, information=None, flags=0, data=b""):
    valid = 0x70 if information is None else 0xF0
    wide = (information or 0) & 0xFFFFFFFF
    sense = f"CHECK {valid:02x}00{key | flags:02x}{wide:08x}0a00000000{code:04x}00000000"
    return f"{sense} {data.hex()}" if data else sense


def good(data=b""):
    return f"GOOD {data.hex()}" if data else "GOOD"


class Drive(Work):
    def __init__(self, number, reservations, see):
        self.number, self.see = number, see
        self.reservations = reservations or Reservations()
        self.reservations.see = see
        self.cartridge, self.loaded, self.buffered, self.partition, self.position = None, False, 1, 0, 0
        self.told = {host: {} for host in HOSTS}
        self.quiet = {}
        self.tell(HOSTS, 0x2900, "power on")

    def tell(self, hosts, code, cause):
        for host in hosts:
            self.told[host].setdefault(code, cause)

    def put(self, cartridge):
        """The power comes on over it, or it is moved in: whether it is loaded."""
        self.cartridge, self.loaded = cartridge, not cartridge.damaged
        self.partition = self.position = 0
        return self.loaded

    def due(self, host):
        return next((code for code in ATTENTIONS if code in self.told[host]), None)

    def report(self, host, how):
        """The condition that is reported, which is cleared."""
        code = self.due(host)
        for other in ATTENTIONS:
            if other in self.told[host] and other != code:
                self.see(f"attentions | {coded(code)} is reported before {coded(other)}")
        cause = self.told[host].pop(code)
        self.see(f"attentions | {coded(code)} of {cause}")
        self.see(f"sense | {coded(code)} | {how}")
        self.quiet.pop(host, None)
        return code

    def execute(self, host, cdb, data):
        """The answer, as text."""
        code = cdb[0]
        if code not in NAMES:
            self.see(f"codes | {code:02X}h is of no command")
            for number, fails in ((3, self.due(host)), (5, not self.loaded)):
                if fails:
                    self.see(f"order of checks | 1 before {number}")
            return check(5, 0x2000)
        name = NAMES[code]
        if host in self.quiet and (code in ALWAYS or not self.due(host)):
            self.see(self.quiet.pop(host))
        faults = self.faults(host, code, cdb, data)
        self.passes(host, code, faults)
        if not faults:
            return self.carry_out(host, name, cdb, data)
        number, answer, cells = faults[0]
        for other, *_ in faults[1:]:
            self.see(f"order of checks | {number} before {other}")
        for cell in cells:
            self.see(cell)
        if number == 3:
            return check(6, self.report(host, f"in the place of {name}"))
        return answer

    def faults(self, host, code, cdb, data):
        """The checks that the command does not pass: their number, the answer and the cells that it shows."""
        name, faults = NAMES[code], []
        allowed = self.reservations.allows(host)
        if code not in ALWAYS and self.due(host):
            faults.append((3, None, []))
        if code in FENCED and not allowed:
            faults.append((4, "CONFLICT", [f"reservations | {name} | {self.reservations.role(host)}"]))
        if code in NEEDS_MEDIUM and not self.loaded:
            cells = [f"sense | 3A/00 | {name}"] + (
                [f"drives | {name} over an unloaded cartridge"] if self.cartridge else [])
            faults.append((5, check(2, 0x3A00), cells))
        refused = self.refused_block(code, cdb, data)
        if refused:
            faults.append((6, check(5, 0x2400), [*refused, f"sense | 24/00 | {name}"]))
        fault = list_refused(code, cdb, data)
        if fault:
            sense, cells = fault
            faults.append((7, check(5, sense), [*cells, f"sense | {coded(sense)} | {name}"]))
        return faults

    def refused_block(self, code, cdb, data):
        """The cells of a block that is refused."""
        name = NAMES[code]
        if len(cdb) != LENGTHS[code]:
            return [f"blocks | {name} | {'shorter' if len(cdb) < LENGTHS[code] else 'longer'}"]
        refused = field_refused(code, cdb, self)
        if refused:
            return refused
        if len(data) != sent_length(code, cdb):
            return [f"blocks | {name} | {'fewer' if len(data) < sent_length(code, cdb) else 'more'} bytes sent"]
        return []

    def passes(self, host, code, faults):
        """What a command that some check would stop, if it concerned it, shows by its answer."""
        name, stops = NAMES[code], {number for number, *_ in faults}
        if code in ALWAYS and not stops:
            if self.due(host) and code == 0x12:
                self.see(f"order of checks | {name} though a unit attention condition is established")
            if self.reservations.type and not self.reservations.allows(host):
                self.see(f"order of checks | {name} though another host's reservation is held")
            if not self.loaded:
                self.see(f"order of checks | {name} without a cartridge")
        if 3 in stops or 4 in stops:
            return
        if self.reservations.type and not (4 in stops or 5 in stops):
            self.see(f"reservations | {name} | {self.reservations.role(host)}")
        if not stops and code not in NEEDS_MEDIUM | ALWAYS and not self.loaded:
            self.see(f"order of checks | {name} needs no cartridge")

    def carry_out(self, host, name, cdb, data):
        for place in ignored_bytes(cdb):
            self.see(f"ignored | {name} | byte {place}")
        code = cdb[0]
        if code == 0x03:
            return self.request_sense(host, cdb)
        if code == 0x12:
            return self.given(name, bytes.fromhex("018006021f000000") + b"VTLIB   TAPE DRIVE      0001",
                              int.from_bytes(cdb[3:5], "big"), "")
        if code == 0x5E:
            return self.reserve_in(cdb)
        if code == 0x5F:
            return self.reserve_out(host, cdb, data)
        return self.work(host, name, cdb, data)

    def given(self, name, data, room, where):
        """Data that are cut to ALLOCATION LENGTH."""
        if where is not None:
            self.see(f"does | {name} | {where}")
        kind = "0" if not room else "a byte less" if room == len(data) - 1 else "the length" if room == len(data) else \
            "more" if room > len(data) else None
        if kind:
            self.see(f"allocation | {name} | {kind}")
        return good(data[:room])

    def request_sense(self, host, cdb):
        due = self.due(host)
        if due:
            if cdb[4] < 18:
                self.see("REQUEST SENSE | cleared, however short the data are cut")
            sense = check(6, self.report(host, "by REQUEST SENSE"))
        else:
            sense = check(0, 0)
            self.see("REQUEST SENSE | nothing to report")
            if not self.loaded:
                self.see("REQUEST SENSE | nothing to report, in an empty drive")
        return self.given("REQUEST SENSE", bytes.fromhex(sense.split()[1]), cdb[4], "")

    def reserve_in(self, cdb):
        read, held = self.reservations, bool(self.reservations.type)
        if cdb[1] & 31 == 0:
            self.see(f"READ KEYS | {'none' if not read.keys else 'one' if len(read.keys) == 1 else 'several'}")
            data = read.read_keys()
        else:
            self.see(f"READ RESERVATION | {f'type {read.type}' if held else 'none is held'}")
            data = read.read_reservation()
        answer = self.given("PERSISTENT RESERVE IN", data, int.from_bytes(cdb[7:9], "big"), "")
        return answer

    def reserve_out(self, host, cdb, data):
        key, wanted = int.from_bytes(data[:8], "big"), int.from_bytes(data[8:16], "big")
        answer, told = self.reservations.order(host, cdb[1] & 31, cdb[2], key, wanted, data[20])
        for other, (code, cause) in told.items():
            self.tell([other], code, cause)
        if answer == "GOOD":
            self.see("does | PERSISTENT RESERVE OUT | ")
        if told:
            self.quiet[host] = f"attentions | not for the host whose {next(iter(told.values()))[1]} establishes it"
        if isinstance(answer, int):
            self.see(f"sense | {coded(answer)} | PERSISTENT RESERVE OUT")
            return check(5, answer)
        return answer
