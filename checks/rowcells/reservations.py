"""A drive's persistent reservations as docs/FORMATS.md says them, and the cells that an action shows."""
from .fields import ACTIONS, TYPED

ALL = (7, 8)
CASE_3 = "SK is the key of the holder of type 1, 3, 5 or 6"


class Reservations:
    def __init__(self):
        self.keys, self.type, self.holder, self.aptpl, self.generation = {}, 0, 0, 0, 0
        self.see = lambda cell: None

    def copy(self):
        other = Reservations()
        other.keys, other.type, other.holder = dict(self.keys), self.type, self.holder
        other.aptpl, other.generation = self.aptpl, self.generation
        return other

    def lose_power(self):
        """What a loss of power leaves; the cell, where there was something."""
        if self.keys:
            self.see(f"power | APTPL {self.aptpl}, {f'type {self.type}' if self.type else 'registered alone'}")
        if self.generation:
            self.see("power | PRGENERATION is 0")
        self.generation = 0
        if not self.aptpl:
            self.keys, self.type, self.holder = {}, 0, 0

    def holds(self, host):
        return host in self.keys and self.type != 0 and (self.type in ALL or self.holder == host)

    def allows(self, host):
        return not self.type or self.holds(host) or (self.type >= 5 and host in self.keys)

    def role(self, host):
        who = "a holder" if self.holds(host) else "a registered host" if host in self.keys else "another host"
        return f"type {self.type}, {who}"

    def read_keys(self):
        keys = b"".join(key.to_bytes(8, "big") for _, key in sorted(self.keys.items()))
        return self.generation.to_bytes(4, "big") + len(keys).to_bytes(4, "big") + keys

    def read_reservation(self):
        head = self.generation.to_bytes(4, "big")
        if not self.type:
            return head + bytes(4)
        holder = (0 if self.type in ALL else self.keys[self.holder]).to_bytes(8, "big")
        return head + (16).to_bytes(4, "big") + holder + bytes([0] * 5 + [self.type, 0, 0])

    def order(self, host, action, scope_and_type, key, wanted, flags):
        """GOOD, CONFLICT or a sense code, and what is established for other hosts."""
        name, others = ACTIONS[action], [other for other in self.keys if other != host]
        self.see(f"actions | {name}{' | ALL_TG_PT 1 is ignored' if flags & 4 else ''}")
        if action in (0, 6):
            return self.register(host, action, key, wanted, flags & 1, others)
        if flags & 1:
            self.see(f"actions | {name} | APTPL does not count")
        if host not in self.keys or self.keys[host] != key:
            why = "the host is not registered" if host not in self.keys else "RK is not its key"
            self.see("action | 1 to 4 | the host is not registered, or RK is not its key")
            self.see(f"actions | {name} | {why}")
            return "CONFLICT", {}
        work = {1: self.reserve, 2: self.release, 3: self.clear, 4: self.preempt}[action]
        return work(host, scope_and_type, wanted, others)

    def counted(self, aptpl=None):
        if aptpl is not None:
            self.see(f"actions | APTPL from {self.aptpl} to {aptpl}")
            self.aptpl = aptpl
        self.generation = (self.generation + 1) & 0xFFFFFFFF

    def register(self, host, action, key, wanted, aptpl, others):
        is_known, name = host in self.keys, ACTIONS[action]
        if action == 0:
            wrong = key != self.keys.get(host, 0)
            where = ("the host is registered, RK " if is_known else "the host is not registered, RK ") + (
                ("not its key" if is_known else "not 0") if wrong else
                (f"{'its key' if is_known else '0'}, SK {'not 0' if wanted else '0'}"))
            self.see(f"action | 0 REGISTER | {where}")
            if wrong:
                return "CONFLICT", {}
        else:
            self.see("action | 6 REGISTER AND IGNORE EXISTING KEY | ")
            shown = "RK its key" if key == self.keys.get(host, 0) else "RK another"
            self.see(f"actions | {name} | {'registered' if is_known else 'not registered'}, {shown}, "
                     f"SK {'not 0' if wanted else '0'}")
        if not is_known and not wanted:
            return "GOOD", {}
        told = {}
        if wanted:
            self.keys[host] = wanted
        else:
            told = self.unregister(host, name, others)
        self.counted(aptpl)
        return "GOOD", told

    def unregister(self, host, name, others):
        told, held = {}, self.type
        if held:
            which = "types 7 and 8" if held in ALL else "types 1, 3, 5, 6"
            self.see(f"action | unregistering | under {which}")
            self.see(f"unregistering | {name} | under type {held}, "
                     f"{'the last' if not others else 'a holder' if self.holds(host) else 'another'}")
        if held in (5, 6) and self.holder == host:
            told = {other: (0x2A04, f"{name} that unregisters the holder of type {held}") for other in others}
            if told:
                self.see("when 2A/04 | the holder is unregistered by REGISTER or REGISTER AND IGNORE EXISTING KEY")
        if held not in (0, *ALL) and self.holder == host or not others:
            self.type, self.holder = 0, 0
        del self.keys[host]
        return told

    def reserve(self, host, scope_and_type, _wanted, _others):
        kind = scope_and_type & 15
        if not self.type:
            self.see("action | 1 RESERVE | no reservation is held")
            self.see(f"RESERVE | of type {kind}")
            self.take(host, kind)
            return "GOOD", {}
        if self.holds(host) and self.type == kind:
            self.see("action | 1 RESERVE | the host holds one of that type")
            self.see(f"RESERVE | again of type {kind}")
            return "GOOD", {}
        self.see("action | 1 RESERVE | else")
        self.see(f"RESERVE | conflict under type {self.type}, {'a holder' if self.holds(host) else 'another host'}")
        return "CONFLICT", {}

    def take(self, host, kind):
        self.type, self.holder = kind, 0 if kind in ALL else host

    def release(self, host, scope_and_type, _wanted, others):
        kind = scope_and_type & 15
        if not self.holds(host):
            self.see("action | 2 RELEASE | none is held, or not by this host")
            self.see(f"RELEASE | {f'type {self.type}, not by this host' if self.type else 'none is held'}")
            return "GOOD", {}
        if self.type != kind:
            self.see("action | 2 RELEASE | the host holds one of another type")
            self.see(f"RELEASE | of another type than {self.type}")
            return 0x2604, {}
        self.see("action | 2 RELEASE | the host holds one of that type")
        self.see(f"RELEASE | of type {kind}")
        self.type, self.holder = 0, 0
        if kind < 5 or not others:
            return "GOOD", {}
        self.see("when 2A/04 | RELEASE by a holder, of the type that is held")
        return "GOOD", {other: (0x2A04, f"RELEASE of type {kind}") for other in others}

    def clear(self, _host, _scope_and_type, _wanted, others):
        self.see("action | 3 CLEAR | ")
        self.see(f"CLEAR | under {f'type {self.type}' if self.type else 'no reservation'}")
        self.keys, self.type, self.holder = {}, 0, 0
        self.counted()
        return "GOOD", {other: (0x2A03, "CLEAR") for other in others}

    def preempt(self, host, scope_and_type, wanted, others):
        kind, before = scope_and_type & 15, self.type
        under = f"type {before}" if before else "no reservation"
        self.see("action | 4 PREEMPT | ")
        if not wanted and before not in ALL:
            self.see("preempt | 1 | SK 0, else")
            self.see(f"PREEMPT | case 1, refused under {under}")
            return 0x2600, {}
        if wanted and wanted not in self.keys.values():
            self.see("preempt | 2 | SK is nobody's key")
            self.see(f"PREEMPT | case 2 under {under}")
            return "CONFLICT", {}
        takes = not wanted or (before not in (0, *ALL) and self.keys[self.holder] == wanted)
        if takes and scope_and_type not in TYPED:
            which = f"scope {scope_and_type >> 4:X}h" if scope_and_type >> 4 else f"type {kind:X}h"
            self.see(f"PREEMPT | case {3 if wanted else 1}, refused {which}")
            return 0x2400, {}
        gone = [other for other in others if not wanted or self.keys[other] == wanted]
        if takes:
            self.take(host, kind)
            case = 3 if wanted else 1
            where = CASE_3 if wanted else "SK 0, under types 7 and 8"
        else:
            case, where = 4, "any other SK"
            if scope_and_type not in TYPED:
                self.see("PREEMPT | case 4 does not look at scope and type")
        self.see(f"preempt | {case} | {where}")
        self.see(f"PREEMPT | case {case} under {under}" + (f", of type {kind}" if takes else ""))
        if wanted and self.keys[host] == wanted:
            self.see(f"PREEMPT | case {case}, SK is the host's own key")
        if not takes and not gone:
            self.see("PREEMPT | changes nothing")
        for other in gone:
            del self.keys[other]
        self.counted()
        told = {other: (0x2A05, f"PREEMPT, case {case}") for other in gone}
        if case == 3 and kind != before:
            stay = [other for other in self.keys if other != host]
            if stay:
                self.see("when 2A/04 | PREEMPT, case 3, where the type changes (own)")
            told.update({other: (0x2A04, f"PREEMPT, case 3, from type {before}") for other in stay})
        return "GOOD", told
