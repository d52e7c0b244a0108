"""A library as docs/FORMATS.md says it: drives and slots, power on, moves, and the lines of a script."""
import re

from .drive import Drive, check
from .work import Cartridge

LONGEST_LINE = 2_200_000
NUMBER = re.compile(rb"[0-9]{1,5}")
HEX = re.compile(rb"(?:[0-9a-fA-F]{2})+")


class Library:
    def __init__(self, config, sides, see):
        """sides: the Cartridge of each cartridge's file, the Reservations of each drive's, by name."""
        self.see, self.slots, self.drives = see, {}, {}
        for entry in config["drive"]:
            self.drives[entry["number"]] = Drive(entry["number"], sides.get(entry["reservations"]), see)
        for entry in config["cartridge"]:
            cartridge = sides.get(entry["file"]) or Cartridge(entry["capacities"])
            home = entry["home"]
            if home in self.drives:
                if not self.drives[home].put(cartridge):
                    see("power | the cartridge in the drive is damaged: the drive is on, the medium unloaded")
            else:
                self.slots[home] = cartridge

    def at(self, address):
        return self.drives[address].cartridge if address in self.drives else self.slots.get(address)

    def move(self, source, target):
        for address, what in ((source, "FROM"), (target, "TO")):
            if address not in self.drives and not 1001 <= address <= 1256:
                kind = {0: "0", 17: "17", 1000: "1000", 1257: "1257", 99999: "99999"}.get(address)
                if kind:
                    self.see(f"moves | {what} {kind} is no address")
                if 1 <= address <= 16:
                    self.see(f"moves | {what} is a drive that is not configured")
                self.see("move | an address is no slot's and no configured drive's")
                return check(5, 0x2101)
        touched = [("source", source), ("destination", target)]
        held = [what for what, at in touched if at in self.drives and self.drives[at].reservations.type]
        if held:
            self.see("move | a reservation is held at a drive that is touched, source or destination, with a "
                     "cartridge in it or not")
            for what, at in touched:
                if what in held:
                    self.see(f"moves | a reservation is held at the {what}, "
                             f"{'with' if self.at(at) else 'without'} a cartridge in it")
            return "CONFLICT"
        kinds = ["drive" if at in self.drives else "slot" for at in (source, target)]
        if self.at(source) is None:
            self.see("move | nothing is at the source")
            self.see(f"moves | nothing is at the source, a {kinds[0]}")
            return check(5, 0x3B0E)
        if self.at(target) is not None:
            self.see("move | something is at the destination, as always where both are one address")
            self.see(f"moves | something is at the destination, "
                     f"{'the same address' if source == target else f'a {kinds[1]}'}")
            return check(5, 0x3B0D)
        for address in (source, target):
            if address in (1, 16, 1001, 1256):
                self.see(f"moves | {address} is an address")
        return self.carry(source, target, kinds)

    def carry(self, source, target, kinds):
        cartridge = self.at(source)
        was_loaded = kinds[0] == "drive" and self.drives[source].loaded
        self.see("out | slot | " if kinds[0] == "slot" else
                 f"out | drive | {'a loaded' if was_loaded else 'an unloaded'} cartridge")
        if kinds[1] == "drive" and cartridge.damaged:
            self.see("in | drive | it cannot be loaded: it is put back")
            self.see("back | the cartridge is damaged, or its device fails")
            self.see("fault | a parked medium is loaded, by a move or at the start: it is damaged, or the device fails")
            self.see(f"moves | a damaged cartridge is back at its source, a {kinds[0]}")
            if kinds[0] == "drive":
                self.drives[source].loaded = False
            return check(3, 0x1100)
        if kinds[0] == "drive":
            self.drives[source].cartridge, self.drives[source].loaded = None, False
        else:
            del self.slots[source]
        self.see(f"moves | from a {kinds[0]} to a {kinds[1]}")
        if kinds[1] == "slot":
            self.see("in | slot | it is put there")
            self.slots[target] = cartridge
            return "GOOD"
        self.see("in | drive | it is loaded as by LOAD UNLOAD with LOAD 1: the position is object 0 of partition 0. "
                 "28/00 is established at that drive for every host")
        drive = self.drives[target]
        drive.put(cartridge)
        drive.tell(drive.told, 0x2800, "a move")
        return "GOOD"

    # lines

    def bad(self, line, text):
        """Why a line is bad, as cells; None where it is none."""
        raw = line.text
        if len(raw) > LONGEST_LINE:
            what = "a remark" if raw.lstrip(b" ").startswith(b"#") else "a line of spaces" if not raw.strip(b" ") \
                else "a command"
            return [f"bad line | {len(raw):,} bytes, {what}"] if len(raw) == LONGEST_LINE + 1 else ["bad line"]
        if not text or text.startswith(b"#") or text == b"--":
            return None
        fields = [field for field in text.split(b" ") if field]
        if fields[0] == b"move":
            if len(fields) != 3:
                return [f"bad line | move with {'fewer' if len(fields) < 3 else 'more'} fields"]
            return next(([f"bad line | move, {what} {why}"] for what, field in zip(("FROM", "TO"), fields[1:])
                         if (why := no_number(field))), None)
        if fields[0].lower() == b"move":
            return ["bad line | move in capitals"]
        if len(fields) < 3:
            return [f"bad line | {len(fields)} field{'s' if len(fields) > 1 else ''}"]
        for what, field in (("HOST", fields[0]), ("DRIVE", fields[1])):
            why = no_number(field)
            if why:
                return [f"bad line | {what} {why}"]
        host, drive = int(fields[0]), int(fields[1])
        if not 1 <= host <= 64:
            return [f"bad line | host {host}"]
        if drive not in self.drives:
            return [f"bad line | drive {'0' if not drive else '17' if drive == 17 else 'that is not configured'}"]
        if len(fields) > 4:
            return ["bad line | more fields"]
        for what, field in zip(("CDB", "DATA"), fields[2:]):
            if not HEX.fullmatch(field):
                return [f"bad line | {what} {no_hexadecimal(field)}"]
        return None

    def shows(self, line, text):
        """The cells of a line that is taken."""
        raw, see = line.text, self.see
        if len(raw) == LONGEST_LINE:
            see(f"line | {LONGEST_LINE:,} bytes" + (", a remark" if text.startswith(b"#") else
                                                   ", spaces" if not text else ", a command"))
        if raw.endswith(b"\r") and line.has_end:
            see(f"line | a CR before the LF{', a remark or empty' if line.kind == 'skipped' else ''}")
        if not line.has_end:
            see("line | the last has no LF")
        if raw[:1] == b" ":
            see("line | spaces before it")
        if raw.rstrip(b"\r")[-1:] == b" ":
            see("line | spaces behind it")
        if line.kind == "skipped":
            see("line | " + ("a remark" if text else "empty" if not raw.strip(b"\r") else "of spaces"))
        if b"  " in raw.strip(b" \r") and line.kind != "skipped":
            see("line | several spaces between fields")
        if line.kind == "move":
            for field in line.fields[1:]:
                if len(field) == 5 and field[:1] == b"0":
                    see("line | move, an address of five digits with leading zeros")
        if line.kind == "command":
            if len(line.fields) == 4:
                see("line | with data")
            if len(line.fields[0]) == 5 or len(line.fields[1]) == 5:
                see("line | a number of five digits, leading zeros included")
            if line.host in (1, 64):
                see(f"line | host {line.host}")
            if line.drive in (1, 16):
                see(f"line | drive {line.drive}")
            if re.search(rb"[A-F]", b"".join(line.fields[2:])):
                see("line | hexadecimal in capitals")

    def answer(self, line):
        fields = line.fields
        if line.kind == "move":
            return self.move(int(fields[1]), int(fields[2]))
        data = bytes.fromhex(fields[3].decode()) if len(fields) > 3 else b""
        return self.drives[line.drive].execute(line.host, bytes.fromhex(fields[2].decode()), data)


def stripped(line):
    raw = line.text
    return (raw[:-1] if line.has_end and raw.endswith(b"\r") else raw).strip(b" ")


def no_number(field):
    if NUMBER.fullmatch(field):
        return None
    if field.isdigit():
        return "of six digits"
    if field[:1] in b"+-" and field[1:].isdigit():
        return "with a sign"
    if field.lower().startswith(b"0x"):
        return "with 0x"
    return "with a tab" if b"\t" in field else "with a CR" if b"\r" in field else "that is no number"


def no_hexadecimal(field):
    if b"\t" in field or b"\r" in field:
        return "with a tab" if b"\t" in field else "with a CR"
    if field.lower().startswith(b"0x"):
        return "with 0x"
    return "of an odd count of digits" if re.fullmatch(rb"[0-9a-fA-F]+", field) else "that is no hexadecimal"
