#!/usr/bin/env python3
"""Keeps folders on a cartridge, over `vtl serve`. Each is a tar stream in blocks, then its digest, then a filemark."""
import argparse
import contextlib
import hashlib
import os
import stat
import struct
import sys
import tarfile
from subprocess import PIPE, Popen

BLOCK = 262_144
tarfile.TarFile.extraction_filter = staticmethod(getattr(tarfile, "tar_filter", lambda member, _: member))
TEST_UNIT_READY, REWIND, TO_END_OF_DATA, READ_POSITION, READ, WRITE_FILEMARK, ERASE = map(bytes.fromhex, (
    "000000000000", "010000000000", "110300000000", "34000000000000000000", "080204000000", "100000000100",
    "190000000000"))
# Status, and sense key, additional sense code and its qualifier.
COMMAND, MOVE, INVENTORY = 1, 2, 3
CHECK_CONDITION, RESERVATION_CONFLICT = 0x02, 0x18
DIGEST = b"sha256 "
FILEMARK, EARLY_WARNING, BEGINNING, END_OF_DATA, POWER_ON = 0x00001, 0x00002, 0x00004, 0x80005, 0x62900
WORDS = {FILEMARK: "a filemark", EARLY_WARNING: "the end of the partition is near", BEGINNING: "the beginning",
         END_OF_DATA: "the end of data", 0x23A00: "no cartridge is in the drive", 0x30C00: "it could not be stored",
         0x31100: "the cartridge cannot be read", 0x44400: "the medium has failed: unload it", 0x62A03: "preempted",
         0x62800: "the cartridge may be another one", 0xD0002: "the partition is full"}


def stop(why):
    raise OSError(why)


class Drive:
    """A drive of the library that `vtl serve` runs. tarfile writes to it and reads from it as a file."""

    def __init__(self, program, config, number):
        self.served = Popen([program, "serve", "--explain", "--config", config], stdin=PIPE, stdout=PIPE)
        self.number, self.tag, self.bytes, self.is_warned = number, 0, 0, False
        self.digest, self.stored = hashlib.sha256(), None

    def answer(self, kind, host, drive, block, data=b""):
        """Status, sense data and data for a request. A header of 16 bytes counts what follows."""
        self.tag = (self.tag + 1) % 2**32
        header = struct.pack(">BBBBII4x", kind, host, drive, len(block), len(data), self.tag)
        with contextlib.suppress(BrokenPipeError):
            self.served.stdin.write(header + block + data)
            self.served.stdin.flush()
        header = self.served.stdout.read(16)
        if len(header) < 16:
            stop("vtl has ended")
        _, _, status, sense, length, tag = struct.unpack(">BBBBII4x", header)
        given = self.served.stdout.read(sense + length)
        if len(given) < sense + length or tag != self.tag:
            stop("the answer is cut off, or another command's")
        self.bytes += len(data) + length
        if sys.stderr.isatty():
            print(f"\r{self.bytes:,} bytes ", end="", file=sys.stderr)
        return status, given[:sense], given[sense:]

    def command(self, block, data=b"", expected=()):
        """What it gives, and 0 or an expected code. A unit attention condition is fetched, the command sent again."""
        status, sense, given = self.answer(COMMAND, 1, self.number, block, data)
        if status == RESERVATION_CONFLICT:
            stop("the drive is reserved for another host")
        if status != CHECK_CONDITION:
            return given, 0
        code = (sense[2] & 0x0F) << 16 | sense[12] << 8 | sense[13]
        words = WORDS.get(code, f"sense key {code >> 16:X}h, {sense[12]:02X}h/{sense[13]:02X}h")
        if code >> 16 == 0x6:
            if code != POWER_ON:
                print(f"tape: {words}", file=sys.stderr)
            return self.command(block, data, expected)
        if code not in expected:
            stop("of an earlier command: " * (sense[0] & 0x7F == 0x71) + words)
        return given, code

    def append(self, block, data=b""):
        """What is answered by early warning is written all the same; that is reported once."""
        code = self.command(block, data, (EARLY_WARNING,))[1]
        if code and not self.is_warned:
            print(f"tape: {WORDS[code]}", file=sys.stderr)
        self.is_warned |= bool(code)

    def passes_marks(self, count):
        """Spaces over filemarks, backward where the count is negative; False where there are not so many."""
        block = b"\x11\x01" + min(count, 2**23 - 1).to_bytes(3, "big", signed=True) + b"\x00"
        return not self.command(block, expected=(BEGINNING, END_OF_DATA))[1]

    def places(self):
        """The barcode at each element address, empty where no cartridge is."""
        entries = self.answer(INVENTORY, 0, 0, b"")[2]
        return {address: barcode.rstrip(b" \0").decode() for address, barcode in struct.iter_unpack(">I16s", entries)}

    def move(self, source, target):
        if self.answer(MOVE, 0, 0, struct.pack(">II", source, target))[0]:
            stop("the cartridge cannot be moved: the drive is reserved, or prevents it")

    def take(self, barcode):
        """Has this cartridge in the drive; another one goes to an empty slot. Moves last until the program ends."""
        places = self.places()
        if self.number not in places:
            stop(f"there is no drive {self.number}")
        source = next((at for at, there in places.items() if there == barcode), None)
        if source is None:
            stop(f"there is no cartridge {barcode}")
        if source == self.number:
            return
        if places[self.number]:
            self.move(self.number, next(at for at, there in places.items() if at > 1000 and not there))
        self.move(source, self.number)
        # The conditions that power on and these moves established are fetched: they were asked for.
        for _ in range(2):
            self.answer(COMMAND, 1, self.number, TEST_UNIT_READY)

    def write(self, data):
        self.digest.update(data)
        self.append(b"\x0a\x00" + len(data).to_bytes(3, "big") + b"\x00", data)

    def read(self, _):
        """The next block of a stream; none at its digest, a filemark or the end of data."""
        data = self.command(READ, expected=(FILEMARK, END_OF_DATA))[0] if self.stored is None else b""
        if data.startswith(DIGEST) and len(data) < 512:
            self.stored, data = data, b""
        self.digest.update(data)
        return data

    def summed(self):
        """The block behind a stream that was written or read."""
        return DIGEST + self.digest.hexdigest().encode()


def save(drive, folder):
    """Writes behind the last filemark, over what a save that was cut off left. One that breaks off is erased."""
    drive.command(TO_END_OF_DATA)
    if drive.passes_marks(-1):
        drive.passes_marks(1)
    start = drive.command(READ_POSITION)[0][4:8]
    try:
        with tarfile.open(fileobj=drive, mode="w|", bufsize=BLOCK) as stream:
            stream.add(folder, arcname=".")
        drive.write(drive.summed())
        drive.append(WRITE_FILEMARK)
    except OSError:
        with contextlib.suppress(OSError):
            drive.command(b"\x2b\x00\x00" + start + bytes(3))
            drive.command(ERASE)
        raise


def reads(drive, number, use, report):
    """Gives the stream of a save to `use`, and says whether there is such a save; `report` gets a line of a bad one."""
    drive.command(REWIND)
    before, drive.digest, drive.stored = drive.bytes, hashlib.sha256(), None
    try:
        if number == 1 or drive.passes_marks(number - 1):
            with tarfile.open(fileobj=drive, mode="r|", bufsize=BLOCK) as stream:
                use(stream)
            while drive.read(BLOCK):
                pass
            if drive.stored != drive.summed():
                report(f"save {number} " + ("has no digest" if drive.stored is None else "is not what was saved"))
    except tarfile.ReadError:
        if drive.bytes > before:
            report(f"save {number} is no folder, or it broke off")
    return drive.bytes > before


def differs(stream, member, path):
    """Whether what stands at the path is other than a member of a save."""
    try:
        found = os.lstat(path)
    except OSError:
        return True
    if member.issym():
        return not stat.S_ISLNK(found.st_mode) or os.readlink(path) != member.linkname
    if member.isdir():
        return not stat.S_ISDIR(found.st_mode)
    if not member.isreg() or not stat.S_ISREG(found.st_mode) or found.st_size != member.size:
        return member.isreg()
    with open(path, "rb") as file, stream.extractfile(member) as saved:
        return any(saved.read(BLOCK) != data for data in iter(lambda: file.read(BLOCK), b""))


def verify(stream, folder):
    """Compares a save with a folder, and names what differs, lacks or is there in addition."""
    left = {os.path.join(at, name) for at, folders, files in os.walk(folder) for name in folders + files}
    wrong = []
    for member in stream:
        path = os.path.normpath(os.path.join(folder, member.name))
        left.discard(path)
        if differs(stream, member, path):
            wrong.append(path)
    for path in wrong + sorted(left):
        print(f"differs: {path}")
    if wrong or left:
        stop("the folder is not what was saved")


def erase(drive):
    drive.command(REWIND)
    drive.command(ERASE)


def carry_out(drive, words):
    if words.barcode:
        drive.take(words.barcode)
    if words.order == "save":
        return save(drive, words.folder)
    if words.order == "erase":
        return erase(drive)
    if words.order == "list":
        number = 1
        while reads(drive, number, lambda it: print(f"save {number}", *it.getnames(), sep="\n  "), print):
            number += 1
        return None
    use = {"restore": lambda it, to: it.extractall(to), "verify": verify}[words.order]
    if not words.number.isdecimal() or not int(words.number) or not reads(
            drive, int(words.number), lambda it: use(it, words.folder), stop):
        return stop(f"there is no save {words.number}")
    return None


def words_of(words):
    parser = argparse.ArgumentParser(prog="tape.py", description=__doc__, allow_abbrev=False, epilog=(
        "The program is `vtl`, or what VTL names, and the configuration `library.toml`, or what CONFIG names."))
    parser.add_argument("--drive", type=int, default=1, choices=range(1, 17), metavar="NUMBER", help="1 if left out")
    parser.add_argument("--barcode", help="the cartridge; else the one that is in the drive at a start")
    orders = parser.add_subparsers(dest="order", required=True, metavar="ORDER")
    for order, names, what in (
            ("save", ["folder"], "writes a folder behind the last filemark; ends once it is stored"),
            ("list", [], "names what each save holds"),
            ("verify", ["number", "folder"], "reads a save, from 1 on, and compares it with a folder"),
            ("restore", ["number", "folder"], "reads a save into a folder"),
            ("erase", [], "erases all of the cartridge that --barcode names")):
        one = orders.add_parser(order, help=what, description=what, allow_abbrev=False)
        for name in names:
            one.add_argument(name)
    words = parser.parse_args(words)
    if words.order == "erase" and not words.barcode:
        parser.error("erase wants --barcode")
    return words


def main(words):
    try:
        drive = Drive(os.environ.get("VTL", "vtl"), os.environ.get("CONFIG", "library.toml"), words.drive)
        try:
            carry_out(drive, words)
        finally:
            drive.served.communicate()
    except (OSError, tarfile.TarError) as error:
        sys.exit(f"tape: {error}")
    if drive.served.returncode:
        sys.exit(f"tape: vtl ended with status {drive.served.returncode}")


if __name__ == "__main__":
    sys.stdout.reconfigure(errors="surrogateescape")
    main(words_of(sys.argv[1:]))
