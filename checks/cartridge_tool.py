#!/usr/bin/env python3
"""Compares tools/cartridge.py with the program, and with bytes that were worked out by hand.

Its `check` must print the lines of `vtl check FILE`, with its status: over each file that the runs of rows/ and of
examples/ leave; over the worked files of FORMATS.md, cut behind each byte, and with each byte set to other values; and
over --count files of hostile.py. There no other order may fail either, and no file may change. What it extracts, past
damages too, is compared with blocks that stand here. --program PATH: another program than the proved one."""
import argparse
import contextlib
import fcntl
import importlib.util
import io
import os
import shutil
import subprocess
import sys
import tempfile

import examples
import hostile
import rowfile
import rows

TOP = os.path.dirname(os.path.dirname(os.path.abspath(__file__)))
TOOL = os.path.join(TOP, "tools", "cartridge.py")
ORDERS = (["list"], ["list", "--past"], ["extract", "--past"], ["list", "--side", "1", "--past"],
          ["list", "--side", "2", "--past"], ["extract", "--side", "1", "--from", "1", "--to", "2"])

HEAD = bytes.fromhex("a5 56544c4341525431 00 01 5430303030314c36 2020202020202020 0000000000001000")
HELLO = bytes.fromhex("a5 0000000f 01 00 00000000 00000005 68656c6c6f")
MARK = bytes.fromhex("a5 0000000a 02 00 00000001 00000001")
ONE = bytes.fromhex("a5 0000000b 01 00 00000000 00000001 78")
EPOCH = HEAD[:10] + b"\x81" + HEAD[11:] + bytes.fromhex("0000000000000001 00000001")
STORE = bytes.fromhex("a5 56544c5245535631 00 00 445249564531 20202020202020202020 a5 0000000d 01 00 00 01 01"
                      "00000000000000a1 a5 0000000d 01 05 01 01 01 00000000000000a1 00")
PAIRED = HEAD[:9] + b"\xa5" + HEAD[10:] + HELLO + MARK + ONE + b"\0"
# the worked files: a cartridge of two frames, a pair that was reclaimed once, and twice, a store
WORKED = {"cartridge": (HEAD + HELLO + MARK + b"\0", None), "pair": (PAIRED, EPOCH + ONE + b"\0"),
          "pair again": (EPOCH[:9] + b"\xa5" + EPOCH[10:42] + b"\2" + EPOCH[43:] + ONE + b"\0", EPOCH + ONE + b"\0"),
          "store": (STORE, None)}

# five frames: alpha, a filemark, beta, gamma with a filemark, delta; gates at 35, 55, 70, 89, 119, the end gate at 139
FIVE = HEAD + b"".join(bytes.fromhex(frame) for frame in (
    "a5 0000000f 0100 00000000 00000005 616c706861", "a5 0000000a 0200 00000001 00000001",
    "a5 0000000e 0100 00000002 00000004 62657461",
    "a5 00000019 0100 00000003 00000005 67616d6d61 0200 00000004 00000001",
    "a5 0000000f 0100 00000005 00000005 64656c7461", "00"))
# two filemarks that one change writes, and a block behind them
TWO = HEAD + HELLO + MARK[:-1] + b"\2" + ONE[:10] + b"\3" + ONE[11:] + b"\0"
# words of extract, a change of FIVE (place, bytes) or another file, and what is extracted: the status, the files
A, BG, D = {"000000-00000000": b"alpha"}, {"000001-00000002": b"betagamma"}, {"000002-00000005": b"delta"}
SALVAGED = (
    ([], None, 0, A | BG | D),
    (["--from", "2", "--to", "3"], None, 0, BG),
    (["--from", "3"], None, 0, {"000001-00000003": b"gamma"} | D),
    (["--to", "6"], None, 1, A | BG | D),
    ([], TWO, 0, {"000000-00000000": b"hello", "000002-00000003": b"x"}),
    (["--from", "2"], TWO, 0, {"000002-00000003": b"x"}),
    (["--partition", "1"], None, 1, {}),
    # a length that is none, and one that is wrong
    ([], (71, b"\xff"), 1, A),
    (["--past"], (71, b"\xff"), 1, A | BG | D),
    (["--past"], (74, b"\x0d"), 1, A | BG | D),
    # a gate in the middle is closed: what FORMATS reads is whole
    ([], (70, b"\x25"), 0, A),
    (["--past"], (70, b"\x25"), 0, A | BG | D),
    # a kind that is none, a block that is too long: object 2 is missing
    ([], (75, b"\7"), 1, A),
    (["--past"], (75, b"\7"), 1, A | {"000001-00000003": b"gamma"} | D),
    (["--past"], (83, b"\x7f"), 1, A | {"000001-00000003": b"gamma"} | D),
    (["--past", "--to", "1"], (75, b"\7"), 1, A),
    # a page of zeros: objects 1 and 2, of which one was a filemark
    (["--past"], (68, bytes(10)), 1, A | {"000000-00000003": b"gamma", "000001-00000005": b"delta"}),
    # the end is cut off: of the last frame a part, and all but its gate
    (["--past"], (136, None), 1, A | BG),
    (["--past"], (139, None), 1, A | BG | D),
    # nothing of the header but the count of partitions
    (["--side", "1"], (0, bytes(10)), 0, A | BG | D),
)
# what list says of the pair, and of five frames of which one has a kind that is none
LISTED = (
    (WORKED["pair"], [], 0, """SIDE: bytes 87, gates a5 a5, layout 1 of T00001L6, epoch 0, base 0
SIDE.2: bytes 64, gates a5 00, layout 2 of T00001L6, epoch 1, base 1, counts
cartridge T00001L6 partitions 1 frames 1
frames from 47 to 63
partition 0 objects 1 used 17 of 4096
  objects 0 to 0: blocks 1 of 1 bytes, 1 in all
"""),
    ((FIVE[:75] + b"\7" + FIVE[76:], None), ["--past"], 1,
     """SIDE: bytes 140, gates a5 00, layout 1 of T00001L6, epoch 0, base 0, counts
SIDE.2: bytes 0, gates missing, no header
bad record at 70
frames from 35 to a bad one
partition 0 objects 6 used 95 of 4096
  objects 0 to 0: blocks 1 of 5 bytes, 5 in all
  objects 1 to 1: filemarks 1
  objects 2 to 2: missing 1
  objects 3 to 3: blocks 1 of 5 bytes, 5 in all
  objects 4 to 4: filemarks 1
  objects 5 to 5: blocks 1 of 5 bytes, 5 in all
"""),
    (WORKED["store"], [], 0, """SIDE: bytes 64, gates a5 00, layout 1 of DRIVE1, epoch 0, base 0, counts
SIDE.2: bytes 0, gates missing, no header
reservations DRIVE1 frames 2 registrations 1
frames from 27 to 63
APTPL 1, reservation of type 5, holder 1
  host 1: key 00000000000000a1
"""),
)


class Compared:
    """What the tool says of files, and the program."""

    def __init__(self, program):
        self.program, self.count, self.wrong, self.known = program, 0, 0, set()
        described = importlib.util.spec_from_file_location("cartridge", TOOL)
        self.tool = importlib.util.module_from_spec(described)
        described.loader.exec_module(self.tool)

    def tell(self, where, said):
        self.wrong += 1
        print(f"{where}: {said}")

    def ended(self, *words):
        """The tool's status and its standard output."""
        out, error, sys.argv = io.TextIOWrapper(io.BytesIO(), write_through=True), io.StringIO(), [TOOL, *words]
        self.tool.say = lambda text: error.write(f"{text}\n")
        with contextlib.redirect_stdout(out):
            try:
                return self.tool.main(), out.buffer.getvalue()
            except Exception as fault:  # whatever it is, it is the tool's
                return repr(fault), out.buffer.getvalue()

    def look_at(self, path, where, is_all=False):
        """A file and its second one. What was looked at before is not again."""
        contents = [content(name) for name in (path, path + ".2")]
        if tuple(map(hash, contents)) in self.known or contents[0] is None:
            return
        self.known.add(tuple(map(hash, contents)))
        self.count += 1
        done = subprocess.run([self.program, "check", path], stdout=subprocess.PIPE, stderr=subprocess.PIPE)
        found = self.ended("check", path)
        if found != (done.returncode, done.stdout):
            self.tell(where, f"the tool says {found}, the program {(done.returncode, done.stdout)}")
        for words in ORDERS if is_all else ORDERS[:1]:
            status, _ = self.ended(*words, path)
            if status not in (0, 1, 2) or (words == ["list"] and status != done.returncode):
                self.tell(where, f"{' '.join(words)}: {status}")
        if contents != [content(name) for name in (path, path + ".2")]:
            self.tell(where, "a file has changed")

    def put(self, room, files, where, is_all=True):
        path = os.path.join(room, "side")
        for name, data in zip((path, path + ".2"), files):
            if data is not None:
                with open(name, "wb") as file:
                    file.write(data)
            elif os.path.exists(name):
                os.remove(name)
        self.look_at(path, where, is_all)
        return path


def content(path):
    """The bytes of a file, or what else has the name."""
    if os.path.isfile(path):
        with open(path, "rb") as file:
            return file.read()
    return None if not os.path.lexists(path) else "another thing"


class Rows(rows.Room):
    """A row, whose files are looked at behind each run."""

    def __init__(self, compared, row, room):
        super().__init__(compared.program, row, rows.WAYS[0], room)
        self.compared = compared

    def run(self, run):
        super().run(run)
        for folder, _, names in os.walk(self.room):
            for name in sorted(names):
                if not name.endswith((".2", ".toml")):
                    self.compared.look_at(os.path.join(folder, name), f"{self.row.path}:{run.number}: {name}")


def all_rows(compared):
    found, said = rows.read_all([os.path.join(TOP, "rows")])
    for row in found:
        if any(isinstance(step, rowfile.Step) and step.kind in ("config", "file") for step in row.steps):
            with tempfile.TemporaryDirectory(prefix="vtl-tool-", dir=hostile.MEMORY) as room:
                Rows(compared, row, room).all()


def all_examples(compared):
    names = sorted(name[:-len(".script")] for name in os.listdir(examples.EXAMPLES) if name.endswith(".script"))
    with tempfile.TemporaryDirectory(prefix="vtl-tool-", dir=hostile.MEMORY) as room:
        shutil.copy(os.path.join(examples.EXAMPLES, "library.toml"), room)
        library = examples.Library(compared.program, room)
        library.create()
        for name in names:
            library.run(name)
            for file in sorted(os.listdir(room)):
                if file.endswith((".tape", ".pr")):
                    compared.look_at(os.path.join(room, file), f"{file} behind {name}", is_all=True)
            if name == "02-append":
                extracted(compared, os.path.join(room, "daily1.tape"), name, [], 0,
                          {"000000-00000000": b"hello, tape", "000001-00000003": b"two",
                           "000002-00000005": b"three!", "000003-00000008": b"FOUR"})


def extracted(compared, path, where, words, status, wanted):
    """Into a folder, and as a stream."""
    compared.count += 1
    with tempfile.TemporaryDirectory(prefix="vtl-tool-", dir=hostile.MEMORY) as folder:
        found = compared.ended("extract", path, *words, "--into", folder)
        files = {name: content(os.path.join(folder, name)) for name in sorted(os.listdir(folder))}
    if found != (status, b"") or files != {f"file-{name}": data for name, data in wanted.items()}:
        compared.tell(where, f"extract {' '.join(words)}: {found}, {files}")
    found = compared.ended("extract", path, *words)
    if found != (status, b"".join(wanted.values())):
        compared.tell(where, f"extract {' '.join(words)}: {found}")


def salvaged(compared):
    with tempfile.TemporaryDirectory(prefix="vtl-tool-", dir=hostile.MEMORY) as room:
        for words, change, status, wanted in SALVAGED:
            place, new = (0, change) if isinstance(change, bytes) else change or (0, b"")
            data = new if change is TWO else FIVE[:place] + (b"" if new is None else new + FIVE[place + len(new):])
            where = f"frames with {change}"
            extracted(compared, compared.put(room, (data, None), where), where, words, status, wanted)


def listed(compared):
    """What list says, and what cannot be read: a file in use, one that is missing, a folder."""
    with tempfile.TemporaryDirectory(prefix="vtl-tool-", dir=hostile.MEMORY) as room:
        for files, words, status, said in LISTED:
            path = compared.put(room, files, said)
            found = compared.ended("list", path, *words)
            if found != (status, said.replace("SIDE", path).encode()):
                compared.tell("list", found[1].decode())
        with open(path, "rb") as file:
            fcntl.flock(file, fcntl.LOCK_EX)
            in_use = compared.ended("check", path)
        found = [in_use, *(compared.ended("check", name) for name in (os.path.join(room, "none"), room))]
        if found != [(2, b"")] * 3:
            compared.tell("what cannot be read", found)


def worked(compared):
    """The worked files: cut behind each byte, and with each byte set to other values."""
    with tempfile.TemporaryDirectory(prefix="vtl-tool-", dir=hostile.MEMORY) as room:
        for name, files in WORKED.items():
            compared.put(room, files, name)
            for which, data in enumerate(files):
                for at in range(len(data or b"")):
                    old = data[at]
                    values = {0, 1, 2, 0xA5, 0xFF, old ^ 1, old ^ 0x80, (old + 1) % 256, (old - 1) % 256} - {old}
                    for new in [data[:at], *(data[:at] + bytes([value]) + data[at + 1:] for value in sorted(values))]:
                        both = [new if other == which else files[other] for other in (0, 1)]
                        compared.put(room, both, f"{name}, file {which + 1}, byte {at}: {new[at:at + 1].hex()}")


def hostile_files(compared, seed, count):
    with tempfile.TemporaryDirectory(prefix="vtl-tool-", dir=hostile.MEMORY) as room:
        for number in range(count):
            kind, files = hostile.made(seed, number, True)
            compared.put(room, files, f"file {number} of seed {seed} ({kind})")


def main():
    parser = argparse.ArgumentParser()
    parser.add_argument("--program", default=rows.PROVED)
    for name, value in (("--count", 1000), ("--seed", 1)):
        parser.add_argument(name, type=int, default=value)
    given = parser.parse_args()
    program = os.path.abspath(given.program)
    if not os.path.exists(program):
        sys.exit(f"{given.program} is not there; build the program first: make vtl")
    compared = Compared(program)
    for each in (salvaged, listed, worked, all_examples, all_rows):
        each(compared)
    hostile_files(compared, given.seed, given.count)
    print(f"tools: {compared.count} files, {compared.wrong} other than expected")
    return 1 if compared.wrong else 0


if __name__ == "__main__":
    sys.exit(main())
