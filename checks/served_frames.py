"""Frames of hosts with their answers: exchanges, frames that are refused, and how that is explained."""
import struct

COMMAND, MOVE, INVENTORY = 1, 2, 3
POWER_ON = bytes.fromhex("700006000000000a00000000290000000000")
READY, MARK = bytes(6), bytes.fromhex("100000000100")


def frame(kind, host, third, first=b"", data=b"", tag=0, length=None, last=bytes(4)):
    """A frame; `third` is the drive, or the status."""
    counted = len(data) if length is None else length
    return struct.pack(">BBBBII", kind, host, third, len(first), counted, tag) + last + first + data


def command(block, data=b"", tag=0, host=1, drive=1):
    return frame(COMMAND, host, drive, block, data, tag)


def good(tag, data=b"", host=1):
    return frame(COMMAND, host, 0, b"", data, tag)


# Each request with its answer: the power on condition of host 1, a WRITE of three bytes, a filemark, a REWIND, a READ,
# and the power on condition of host 2.
EXCHANGE = [
    (command(READY, tag=7), frame(COMMAND, 1, 2, POWER_ON, b"", 7)),
    (command(bytes.fromhex("0a0000000300"), b"abc", 8), good(8)),
    (command(MARK, tag=9), good(9)),
    (command(bytes.fromhex("010000000000"), tag=10), good(10)),
    (command(bytes.fromhex("080000000300"), tag=11), good(11, b"abc")),
]
REQUESTS, ANSWERS = (b"".join(sides) for sides in zip(*EXCHANGE))
TWO = EXCHANGE[:2]
# Behind it a block of 300,000 bytes, which no buffer of the program or of a pipe holds, is written and read.
BLOCK = bytes(range(250)) * 1_200
LONG = [
    *EXCHANGE,
    (command(bytes.fromhex("0a000493e000"), BLOCK, 12), good(12)),
    (command(bytes.fromhex("010000000000"), tag=13), good(13)),
    (command(bytes.fromhex("080000000300"), tag=14), good(14, b"abc")),
    (command(bytes.fromhex("08000493e000"), tag=15), good(15, BLOCK)),
]
# What may not stand behind two frames.
REFUSED = [
    *((f"kind {kind}", frame(kind, 1, 1, READY)) for kind in (0, 4, 0xFF)),
    *((f"host {host}", command(READY, host=host)) for host in (0, 65, 0xFF)),
    *((f"drive {drive}", command(READY, drive=drive)) for drive in (0, 17, 0xFF)),
    ("a drive that is not configured", command(READY, drive=2)),
    ("a drive that is not configured, with data", command(bytes.fromhex("0a0000000300"), b"abc", drive=2)),
    ("a block of 17 bytes", command(bytes(17))),
    ("data of 1,100,001 bytes, none of which comes", frame(COMMAND, 1, 1, READY, length=1_100_001)),
    *((f"a byte {12 + at} that is not 00h", frame(COMMAND, 1, 1, READY, last=bytes(at) + b"\1" + bytes(3 - at)))
      for at in range(4)),
    *((f"a move of {length} bytes", frame(MOVE, 0, 0, bytes(length))) for length in (0, 7, 9)),
    ("a move of a host", frame(MOVE, 1, 0, bytes(8))), ("a move of a drive", frame(MOVE, 0, 1, bytes(8))),
    ("a move with data", frame(MOVE, 0, 0, bytes(8), b"x")),
    ("an inventory of a host", frame(INVENTORY, 1, 0)), ("an inventory of a drive", frame(INVENTORY, 0, 1)),
    ("an inventory of 1 byte", frame(INVENTORY, 0, 0, b"x")),
    ("an inventory with data", frame(INVENTORY, 0, 0, b"", b"x")),
    ("a header of 15 bytes", command(READY)[:15]), ("a block that is cut off", command(READY)[:-1]),
    ("data that are cut off", command(bytes.fromhex("0a0000000300"), b"abc")[:-1]),
    ("a line of a script", b"1 1 000000000000\n"),
]


# What the lines of an explanation say of a frame: what is refused, where in its header, what is allowed.
KINDS = "1 a command, 2 a move, 3 an inventory"
HOSTS, DRIVES = ("1 to %d, 0 in a move and in an inventory" % most for most in (64, 16))
FRONTS = "0 to 16 in a command, 8 in a move, 0 in an inventory"
LENGTHS = "0 to 1100000 in a command, 0 in a move and in an inventory"
LAST = b"\1\0\0\1"
EXPLAINED = [
    (frame(9, 1, 1, READY), "kind 9", 0, KINDS),
    (command(READY, host=65), "host 65", 1, HOSTS),
    (command(READY, host=0), "host 0", 1, HOSTS),
    (frame(MOVE, 1, 0, bytes(8)), "host 1", 1, HOSTS),
    (frame(INVENTORY, 1, 0), "host 1", 1, HOSTS),
    (command(READY, drive=0), "drive 0", 2, DRIVES),
    (command(READY, drive=17), "drive 17", 2, DRIVES),
    (frame(MOVE, 0, 1, bytes(8)), "drive 1", 2, DRIVES),
    (frame(INVENTORY, 0, 1), "drive 1", 2, DRIVES),
    (command(READY, drive=2), "drive 2", 2, "a drive that is configured"),
    (command(bytes.fromhex("0a0000000300"), b"abc", drive=2), "drive 2", 2, "a drive that is configured"),
    # its header is one that another library takes
    (command(bytes.fromhex("0a0000000300"), b"abc", drive=2)[:-1], "the input ends inside the frame", None,
     "an end behind a frame"),
    (command(bytes(17)), "17 bytes before the data", 3, FRONTS),
    (frame(MOVE, 0, 0), "0 bytes before the data", 3, FRONTS),
    (frame(MOVE, 0, 0, bytes(7)), "7 bytes before the data", 3, FRONTS),
    (frame(MOVE, 0, 0, bytes(9)), "9 bytes before the data", 3, FRONTS),
    (frame(INVENTORY, 0, 0, b"x"), "1 byte before the data", 3, FRONTS),
    (frame(COMMAND, 1, 1, READY, length=1_100_001), "1100001 bytes of data", 4, LENGTHS),
    (frame(COMMAND, 1, 1, READY, length=0xFF00_0000), "4278190080 bytes of data", 4, LENGTHS),
    (frame(MOVE, 0, 0, bytes(8), b"x"), "1 byte of data", 4, LENGTHS),
    (frame(INVENTORY, 0, 0, b"", b"x"), "1 byte of data", 4, LENGTHS),
    *((frame(COMMAND, 1, 1, READY, last=bytes(at) + b"\1" + bytes(3 - at)), "a byte that is not 0", 12 + at, "0")
      for at in range(4)),
    (command(READY)[:-1], "the input ends inside the frame", None, "an end behind a frame"),
    (command(READY)[:3], "the input ends inside the frame", None, "an end behind a frame"),
    # each field has its greatest value
    (frame(COMMAND, 64, 16, bytes(16), length=1_100_000), "the input ends inside the frame", None,
     "an end behind a frame"),
    (frame(MOVE, 0, 0, bytes(8))[:-1], "the input ends inside the frame", None, "an end behind a frame"),
    # of several that are wrong, the first
    (frame(9, 65, 17, bytes(17), b"x", last=bytes(3) + b"\1"), "kind 9", 0, KINDS),
    (frame(COMMAND, 65, 17, bytes(17), length=1_100_001, last=LAST), "host 65", 1, HOSTS),
    (frame(COMMAND, 1, 17, bytes(17), length=1_100_001, last=LAST), "drive 17", 2, DRIVES),
    (frame(COMMAND, 1, 1, bytes(17), length=1_100_001, last=LAST), "17 bytes before the data", 3, FRONTS),
    (frame(COMMAND, 1, 1, READY, length=1_100_001, last=LAST), "1100001 bytes of data", 4, LENGTHS),
    (frame(COMMAND, 1, 1, READY, last=LAST), "a byte that is not 0", 12, "0"),
    (frame(MOVE, 1, 1, bytes(9), b"x", last=LAST), "host 1", 1, HOSTS),
    (frame(MOVE, 0, 1, bytes(9), b"x", last=LAST), "drive 1", 2, DRIVES),
    (frame(MOVE, 0, 0, bytes(9), b"x", last=LAST), "9 bytes before the data", 3, FRONTS),
    (frame(MOVE, 0, 0, bytes(8), b"x", last=LAST), "1 byte of data", 4, LENGTHS),
]
