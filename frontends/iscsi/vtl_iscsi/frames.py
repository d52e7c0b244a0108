"""The frames of `vtl serve` (docs/FORMATS.md, Frames): requests that are sent, heads of answers that are read."""
import struct
from typing import NamedTuple

from .sense import Reply

HEADER = struct.Struct(">BBBBII4x")
COMMAND, MOVE, INVENTORY = 0x01, 0x02, 0x03
# the most bytes of data in a frame
MOST_DATA = 1_100_000
_ENTRY = struct.Struct(">I16s")


class Head(NamedTuple):
    """The head of an answer."""
    kind: int
    host: int
    status: int
    sense: int
    data: int
    tag: int


def command(host: int, drive: int, block: bytes, length: int, tag: int) -> bytes:
    """What stands before the data of a command."""
    return HEADER.pack(COMMAND, host, drive, len(block), length, tag) + block


def move(source: int, destination: int, tag: int) -> bytes:
    return HEADER.pack(MOVE, 0, 0, 8, 0, tag) + struct.pack(">II", source, destination)


def inventory(tag: int) -> bytes:
    return HEADER.pack(INVENTORY, 0, 0, 0, 0, tag)


def entries(reply: Reply) -> dict[int, str]:
    """The barcode at each element address of an inventory's answer where something is."""
    return {address: name.decode("ascii").rstrip() for address, name in _ENTRY.iter_unpack(reply.data) if any(name)}
