"""Basic header segments of RFC 7143 (section 11): fields that are read, and responses that are written."""
import struct
from enum import IntEnum

BHS = 48
RESERVED_TAG = 0xFFFFFFFF
IMMEDIATE, FINAL, CONTINUE = 0x40, 0x80, 0x40
# of a SCSI Command (11.3.1), of Data-In (11.7)
READS, WRITES = 0x40, 0x20
OVERFLOW, UNDERFLOW, HAS_STATUS = 0x04, 0x02, 0x01


class Opcode(IntEnum):
    NOP_OUT, SCSI_COMMAND, TASK_MANAGEMENT, LOGIN, TEXT, DATA_OUT, LOGOUT = 0, 1, 2, 3, 4, 5, 6
    SNACK = 0x10
    NOP_IN, SCSI_RESPONSE, TASK_MANAGEMENT_RESPONSE, LOGIN_RESPONSE, TEXT_RESPONSE = 0x20, 0x21, 0x22, 0x23, 0x24
    DATA_IN, LOGOUT_RESPONSE, R2T, REJECT = 0x25, 0x26, 0x31, 0x3F


class Reason(IntEnum):
    """Of a Reject (11.17.1)."""
    DATA_DIGEST_ERROR, SNACK_REJECT, PROTOCOL_ERROR, NOT_SUPPORTED, TOO_MANY_IMMEDIATE = 2, 3, 4, 5, 6
    TASK_IN_PROGRESS, INVALID_FIELD = 7, 9


class ProtocolError(Exception):
    """What ends a connection, as at error recovery level 0."""


_SEQUENCE = struct.Struct(">IIIIIIII")
_HEADER = struct.Struct(">BBBB4x8sIIIIIIII")


class Request:
    """A header that was read."""
    __slots__ = ("header", "opcode", "is_immediate", "flags", "ahs", "length", "lun", "itt", "words")

    def __init__(self, header: bytes) -> None:
        self.header = header
        self.opcode = header[0] & 0x3F
        self.is_immediate = bool(header[0] & IMMEDIATE)
        self.flags = header[1]
        self.ahs = header[4] * 4
        self.length = int.from_bytes(header[5:8], "big")
        self.lun = header[8:16]
        # bytes 16 to 47, four each
        self.words: tuple[int, ...] = _SEQUENCE.unpack_from(header, 16)
        self.itt = self.words[0]

    @property
    def is_final(self) -> bool:
        return bool(self.flags & FINAL)

    @property
    def transfer_tag(self) -> int:
        """Of Data-Out, NOP-Out and Text; the expected data transfer length of a SCSI Command; the CID of a Login, in
        its upper half; the referenced task tag of a task management request."""
        return self.words[1]

    @property
    def cmdsn(self) -> int:
        return self.words[2]

    @property
    def buffer_offset(self) -> int:
        return self.words[6]


def unit_of(lun: bytes) -> int | None:
    """The unit of a LUN of one level, by peripheral device or flat space addressing (SAM-5, 4.6); None for another."""
    if any(lun[2:]) or lun[0] & 0x80 or (not lun[0] & 0x40 and lun[0]):
        return None
    return (lun[0] & 0x3F) << 8 | lun[1]


def header(opcode: int, flags: int, itt: int, *, second: int = 0, third: int = 0, lun: bytes = bytes(8),
           words: tuple[int, int, int, int, int, int, int] = (0, 0, 0, 0, 0, 0, 0)) -> bytearray:
    """A response's header; `words` are bytes 20 to 47, four each. Its length is filled in as it is sent."""
    return bytearray(_HEADER.pack(opcode, flags, second, third, lun, itt, *words))


def is_before(one: int, other: int) -> bool:
    """Serial numbers of 32 bits (RFC 1982)."""
    return 0 < (other - one & 0xFFFFFFFF) < 0x80000000
