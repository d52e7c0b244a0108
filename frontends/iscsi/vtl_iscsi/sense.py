"""Status codes (SAM-5, 5.3.1) and sense data in fixed format (SPC-4, 4.5.3), as the drives spell them: 18 bytes."""
from typing import NamedTuple

GOOD, CHECK_CONDITION, BUSY, RESERVATION_CONFLICT = 0x00, 0x02, 0x08, 0x18
NOT_READY, HARDWARE_ERROR, ILLEGAL_REQUEST, UNIT_ATTENTION, ABORTED_COMMAND = 0x2, 0x4, 0x5, 0x6, 0xB
_DEFERRED = 0x71


class Reply(NamedTuple):
    """What a command is answered: SAM-5's status, sense data, and data-in."""
    status: int
    sense: bytes = b""
    data: bytes | bytearray | memoryview = b""
    # it was with a `vtl serve` that ended before its answer came
    is_lost: bool = False


def sense_data(key: int, code: int, qualifier: int, bits: int = 0, information: int | None = None) -> bytes:
    """`bits` are FILEMARK 80h, EOM 40h and ILI 20h of byte 2."""
    first = 0x70 if information is None else 0xF0
    return bytes((first, 0, bits | key)) + (information or 0).to_bytes(4, "big") + b"\x0a" + bytes(4) + bytes(
        (code, qualifier)) + bytes(4)


def check(key: int, code: int, qualifier: int) -> Reply:
    return Reply(CHECK_CONDITION, sense_data(key, code, qualifier))


def good(data: bytes = b"") -> Reply:
    return Reply(GOOD, b"", data)


NO_SENSE = sense_data(0, 0, 0)
INVALID_OPERATION_CODE = check(ILLEGAL_REQUEST, 0x20, 0x00)
INVALID_FIELD = check(ILLEGAL_REQUEST, 0x24, 0x00)
NO_SUCH_ELEMENT = check(ILLEGAL_REQUEST, 0x21, 0x01)
NO_SUCH_UNIT = check(ILLEGAL_REQUEST, 0x25, 0x00)
SAVING_NOT_SUPPORTED = check(ILLEGAL_REQUEST, 0x39, 0x00)
REMOVAL_PREVENTED = check(ILLEGAL_REQUEST, 0x53, 0x02)
# INTERNAL TARGET FAILURE: vtl ended before it answered
LOST = check(HARDWARE_ERROR, 0x44, 0x00)._replace(is_lost=True)
# the same: a move was made, and its place could not be written down
NOT_KEPT = check(HARDWARE_ERROR, 0x44, 0x00)
# PROTOCOL SERVICE CRC ERROR (RFC 7143, 7.8)
DIGEST_ERROR = check(ABORTED_COMMAND, 0x47, 0x05)
UNIT_IS_BUSY = Reply(BUSY)

POWER_ON = sense_data(UNIT_ATTENTION, 0x29, 0x00)
UNIT_RESET = sense_data(UNIT_ATTENTION, 0x29, 0x03)
NEXUS_LOST = sense_data(UNIT_ATTENTION, 0x29, 0x07)
MODE_CHANGED = sense_data(UNIT_ATTENTION, 0x2A, 0x01)


def code_of(reply: Reply) -> tuple[int, int, int]:
    """Sense key, additional sense code and qualifier; zeros where there is no sense data."""
    sense = reply.sense
    return (sense[2] & 0x0F, sense[12], sense[13]) if len(sense) >= 14 else (0, 0, 0)


def is_owed(reply: Reply) -> bool:
    """Whether it reports something in the place of the command: a unit attention condition or a deferred error."""
    return reply.status == CHECK_CONDITION and (code_of(reply)[0] == UNIT_ATTENTION
                                                or reply.sense[0] & 0x7F == _DEFERRED)
