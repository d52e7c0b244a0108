"""Text keys (RFC 7143, sections 6 and 13): how they are spelled, and what is agreed on."""
from dataclasses import dataclass

MOST_TEXT = 8_192
_MOST_KEYS, _MOST_KEY = 64, 63
# a data segment that this target takes; a burst; unsolicited data, of which memory is taken for each command
SEGMENT, BURST, FIRST_BURST, CONNECTIONS = 262_144, 16_777_215, 262_144, 4
_LEAST = 512
# what is named in a login and is no matter of an agreement
DECLARED = {"InitiatorName", "InitiatorAlias", "TargetName", "SessionType", "AuthMethod"}


class BadText(Exception):
    """A text that is none, or names a value out of its range."""


def parse(text: bytes) -> dict[str, str]:
    """The pairs of a text; each key once."""
    pairs: dict[str, str] = {}
    for piece in text.split(b"\0"):
        if not piece:
            continue
        key, equals, value = piece.decode("utf-8", "replace").partition("=")
        if not equals or not 0 < len(key) <= _MOST_KEY or key in pairs or len(pairs) >= _MOST_KEYS:
            raise BadText
        pairs[key] = value
    return pairs


def spell(pairs: dict[str, str]) -> bytes:
    return b"".join(f"{key}={value}\0".encode() for key, value in pairs.items())


def number(value: str, least: int, most: int) -> int:
    """A numerical value (6.1): decimal, or hexadecimal behind 0x."""
    digits, base = (value[2:], 16) if value[:2] in ("0x", "0X") else (value, 10)
    if not digits or len(digits) > 10 or not all(it in "0123456789abcdefABCDEF"[:22 if base == 16 else 10]
                                                 for it in digits):
        raise BadText
    found = int(digits, base)
    if not least <= found <= most:
        raise BadText
    return found


def boolean(value: str) -> bool:
    if value not in ("Yes", "No"):
        raise BadText
    return value == "Yes"


@dataclass
class Parameters:
    """What a session and a connection have agreed on; the standard's defaults (section 13) before that."""
    header_digest: bool = False
    data_digest: bool = False
    # the longest data segment that the initiator takes, and that this target takes
    segment: int = 8_192
    own_segment: int = 8_192
    max_burst: int = 262_144
    first_burst: int = 65_536
    connections: int = 1
    initial_r2t: bool = True
    immediate_data: bool = True


def _digest(value: str) -> str:
    return next((it for it in value.split(",") if it in ("CRC32C", "None")), "Reject")


def _yes(value: bool) -> str:
    return "Yes" if value else "No"


def answer(key: str, value: str, agreed: Parameters) -> str | None:
    """The answer to an offer, with what is agreed on by it; None to what is declared."""
    if key == "HeaderDigest":
        said = _digest(value)
        agreed.header_digest = said == "CRC32C"
        return said
    if key == "DataDigest":
        said = _digest(value)
        agreed.data_digest = said == "CRC32C"
        return said
    if key == "MaxRecvDataSegmentLength":
        agreed.segment = number(value, _LEAST, BURST)
        return None
    if key in _NUMBERS:
        return _number_answer(key, value, agreed)
    if key in _FLAGS:
        return _flag_answer(key, boolean(value), agreed)
    if key == "TaskReporting":
        return "RFC3720" if "RFC3720" in value.split(",") else "Reject"
    return "NotUnderstood"


_NUMBERS = {"MaxBurstLength": (_LEAST, BURST), "FirstBurstLength": (_LEAST, BURST), "MaxConnections": (1, 65_535),
            "DefaultTime2Wait": (0, 3_600), "DefaultTime2Retain": (0, 3_600), "MaxOutstandingR2T": (1, 65_535),
            "ErrorRecoveryLevel": (0, 2), "iSCSIProtocolLevel": (0, 31)}


def _number_answer(key: str, value: str, agreed: Parameters) -> str:
    offered = number(value, *_NUMBERS[key])
    if key == "MaxBurstLength":
        agreed.max_burst = offered
    elif key == "FirstBurstLength":
        offered = agreed.first_burst = min(offered, FIRST_BURST)
    elif key == "MaxConnections":
        offered = agreed.connections = min(offered, CONNECTIONS)
    elif key != "DefaultTime2Wait":
        offered = min(offered, {"MaxOutstandingR2T": 1, "iSCSIProtocolLevel": 1}.get(key, 0))
    return str(offered)


_FLAGS = ("InitialR2T", "ImmediateData", "DataPDUInOrder", "DataSequenceInOrder", "IFMarker", "OFMarker")


def _flag_answer(key: str, value: bool, agreed: Parameters) -> str:
    if key == "InitialR2T":
        agreed.initial_r2t = value
    elif key == "ImmediateData":
        agreed.immediate_data = value
    elif key in ("IFMarker", "OFMarker"):
        value = False
    else:
        value = True
    return _yes(value)


def is_known(key: str) -> bool:
    return key in DECLARED or key in _NUMBERS or key in _FLAGS or key in ("HeaderDigest", "DataDigest", "TaskReporting")
