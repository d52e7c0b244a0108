"""INQUIRY and REPORT LUNS: what this front end answers at every unit (SPC-4, 6.6, 6.35, 7.8)."""
from .sense import INVALID_FIELD, Reply, good

VENDOR, REVISION = b"VTLIB   ", b"0001"
TAPE, CHANGER, NO_DEVICE = 0x01, 0x08, 0x7F
_PRODUCTS = {TAPE: b"TAPE DRIVE      ", CHANGER: b"CHANGER         ", NO_DEVICE: b" " * 16}
_EVPD, _CMDDT = 0x01, 0x02


def _allocated(data: bytes, length: int) -> Reply:
    return good(data[:length])


def serial(library: str, unit: int) -> bytes:
    """It stays over restarts: the library's number is kept."""
    return f"VTL{library}{unit:02d}".encode()


def standard(kind: int) -> bytes:
    """36 bytes: removable, SPC-4, response data format 2."""
    return bytes((kind, 0x00 if kind == NO_DEVICE else 0x80, 0x06, 0x02, 31, 0, 0, 0)) + VENDOR + _PRODUCTS[
        kind] + REVISION


def _page(kind: int, code: int, content: bytes) -> bytes:
    return bytes((kind, code)) + len(content).to_bytes(2, "big") + content


def t10_designator(kind: int, library: str, unit: int) -> bytes:
    """Designator type 1h of the unit, in ASCII."""
    name = VENDOR + _PRODUCTS[kind] + serial(library, unit)
    return bytes((0x02, 0x01, 0, len(name))) + name


def _designators(kind: int, library: str, unit: int) -> bytes:
    """That one, and one of type 3h: NAA 3h, locally assigned."""
    local = bytes.fromhex(library) + bytes((unit,))
    return t10_designator(kind, library, unit) + bytes((0x01, 0x03, 0, 8, 0x30)) + bytes(2) + local


def inquiry(block: bytes, kind: int, library: str, unit: int) -> Reply:
    """A unit that is not there has no pages."""
    length = int.from_bytes(block[3:5], "big")
    if block[1] & _CMDDT or not block[1] & _EVPD and block[2]:
        return INVALID_FIELD
    if not block[1] & _EVPD:
        return _allocated(standard(kind), length)
    pages = {0x00: bytes((0x00, 0x80, 0x83)), 0x80: serial(library, unit),
             0x83: _designators(kind, library, unit)} if kind != NO_DEVICE else {}
    if block[2] not in pages:
        return INVALID_FIELD
    return _allocated(_page(kind, block[2], pages[block[2]]), length)


def report_luns(block: bytes, units: list[int]) -> Reply:
    """All units; none of them is a well known one."""
    if block[2] > 2:
        return INVALID_FIELD
    listed = b"".join(bytes((0, unit)) + bytes(6) for unit in units if block[2] != 1)
    return _allocated(len(listed).to_bytes(4, "big") + bytes(4) + listed, int.from_bytes(block[6:10], "big"))
