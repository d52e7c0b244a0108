"""Elements of the changer as READ ELEMENT STATUS and the mode pages give them (SMC-3, 6.10 and 7.3)."""
from .library import FIRST_SLOT, SLOTS, Cartridge, Library
from .sense import INVALID_FIELD, Reply, good
from .vital import TAPE, t10_designator

TRANSPORT = 0
_TRANSPORT, _STORAGE, _IMPORT_EXPORT, _DRIVE = 1, 2, 3, 4
_VOLTAG, _DVCID = 0x10, 0x01
_FULL, _EXCEPT, _ACCESS, _SVALID = 0x01, 0x04, 0x08, 0x80
_TAG = 36


def _elements(kind: int, library: Library) -> list[int]:
    found: dict[int, list[int]] = {
        _TRANSPORT: [TRANSPORT], _STORAGE: list(range(FIRST_SLOT, FIRST_SLOT + SLOTS)), _IMPORT_EXPORT: [],
        _DRIVE: list(library.drives)}
    return found[kind]


def status(block: bytes, library: Library, name: str) -> Reply:
    """READ ELEMENT STATUS: the elements of a type from an address on, by rising address, as many as are asked for."""
    kind, first, most = block[1] & 0x0F, int.from_bytes(block[2:4], "big"), int.from_bytes(block[4:6], "big")
    if kind > _DRIVE:
        return INVALID_FIELD
    kinds = [kind] if kind else [_TRANSPORT, _DRIVE, _STORAGE]
    listed = sorted((at, it) for it in kinds for at in _elements(it, library) if at >= first)[:most]
    pages, at = b"", 0
    while at < len(listed):
        of = listed[at][1]
        same = [address for address, it in listed[at:] if it == of]
        pages += _page(of, same, library, name, bool(block[1] & _VOLTAG), bool(block[6] & _DVCID))
        at += len(same)
    head = (listed[0][0] if listed else 0).to_bytes(2, "big") + len(listed).to_bytes(2, "big") + len(pages).to_bytes(
        4, "big")
    return good((head + pages)[:int.from_bytes(block[7:10], "big")])


def _page(kind: int, addresses: list[int], library: Library, name: str, has_tags: bool, has_names: bool) -> bytes:
    made = [_descriptor(kind, at, library, name, has_tags, has_names) for at in addresses]
    content = b"".join(made)
    return bytes((kind, 0x80 if has_tags else 0)) + len(made[0]).to_bytes(2, "big") + len(content).to_bytes(
        4, "big") + content


def _descriptor(kind: int, address: int, library: Library, name: str, has_tags: bool, has_names: bool) -> bytes:
    cartridge = library.at(address) if kind != _TRANSPORT else None
    flags, code = _flags(kind, cartridge)
    source = bytes((_SVALID,)) + cartridge.source.to_bytes(2, "big") if cartridge and cartridge.source else bytes(3)
    # SMC-3, 6.10: address, flags, reserved, sense code and qualifier, reserved, source, volume tag, device identifier
    made = address.to_bytes(2, "big") + bytes((flags, 0)) + bytes(code) + bytes(3) + source
    if has_tags:
        made += cartridge.barcode.encode().ljust(32) + bytes(4) if cartridge else bytes(_TAG)
    return made + _identifier(kind, address, name, has_names)


def _flags(kind: int, cartridge: Cartridge | None) -> tuple[int, tuple[int, int]]:
    flags = (0 if kind == _TRANSPORT else _ACCESS) | (_FULL if cartridge else 0)
    if cartridge and cartridge.refusal:
        return flags | _EXCEPT, cartridge.refusal
    return flags, (0, 0)


def _identifier(kind: int, address: int, name: str, has_names: bool) -> bytes:
    """Four bytes, and the drive's designator where it is asked for; of one length in a page."""
    if not has_names or kind != _DRIVE:
        return bytes(4)
    return t10_designator(TAPE, name, address)


def mode_pages(library: Library) -> dict[int, bytes]:
    """Element Address Assignment, Transport Geometry Parameters, Device Capabilities."""
    first, last = min(library.drives), max(library.drives)
    counts = (TRANSPORT, 1, FIRST_SLOT, SLOTS, 0, 0, first, last - first + 1)
    # a cartridge may stand in a slot and in a drive, and moves from each to each
    stored, moves = 0x02 | 0x08, bytes((0, 0x02 | 0x08, 0, 0x02 | 0x08))
    return {0x1D: bytes((0x1D, 18)) + b"".join(it.to_bytes(2, "big") for it in counts) + bytes(2),
            0x1E: bytes((0x1E, 2, 0, 0)),
            0x1F: bytes((0x1F, 18, stored, 0)) + moves + bytes(12)}
