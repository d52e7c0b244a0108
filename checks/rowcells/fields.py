"""The fields of command blocks and of parameter lists: which are refused, and which bits are ignored."""
LONGEST = 1_048_576
# by code, byte and the bits that are ignored: reserved bits, the control byte, what is not named
IGNORED = {
    0x00: {at: 0xFF for at in range(1, 6)},
    0x01: {at: 0xFF for at in range(1, 6)},
    0x03: {1: 0xFE, 2: 0xFF, 3: 0xFF, 5: 0xFF},
    0x05: {1: 0xFE, 2: 0xFF, 3: 0xFF, 4: 0xFF, 5: 0xFF},
    0x08: {1: 0xFC, 5: 0xFF},
    0x0A: {1: 0xFE, 5: 0xFF},
    0x10: {1: 0xFE, 5: 0xFF},
    0x11: {1: 0xF0, 5: 0xFF},
    0x12: {1: 0xFE, 5: 0xFF},
    0x15: {1: 0xFE, 2: 0xFF, 3: 0xFF, 5: 0xFF},
    0x19: {at: 0xFF for at in range(1, 6)},
    0x1A: {1: 0xF7, 2: 0xC0, 3: 0xFF, 5: 0xFF},
    0x1B: {1: 0xFF, 2: 0xFF, 3: 0xFF, 4: 0xFE, 5: 0xFF},
    0x2B: {1: 0xFD, 2: 0xFF, 7: 0xFF, 9: 0xFF},
    0x34: {1: 0xE0, **{at: 0xFF for at in range(2, 10)}},
    0x5E: {1: 0xE0, 9: 0xFF, **{at: 0xFF for at in range(2, 7)}},
    0x5F: {1: 0xE0, 3: 0xFF, 4: 0xFF, 9: 0xFF},
}
SENDS = {0x0A, 0x15, 0x5F}
ACTIONS = {0: "REGISTER", 1: "RESERVE", 2: "RELEASE", 3: "CLEAR", 4: "PREEMPT",
           6: "REGISTER AND IGNORE EXISTING KEY"}
TYPED = {1, 3, 5, 6, 7, 8}


def length_of(cdb):
    return int.from_bytes(cdb[2:5], "big")


def sent_length(code, cdb):
    if code == 0x5F:
        return int.from_bytes(cdb[5:9], "big")
    return {0x0A: length_of(cdb), 0x15: cdb[4]}.get(code, 0)


def ignored_bytes(cdb):
    """The bytes of a block in which each ignored bit is set."""
    places = [at for at, bits in IGNORED[cdb[0]].items() if cdb[at] & bits == bits]
    return places + ([8] if cdb[0] == 0x2B and not cdb[1] & 2 and cdb[8] == 0xFF else [])


def field_refused(code, cdb, drive):
    """The cells of a field that is refused, empty where none is."""
    first, action = cdb[1], cdb[1] & 31
    count = length_of(cdb)
    if code == 0x03 and first & 1:
        return ["fields | REQUEST SENSE | DESC 1"]
    if code == 0x05 and first & 1:
        return ["fields | READ BLOCK LIMITS | MLOI 1"]
    if code == 0x08 and first & 1:
        return [f"fields | READ | FIXED 1, SILI {first >> 1 & 1}"] + (
            ["fields | READ | FIXED 1, length 0"] if not count else [])
    if code == 0x0A and first & 1:
        return ["fields | WRITE | FIXED 1"] + (["fields | WRITE | FIXED 1, length 0"] if not count else [])
    if code == 0x0A and count > LONGEST:
        return [f"fields | WRITE | length {count:06X}h"]
    if code == 0x10 and first & 1 and not drive.buffered:
        return [f"fields | WRITE FILEMARKS | IMMED 1, unbuffered, count {'0' if not count else 'above 0'}"]
    if code == 0x11 and first & 15 not in (0, 1, 3):
        return [f"fields | SPACE | CODE {first & 15}"]
    if code == 0x12 and first & 1:
        return ["fields | INQUIRY | EVPD 1"]
    if code == 0x12 and cdb[2]:
        return [f"fields | INQUIRY | PAGE CODE {cdb[2]:02X}h"]
    if code == 0x15 and first & 1:
        return ["fields | MODE SELECT | SP 1"]
    if code == 0x1A and cdb[2] & 0x3F not in (0, 0x3F):
        return [f"fields | MODE SENSE | PAGE CODE {cdb[2] & 0x3F:02X}h"]
    if code == 0x2B and first & 2 and drive.loaded and cdb[8] >= len(drive.cartridge.capacities):
        return [f"fields | LOCATE | partition {cdb[8]:02X}h of {len(drive.cartridge.capacities)}",
                "does | LOCATE | the volume lacks the partition"]
    if code == 0x34 and action:
        return [f"fields | READ POSITION | SERVICE ACTION {action:02X}h"]
    if code == 0x5E and action > 1:
        return [f"fields | PERSISTENT RESERVE IN | SERVICE ACTION {action:02X}h"]
    if code == 0x5F and action not in ACTIONS:
        return [f"fields | PERSISTENT RESERVE OUT | SERVICE ACTION {action:02X}h"]
    if code == 0x5F and action in (1, 2) and cdb[2] >> 4:
        return [f"fields | {ACTIONS[action]} | SCOPE {cdb[2] >> 4:X}h"]
    if code == 0x5F and action in (1, 2) and cdb[2] not in TYPED:
        return [f"fields | {ACTIONS[action]} | TYPE {cdb[2]:X}h"]
    return []


def list_refused(code, cdb, data):
    """The sense code and the cells of a parameter list that is refused."""
    if code == 0x15 and data:
        return mode_list_refused(data)
    if code == 0x5F and len(cdb) == 10:
        return reserve_list_refused(cdb[1] & 31, data)
    return None


def mode_list_refused(data):
    cells = []
    if len(data) not in (4, 12):
        if len(data) > 2 and data[2] >> 4 & 6:
            cells = ["mode lists | the length is looked at before any field"]
        return 0x1A00, [f"mode lists | a list of {len(data)} bytes", *cells]
    if data[2] >> 4 & 7 > 1:
        cells.append(f"mode lists | BUFFERED MODE {data[2] >> 4 & 7}")
    if len(data) == 4 and data[3]:
        cells.append(f"mode lists | BLOCK DESCRIPTOR LENGTH {data[3]:02X}h in 4 bytes")
    if len(data) == 12 and data[3] != 8:
        cells.append(f"mode lists | BLOCK DESCRIPTOR LENGTH {data[3]:02X}h in 12 bytes")
    if len(data) == 12 and any(data[9:12]):
        cells.append(f"mode lists | BLOCK LENGTH {data[9:12].hex().upper()}h")
    return (0x2600, [*cells, "mode lists | with a refused field"]) if cells else None


def reserve_list_refused(action, data):
    if len(data) != 24:
        cells = [f"reserve lists | a list of {len(data)} bytes"]
        if len(data) > 20 and data[20] & 8:
            cells.append("reserve lists | the length is looked at before any field")
        return 0x1A00, cells
    name = ACTIONS.get(action)
    if data[20] & 8:
        return 0x2600, [f"reserve lists | SPEC_I_PT 1 | {name}"]
    if data[20] & 4 and action in (0, 6):
        return 0x2600, [f"reserve lists | ALL_TG_PT 1 | {name}"]
    return None
