"""The cells of motions and limits, of lists, and of reservations' actions by type."""
from .fields import ACTIONS
from .tables import TYPES

SINGLE = (1, 3, 5, 6)


def of_writing():
    sides = ("to the byte", "and a byte")
    cells = [f"full | WRITE | takes the capacity {side}" for side in sides]
    cells += ["full | WRITE FILEMARKS | the last mark that fits", "full | WRITE FILEMARKS | one mark too many",
              "full | WRITE FILEMARKS | 16,000,000 objects", "full | WRITE FILEMARKS | 16,000,001 objects",
              "full | WRITE | object 16,000,001"]
    for name in ("WRITE", "WRITE FILEMARKS"):
        cells += [f"early warning | {name}", f"{name} | what stood there and behind is gone"]
        cells += [f"early warning | {name} | takes the border {side}" for side in sides]
    cells += [f"modes | {name}, {mode}" for name in ("WRITE", "ERASE") for mode in ("buffered", "unbuffered")]
    cells += [f"WRITE FILEMARKS | IMMED {immed}, {mode}" for immed, mode in
              ((0, "buffered"), (1, "buffered"), (0, "unbuffered"))]
    cells += ["WRITE FILEMARKS | count 0, IMMED 0", "WRITE FILEMARKS | count 0, IMMED 1",
              "WRITE FILEMARKS | count 0 in the early zone", "ERASE | at the end of data", "ERASE | before objects",
              "ERASE | in the early zone", "modes | loading leaves the mode"]
    cells += [f"limits | a partition of {size} bytes is filled" for size in ("4,096", "16,777,216")]
    return cells + ["limits | a block of 1 byte is written", "limits | a block of 1,048,576 bytes is written",
                    "limits | a block of 1,048,576 bytes is read"]


def of_motions():
    cells = [f"READ | the asked length is {how}, SILI {sili}" for how in ("equal", "longer", "shorter")
             for sili in (0, 1)]
    cells += ["READ | TRANSFER LENGTH FFFFFFh", "READ | TRANSFER LENGTH 1h", "motions | REWIND stays in its partition"]
    cells += ["SPACE | to the end of data, count 0", "SPACE | to the end of data, count other than 0",
              "SPACE | COUNT 7FFFFFh", "SPACE | COUNT 800000h"]
    for what in ("blocks", "filemarks"):
        cells += [f"SPACE | 0 {what}", f"SPACE | over {what}, the beginning is on the way",
                  f"SPACE | over {what}, the end of data is on the way"]
        cells += [f"SPACE | over {what} {way}, all were passed" for way in ("forward", "backward")]
    cells += [f"SPACE | over blocks {way}, a filemark is on the way" for way in ("forward", "backward")]
    cells += ["LOCATE | the object is there", "LOCATE | the end of data", "LOCATE | object FFFFFFFFh",
              "LOCATE | CP 0 stays in a partition other than 0", "LOCATE | CP 0, the same partition",
              "LOCATE | CP 1, the same partition", "LOCATE | CP 1, another partition"]
    cells += [f"fields | LOCATE | partition {count:02X}h of {count}" for count in (1, 2, 3, 4)]
    cells += [f"READ POSITION | BOP {bop}, EOP {eop}" for bop, eop in ((0, 0), (0, 1), (1, 0))]
    cells += [f"READ POSITION | partition {at}" for at in range(4)]
    return cells + ["READ POSITION | an object number above 255"]


def of_lists():
    bits = [1 << at for at in range(8)]
    cells = [f"mode lists | a list of {size} bytes" for size in (1, 2, 3, 5, 8, 11, 13, 255)]
    cells += ["mode lists | of no byte", "mode lists | with a refused field",
              "mode lists | the length is looked at before any field"]
    cells += [f"mode lists | {size} bytes, mode {one} from {other}" for size in (4, 12) for one in (0, 1)
              for other in (0, 1)]
    cells += [f"mode lists | BUFFERED MODE {mode}" for mode in range(2, 8)]
    cells += [f"mode lists | BLOCK DESCRIPTOR LENGTH {bit:02X}h in 4 bytes" for bit in bits]
    cells += [f"mode lists | BLOCK DESCRIPTOR LENGTH {bit:02X}h in 12 bytes" for bit in (0, *bits) if bit != 8]
    cells += [f"mode lists | BLOCK LENGTH {1 << at:06X}h" for at in range(24)]
    cells += [f"mode lists | byte {at} of 4 is ignored" for at in range(3)]
    cells += [f"mode lists | byte {at} of 12 is ignored" for at in (0, 1, 2, 4, 5, 6, 7, 8)]
    cells += [f"MODE SENSE | DBD {dbd}, mode {mode}, PAGE CODE {page}" for dbd in (0, 1) for mode in (0, 1)
              for page in ("00h", "3Fh")]
    cells += [f"reserve lists | a list of {size} bytes" for size in (0, 23, 25)]
    cells += ["reserve lists | the length is looked at before any field"]
    cells += [f"reserve lists | SPEC_I_PT 1 | {name}" for name in ACTIONS.values()]
    cells += [f"reserve lists | ALL_TG_PT 1 | {ACTIONS[action]}" for action in (0, 6)]
    cells += [f"actions | {ACTIONS[action]} | ALL_TG_PT 1 is ignored" for action in (1, 2, 3, 4)]
    cells += [f"actions | {ACTIONS[action]} | APTPL does not count" for action in (1, 2, 3, 4)]
    cells += [f"sense | {code} | {name}" for code in ("1A/00", "26/00") for name in
              ("MODE SELECT", "PERSISTENT RESERVE OUT")] + ["sense | 26/04 | PERSISTENT RESERVE OUT"]
    cells += [f"allocation | {name} | {how}" for name in ("INQUIRY", "REQUEST SENSE", "MODE SENSE",
                                                         "PERSISTENT RESERVE IN")
              for how in ("0", "a byte less", "the length", "more")]
    return cells + ["REQUEST SENSE | nothing to report", "REQUEST SENSE | nothing to report, in an empty drive",
                    "REQUEST SENSE | cleared, however short the data are cut"]


def of_actions():
    cells = [f"actions | {name}" for name in ACTIONS.values()]
    cells += [f"actions | {ACTIONS[action]} | {why}" for action in (1, 2, 3, 4) for why in
              ("the host is not registered", "RK is not its key")]
    cells += [f"actions | APTPL from {one} to {other}" for one in (0, 1) for other in (0, 1)]
    cells += [f"actions | {ACTIONS[6]} | {who}, RK {shown}, SK {new}" for who in ("registered", "not registered")
              for shown in ("its key", "another") for new in ("0", "not 0")]
    for kind in TYPES:
        cells += [f"RESERVE | of type {kind}", f"RESERVE | again of type {kind}",
                  f"RESERVE | conflict under type {kind}, a holder", f"RELEASE | of type {kind}",
                  f"RELEASE | of another type than {kind}", f"CLEAR | under type {kind}",
                  f"READ RESERVATION | type {kind}", f"PREEMPT | case 2 under type {kind}",
                  f"PREEMPT | case 4 under type {kind}", f"power | APTPL 1, type {kind}"]
        for name in (ACTIONS[0], ACTIONS[6]):
            cells += [f"unregistering | {name} | under type {kind}, {who}" for who in ("a holder", "the last")]
        if kind in SINGLE:
            cells += [f"RESERVE | conflict under type {kind}, another host",
                      f"RELEASE | type {kind}, not by this host", f"PREEMPT | case 1, refused under type {kind}",
                      f"unregistering | REGISTER | under type {kind}, another"]
            cells += [f"PREEMPT | case 3 under type {kind}, of type {other}" for other in TYPES]
        else:
            cells += [f"PREEMPT | case 1 under type {kind}, of type {other}" for other in TYPES]
    cells += ["RELEASE | none is held", "CLEAR | under no reservation", "READ RESERVATION | none is held",
              "PREEMPT | case 1, refused under no reservation", "PREEMPT | case 2 under no reservation",
              "PREEMPT | case 4 under no reservation", "PREEMPT | changes nothing",
              "PREEMPT | case 4 does not look at scope and type", "PREEMPT | case 3, SK is the host's own key",
              "PREEMPT | case 4, SK is the host's own key"]
    cells += [f"PREEMPT | case {case}, refused scope {bit}h" for case in (1, 3) for bit in (1, 2, 4, 8)]
    cells += [f"PREEMPT | case {case}, refused type {kind:X}h" for case in (1, 3) for kind in range(16)
              if kind not in TYPES]
    cells += [f"READ KEYS | {count}" for count in ("none", "one", "several")]
    return cells + ["power | APTPL 0, registered alone", "power | APTPL 1, registered alone",
                    "power | PRGENERATION is 0",
                    *(f"power | APTPL 0, type {kind}" for kind in TYPES)]


def cells():
    from . import listing_files
    return [*of_writing(), *of_motions(), *of_lists(), *of_actions(), *listing_files.cells()]
