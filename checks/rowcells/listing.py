"""Which cells need a row: the lines of the tables of docs/FORMATS.md, and what its words and bits ask for."""
from . import elsewhere, guard, listing_limits
from .fields import ACTIONS, IGNORED
from .tables import ALWAYS, NAMES, NEEDS_MEDIUM, TYPES, flushing

OF_TABLE = ("does | ", "action | ", "preempt | ", "when 2A/04 | ", "move | ", "out | ", "in | ", "back | ")
LEVELS = ["29/00", "28/00", "2A/03", "2A/05", "2A/04", "2A/01"]
CAUSES = ["done", "check: the file is neither", "reclaim: not reclaimed", "the words ask for nothing",
          "the configuration's file is not UTF-8", "a bad line", "serve: a frame that is refused", "a file is missing",
          "run, serve: the file of a drive's reservations is refused",
          "run, serve: a buffer could not be written out",
          "a read or write of the streams failed", "out of memory"]


def is_of_table(cell):
    return cell.startswith(OF_TABLE)


def lines(tables, heading, at=0):
    return tables[heading][at][1:]


def of_tables(tables):
    """The lines of the tables, as the model names them."""
    cells = []
    for fields in lines(tables, "What each command does"):
        if fields[0] not in ("INQUIRY", "REQUEST SENSE", "MODE SENSE", "PERSISTENT RESERVE IN"):
            cells.append(f"does | {fields[0]} | {fields[1]}")
        else:
            cells.append(f"does | {fields[0]} | ")
    for heading, at, prefix, columns in (
            ("Actions of PERSISTENT RESERVE OUT", 0, "action", 2), ("The cases of PREEMPT", 0, "preempt", 2),
            ("When 2A/04 is established", 0, "when 2A/04", 1), ("Moves", 0, "move", 1), ("Moves", 1, "out", 2),
            ("Moves", 2, "in", 2), ("When a move puts the cartridge back", 0, "back", 1),
            ("Memory and device faults", 0, "fault", 1), ("Memory and device faults", 1, "memory", 1),
            ("Scripts", 1, "stream", 1), ("Frames", 0, "frame, byte", 1), ("Frames", 1, "serving", 1),
            ("Frames", 2, "frame", 1),
            ("Sense data in words", 0, "words of", 1), ("Sense data in words", 1, "words where", 1)):
        cells += [" | ".join([prefix, *fields[:columns]]) for fields in lines(tables, heading, at)]
    found = [fields[2] for fields in lines(tables, "Exit status")]
    for cause in CAUSES:
        if not any(it.startswith(cause) for it in found):
            cells.append(f"Exit status: no line of the table is {cause}")
        cells.append(f"exit | {cause}")
    cells += [f"an exit status that is not known here: {it}" for it in found
              if not any(it.startswith(cause) for cause in [*CAUSES, ""][:-1]) and it]
    return cells


def of_blocks():
    cells = [f"codes | {code:02X}h is of no command" for code in range(256) if code not in NAMES]
    for code, name in NAMES.items():
        cells += [f"blocks | {name} | {how}" for how in ("shorter", "longer")]
        cells += [f"blocks | {name} | more bytes sent"]
        cells += [f"blocks | {name} | fewer bytes sent"] if code in (0x0A, 0x15, 0x5F) else []
        cells += [f"ignored | {name} | byte {at}" for at in IGNORED[code]]
        cells += [f"sense | 24/00 | {name}"]
        cells += [f"sense | 3A/00 | {name}"] if code in NEEDS_MEDIUM else []
        cells += [f"drives | {name} over an unloaded cartridge"] if code in NEEDS_MEDIUM else []
    cells += [f"sense | 3A/00 | LOAD UNLOAD, LOAD {load}" for load in (0, 1)] + ["ignored | LOCATE | byte 8"]
    bits = [1 << at for at in range(8)]
    fields = ["REQUEST SENSE | DESC 1", "READ BLOCK LIMITS | MLOI 1", "READ | FIXED 1, SILI 0",
              "READ | FIXED 1, SILI 1",
              "READ | FIXED 1, length 0", "WRITE | FIXED 1, length 0",
              "WRITE | FIXED 1", "WRITE FILEMARKS | IMMED 1, unbuffered, count 0",
              "WRITE FILEMARKS | IMMED 1, unbuffered, count above 0", "INQUIRY | EVPD 1", "MODE SELECT | SP 1"]
    fields += [f"WRITE | length {count}h" for count in ("100001", "200000", "400000", "800000")]
    fields += [f"SPACE | CODE {code}" for code in (2, *range(4, 16))]
    fields += [f"INQUIRY | PAGE CODE {bit:02X}h" for bit in bits]
    fields += [f"MODE SENSE | PAGE CODE {bit:02X}h" for bit in bits[:6]] + ["MODE SENSE | PAGE CODE 3Eh"]
    fields += [f"LOCATE | partition {bit:02X}h of 1" for bit in bits]
    fields += [f"READ POSITION | SERVICE ACTION {bit:02X}h" for bit in bits[:5]]
    fields += [f"PERSISTENT RESERVE IN | SERVICE ACTION {action:02X}h" for action in range(2, 32)]
    fields += [f"PERSISTENT RESERVE OUT | SERVICE ACTION {action:02X}h" for action in range(32)
               if action not in ACTIONS]
    for name in ("RESERVE", "RELEASE"):
        fields += [f"{name} | SCOPE {bit:X}h" for bit in bits[:4]]
        fields += [f"{name} | TYPE {kind:X}h" for kind in range(16) if kind not in TYPES]
    return cells + [f"fields | {field}" for field in fields]


def of_checks():
    pairs = [(1, 3), (1, 5), (3, 4), (3, 5), (3, 6), (3, 7), (4, 5), (4, 6), (4, 7), (5, 6), (6, 7)]
    cells = [f"order of checks | {one} before {other}" for one, other in pairs]
    cells += ["order of checks | INQUIRY though a unit attention condition is established"]
    for code in ALWAYS:
        cells += [f"order of checks | {NAMES[code]} though another host's reservation is held",
                  f"order of checks | {NAMES[code]} without a cartridge"]
    cells += [f"order of checks | {NAMES[code]} needs no cartridge" for code in (0x05, 0x15, 0x1A, 0x5E, 0x5F)]
    for name in NAMES.values():
        for kind in TYPES:
            for role in ("another host", *(["a registered host"] if kind < 7 else []), "a holder"):
                if name not in ("INQUIRY", "REQUEST SENSE"):
                    cells.append(f"reservations | {name} | type {kind}, {role}")
    return cells


def of_attentions():
    cells = [f"sense | {code} | {how}" for code in LEVELS
             for how in ["by REQUEST SENSE"] + [f"in the place of {name}" for at, name in NAMES.items()
                                                if at not in ALWAYS]]
    for at, code in enumerate(LEVELS):
        cells += [f"attentions | {code} is reported before {other}" for other in LEVELS[at + 1:]]
    causes = [("29/00", "power on"), ("28/00", "LOAD"), ("28/00", "a move"), ("2A/03", "CLEAR"),
              ("2A/01", "MODE SELECT")]
    causes += [("2A/05", f"PREEMPT, case {case}") for case in (1, 3, 4)]
    causes += [("2A/04", f"{name} that unregisters the holder of type {kind}")
               for name in (ACTIONS[0], ACTIONS[6]) for kind in (5, 6)]
    causes += [("2A/04", f"RELEASE of type {kind}") for kind in (5, 6, 7, 8)]
    causes += [("2A/04", f"PREEMPT, case 3, from type {kind}") for kind in (1, 3, 5, 6)]
    for code, cause in causes:
        cells.append(f"attentions | {code} of {cause}")
        if cause not in ("power on", "a move"):
            whose = f"{'host whose' } {cause} establishes it"
            cells.append(f"attentions | not for the {whose}")
    return cells


def of_no_script():
    """What stands in words of FORMATS.md and no script reaches."""
    cells = [f"flush | {command}" for command in flushing()]
    cells += ["full file | WRITE", "full file | WRITE FILEMARKS", "codes | no byte",
              "order of checks | a deferred error is reported, once", "buffer | 256 changes, 4,194,304 bytes of blocks",
              "limits | a script of 2,147,483,648 bytes, and one of a byte more",
              "limits | a script of 4,294,967,296 reads, and one more", "limits | PRGENERATION wraps at 2^32",
              "run | a file that is open in another process", "opening | what the first sync writes again",
              "opening | what the next sync writes after one that failed",
              "create | a file that could not be completed is taken away"]
    return cells


def required(tables):
    """All cells that need a row, each once; and what is named to be in tests and is no cell."""
    cells = [*of_tables(tables), *of_blocks(), *of_checks(), *of_attentions(), *listing_limits.cells(),
             *of_no_script()]
    others = [f"elsewhere: {cell} is no cell" for cell in elsewhere.CELLS if cell not in cells]
    others += guard.faults(tables, set(cells))
    return [cell for cell in dict.fromkeys(cells) if cell not in elsewhere.CELLS], others
