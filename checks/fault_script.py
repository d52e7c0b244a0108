"""The script that faults.py runs, and what may be answered to it where a call fails, as docs/FORMATS.md says it."""
import collections
import copy

from drive_model import MARK, check, good

FIRST, SECOND = "T00001L6", "T00002L6"
STATUS = {"fault": (2, "vtl: device fault\n"), "memory": (3, "vtl: out of memory\n")}
ABORTED, NOT_PRESENT, HAS_FAILED = check(0xB, 0x5503), check(2, 0x3A00), check(4, 0x4400)
WRITE_ERROR, READ_ERROR = check(3, 0x0C00), check(3, 0x1100)
# what a command is answered in the place of its own answer, once, after a flusher's turn that failed
DEFERRED = WRITE_ERROR.replace("CHECK 70", "CHECK 71")

# A line of the script and its answer. What it does to the cartridge that is loaded: the objects that it adds, and
# whether all is stored then; which cartridge is loaded behind it; whether it is an order to the reservations.
Line = collections.namedtuple("Line", "text answer adds stores loads orders",
                              defaults=[good(), [], False, False, False])


def order(action, own, new, kind):
    return Line(f"1 1 5f{action:02x}{kind:02x}00000000001800 {own:016x}{new:016x}0000000001000000", orders=True)


def write(block):
    return Line(f"1 1 0a00{len(block):06x}00 {block.hex()}", adds=[block])


MARKED = Line("1 1 100000000100", adds=[MARK], stores=True)
LATER = Line("1 1 100100000100", adds=[MARK])
STORED = Line("1 1 100000000000", stores=True)
PHASE = Line("--", None)
REGISTER, RESERVE = order(0, 0, 0xA1, 0), order(1, 0xA1, 0, 5)
SCRIPT = [
    Line("1 1 000000000000", check(6, 0x2900)), REGISTER,
    *[write(bytes([65 + at]) * (1 + 700 * at)) for at in range(5)], MARKED, PHASE,
    *[write(b"second phase %d" % at) for at in range(3)], LATER, write(b"before a store"), STORED, write(b"not marked"),
    Line("move 1 1002", stores=True, loads=None), Line("move 1001 1", loads=SECOND),
    Line("1 1 000000000000", check(6, 0x2800)), write(b"on another cartridge"), MARKED, PHASE,
    write(b"at the end"), RESERVE, LATER,
]
ANSWERED = [line for line in SCRIPT if line.answer]
RIGHT = [line.answer for line in ANSWERED]
# what is answered to READ KEYS and READ RESERVATION after none, one and both of the orders
KEY = bytes(7) + b"\xa1"
RESERVED = [(good(bytes(8)), good(bytes(8))), (good(bytes(7) + b"\x08" + KEY), good(bytes(8))),
            (good(bytes(7) + b"\x08" + KEY), good(bytes(7) + b"\x10" + KEY + bytes(5) + b"\x05" + bytes(2)))]


class Drive:
    """Drive 1, with the first cartridge in it, and what it answers; at power on that one may not have been opened."""

    def __init__(self, is_open=True):
        # whether a command was answered for a call that failed; whether the medium has failed, or the saving of orders
        self.is_hit, self.medium_failed, self.orders_failed = not is_open, False, False
        self.tape, self.is_loaded, self.told, self.is_registered = FIRST, is_open, 0x2900, False
        # whether a cartridge was moved; whether no answer shows if the one in the drive has failed or one before it
        self.has_moved, self.is_unsure = False, False

    def answer(self, line):
        """The answer to a line, which is carried out."""
        if line.loads is not False:
            return self.move(line.loads)
        if self.told:
            told, self.told = self.told, None
            return check(6, told)
        if line.orders:
            return self.order(line)
        return HAS_FAILED if self.medium_failed else good() if self.is_loaded else NOT_PRESENT

    def move(self, tape):
        """A move of this cartridge into the drive, or out of it."""
        if tape and self.tape:
            return check(5, 0x3B0D)
        if not tape and not self.tape:
            return check(5, 0x3B0E)
        self.tape, self.is_loaded, self.medium_failed, self.has_moved = tape, bool(tape), False, True
        self.told = 0x2800 if tape else self.told
        return good()

    def order(self, line):
        if self.orders_failed:
            return HAS_FAILED
        if line is RESERVE and not self.is_registered:
            return "CONFLICT"
        self.is_registered = True
        return good()

    def hit(self, kind, line):
        """The answer to a line in which a call of this kind fails, None where none can; that has happened then."""
        self.is_hit = True
        if kind == "memory":
            return ABORTED if line.adds or line.orders or line.loads else None
        if line.loads:
            return READ_ERROR
        self.orders_failed, self.medium_failed = line.orders, line.stores
        return HAS_FAILED if line.orders else WRITE_ERROR if line.stores else None


def followed(kind, drive, answers):
    """The drive behind these answers, and what is wrong with the first that can't stand where it does."""
    for at, (line, answer) in enumerate(zip(ANSWERED, answers)):
        if answer == DEFERRED and kind == "fault" and not drive.is_hit and line.loads is False:
            # the line is not carried out; what failed is the cartridge in the drive, or one that went out before
            drive.is_hit, drive.medium_failed = True, not drive.has_moved or HAS_FAILED in answers[at + 1:]
            drive.is_unsure = drive.has_moved and line is ANSWERED[-1]
            continue
        hit = copy.copy(drive)
        wanted = drive.answer(line)
        if answer == wanted:
            continue
        if hit.is_hit or kind not in STATUS or wanted != good() or hit.hit(kind, line) != answer:
            return drive, f"answer {at + 1}: {answer} in the place of {wanted}"
        drive = hit
    return drive, None


def ill_ended(kind, drive, run):
    """What is wrong with the end of a run that began with this drive."""
    answers = run.out.split("\n")[:-1]
    drive, wrong = followed(kind, drive, answers)
    if wrong:
        return wrong
    whole = len(answers) == len(ANSWERED) and run.out.endswith("\n")
    end = run.status, run.err
    if whole and end == (STATUS["fault"] if drive.medium_failed else (0, "")):
        return None
    if whole and drive.is_unsure and end == STATUS["fault"]:
        return None
    text = "".join(f"{answer}\n" for answer in RIGHT)
    # a stream has failed, or the writing out at the end, or no command was answered that memory ran out
    if not drive.is_hit and end == STATUS.get(kind) and text.startswith(run.out):
        return None
    return "its end"


def misanswered(kind, run):
    """What is wrong with the answers to the script and with the end of the run, where one call of this kind failed, or
    none: each answer is the right one up to the first that reports it, and then what follows from that."""
    drives = [Drive(), Drive(is_open=False)] if kind == "fault" else [Drive()]
    wrong = [ill_ended(kind, drive, run) for drive in drives]
    return [] if None in wrong else wrong[:1]
