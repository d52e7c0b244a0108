"""Ends of runs that are invented, for the self-test of faults.py: those that stand are let through, others found."""
import collections

from drive_model import check
from fault_script import (ABORTED, DEFERRED, HAS_FAILED, NOT_PRESENT, READ_ERROR, RIGHT, STATUS, WRITE_ERROR,
                          misanswered)

Run = collections.namedtuple("Run", "status out err")
# the places of some answers: of the first order; of a write, a filemark and a store on the first cartridge, and the
# last command to it; of the moves out of the drive and into it, of the command behind them; of a filemark on the
# second cartridge, of the write behind it, of the second order and of the last command
REGISTER, WRITE, MARK, STORE, LAST = 1, 3, 7, 13, 14
OUT, INTO, READY, OTHER_MARK, OTHER_WRITE, RESERVE, END = 15, 16, 17, 19, 20, 21, 22
FULL = check(5, 0x3B0D)


def each(places, answer):
    return dict.fromkeys(places, answer)


FIRST_FAILED = {MARK: WRITE_ERROR, **each(range(MARK + 1, LAST + 1), HAS_FAILED)}
SECOND_FAILED = {OTHER_MARK: WRITE_ERROR, OTHER_WRITE: HAS_FAILED, END: HAS_FAILED}
STAYS = {OUT: WRITE_ERROR, INTO: FULL, **each([READY, 18, OTHER_MARK, OTHER_WRITE, END], HAS_FAILED)}
UNREAD = {INTO: READ_ERROR, **each([READY, 18, OTHER_MARK, OTHER_WRITE, END], NOT_PRESENT)}
UNOPENED = each(range(2, LAST + 1), NOT_PRESENT)

# what fails, the status, the answers that differ, and how many answers there are where not all
STAND = [
    ("memory", 0, {}), ("memory", 0, {WRITE: ABORTED}), ("memory", 0, {REGISTER: ABORTED, RESERVE: "CONFLICT"}),
    ("memory", 0, {INTO: ABORTED, **each([READY, 18, OTHER_MARK, OTHER_WRITE, END], NOT_PRESENT)}),
    ("memory", 3, {}, 8), ("memory", 3, {}, 0), ("fault", 2, {}, 0), ("fault", 2, {}, 15), ("fault", 2, {}),
    ("fault", 0, FIRST_FAILED), ("fault", 2, SECOND_FAILED), ("fault", 2, STAYS), ("fault", 0, UNREAD),
    ("fault", 0, {**FIRST_FAILED, MARK: DEFERRED}), ("fault", 0, {READY: DEFERRED, READY + 1: RIGHT[READY]}),
    ("fault", 0, UNOPENED), ("fault", 0, each([REGISTER, RESERVE], HAS_FAILED)),
    ("fault", 0, {RESERVE: HAS_FAILED}), ("interrupted", 0, {}), ("short", 0, {}),
    # a flusher's turn failed, on the cartridge in the drive or on the one before it
    ("fault", 0, {END: DEFERRED}), ("fault", 2, {END: DEFERRED}),
]
FOUND = [
    ("interrupted", 0, {WRITE: ABORTED}), ("short", 2, {}), ("lost", 0, {WRITE: "GOOD 00"}),
    # no fault answer, one of another kind of failure, and one at a command that can't meet it
    ("memory", 0, {WRITE: "GOOD 00"}), ("memory", 0, {WRITE: "CONFLICT"}), ("memory", 0, {MARK: WRITE_ERROR}),
    ("fault", 0, {WRITE: ABORTED}), ("memory", 0, {STORE: ABORTED}), ("memory", 0, {OUT: ABORTED}),
    ("fault", 0, {WRITE: WRITE_ERROR}), ("fault", 0, {WRITE: HAS_FAILED}), ("memory", 0, {0: ABORTED}),
    # two of them, and what does not follow from the one
    ("memory", 0, {WRITE: ABORTED, WRITE + 1: ABORTED}), ("memory", 0, {REGISTER: ABORTED}),
    ("fault", 0, {MARK: DEFERRED}), ("memory", 0, {**FIRST_FAILED, MARK: DEFERRED}),
    ("fault", 0, {MARK: WRITE_ERROR}), ("fault", 0, {**FIRST_FAILED, LAST: "GOOD"}), ("fault", 2, {OUT: WRITE_ERROR}),
    ("fault", 0, {INTO: READ_ERROR}), ("fault", 0, {**UNREAD, READY: RIGHT[READY]}),
    ("fault", 0, {**UNOPENED, LAST: "GOOD"}), ("fault", 0, {**UNOPENED, INTO: READ_ERROR}),
    ("fault", 0, {REGISTER: HAS_FAILED}), ("fault", 0, {REGISTER: HAS_FAILED, RESERVE: "CONFLICT"}),
    ("fault", 0, {MARK: HAS_FAILED, **each(range(MARK + 1, 15), HAS_FAILED)}),
    # another status than the answers ask for
    ("fault", 2, FIRST_FAILED), ("fault", 0, SECOND_FAILED), ("fault", 0, STAYS), ("fault", 2, UNREAD),
    ("memory", 3, {WRITE: ABORTED}), ("memory", 2, {}), ("memory", 2, {}, 0), ("fault", 3, {}, 8), ("fault", 1, {}),
    ("memory", 0, {}, 8), ("fault", 2, {OTHER_WRITE: DEFERRED}), ("fault", 3, {END: DEFERRED}),
    # what was written is no beginning of the answers
    ("memory", 3, {WRITE: "CONFLICT"}, 8), ("fault", 2, {MARK: WRITE_ERROR}, 8), ("fault", 2, {0: "GOOD"}, 8),
    ("fault", 2, {WRITE: f"GOOD\n{READ_ERROR}"}, 8), ("fault", 0, {END: "GOOD\nGOOD"}), ("fault", 2, {7: "GOO"}, 8),
]


def run_of(status, differing, count=len(RIGHT)):
    answers = [differing.get(at, answer) for at, answer in enumerate(RIGHT)][:count]
    err = next((err for number, err in STATUS.values() if number == status), "")
    return Run(status, "".join(f"{answer}\n" for answer in answers), err)


def misjudged():
    """How many ends were invented, and those that are not judged as they should be."""
    wrong = [f"let through: {row}" for row in FOUND if not misanswered(row[0], run_of(*row[1:]))]
    wrong += [f"found: {row}: {said}" for row in STAND for said in misanswered(row[0], run_of(*row[1:]))]
    parted = Run(2, "".join(f"{answer}\n" for answer in RIGHT)[:100], STATUS["fault"][1])
    wrong += [f"found: {parted}: {said}" for said in misanswered("fault", parted)]
    others = [parted._replace(err=""), parted._replace(err=2 * parted.err), parted._replace(out=parted.out + "x")]
    wrong += [f"let through: {run}" for run in others if not misanswered("fault", run)]
    return len(STAND) + len(FOUND) + 1 + len(others), wrong
