#!/usr/bin/env python3
"""The test of the plain reader of two files (plain_sides.py): over the worked bytes of docs/FORMATS.md, which stand
here once more, each byte of both heads is set to each value, and what is read is compared with a table that was worked
out by hand. So are pairs that a reclaim leaves where it is stopped, and pairs that are damaged."""
import sys

from plain_sides import LETTERS, checked_pair, counting

# what a name may have, and the parts of the worked files
NAMES = [*LETTERS]
MARK = "56544c4341525431"
NAMED = "5430303030314c36" + "20" * 8 + "0000000000001000"
HELLO, FILEMARK = "a50000000f01000000000000000005" + "68656c6c6f", "a50000000a02000000000100000001"
X = "a50000000b0100000000000000000178"
OLD = f"a5{MARK}a501{NAMED}{HELLO}{FILEMARK}{X}00"
ONE = f"a5{MARK}0081{NAMED}000000000000000100000001{X}00"
TWO = f"a5{MARK}a581{NAMED}000000000000000200000001{X}00"
# reclaimed once: the first file is of epoch 0 and 87 bytes, the second of epoch 1 and 64. Reclaimed again: the first is
# of epoch 2 and 64 bytes
ONCE, AGAIN = (bytes.fromhex(OLD), bytes.fromhex(ONE)), (bytes.fromhex(TWO), bytes.fromhex(ONE))
FIRST, SECOND, NONE, DAMAGED, BLANK = "first", "second", "none", "damaged at 63", "first, without a frame"


def values(text):
    """The values that a text names: `a5`, `0 to 41`, `letters`, several parted by commas."""
    found = []
    for part in text.split(", "):
        ends = part.split(" to ")
        found += NAMES if part == "letters" else range(int(ends[0], 16), int(ends[-1], 16) + 1)
    return found


# Places of a name and of a capacity, and the values that are right there. A letter may stand for a letter, at the last
# one or behind it also a space, and further behind a space alone. The capacity is 1000h: at least that, at most 2^40.
NAME = [(range(11, 18), {"letters"}), (range(18, 20), {"letters", "20"}), (range(20, 27), {"20"})]
CAPACITY = [(range(27, 30), {"0"}), (range(30, 33), {"0 to ff"}), (range(33, 34), {"10 to ff"}),
            (range(34, 35), {"0 to ff"})]


def open_head(answer):
    """The rows of name and capacity of a side whose gate is open: without a header nothing counts."""
    return [(places, NONE, {text: answer for text in right}) for places, right in NAME + CAPACITY]


def mark(answer):
    return [(range(1 + at, 2 + at), NONE, {MARK[2 * at:2 * at + 2]: answer}) for at in range(8)]


# by pair and file: places, the answer to most values, and the values that have another one
TABLE = {
    # the first file of the pair that was reclaimed once: of epoch 0, its pair gate open
    ("once", 0): [
        (range(1), SECOND, {}), *mark(SECOND),
        # with a closed pair gate the first file counts alone
        (range(9, 10), FIRST, {"a5": SECOND}),
        # 81h: epoch and base are read where the first frame stands: epoch a50000000f010000h, base 0, and the gate at 47
        # is closed. 2 to 4: a second capacity of a50000000f010000h
        (range(10, 11), NONE, {"1": SECOND, "81": BLANK}),
        *open_head(SECOND)],
    # the second one, a copy of epoch 1
    ("once", 1): [
        (range(1), FIRST, {"a5": SECOND}), *mark(SECOND),
        (range(9, 10), SECOND, {"a5": NONE}),
        # 1: of epoch 0, as the first one. 2 to 4: a second capacity of 1
        (range(10, 11), NONE, {"81": SECOND}),
        *open_head(SECOND),
        (range(35, 42), SECOND, {}), (range(42, 43), SECOND, {"0": NONE}),
        # a base above its one frame: the closed gate at 63 comes too early
        (range(43, 46), DAMAGED, {"0": SECOND}), (range(46, 47), DAMAGED, {"0 to 1": SECOND})],
    # the first file of the pair that was reclaimed again: a copy of epoch 2
    ("again", 0): [
        (range(1), SECOND, {"a5": FIRST}), *mark(FIRST),
        # with a closed pair gate a copy counts for nothing
        (range(9, 10), NONE, {"a5": FIRST}),
        # 1: of epoch 0, less than that of the second one. 2 to 4: a second capacity of 2
        (range(10, 11), NONE, {"81": FIRST, "1": SECOND}),
        *open_head(FIRST),
        (range(35, 42), FIRST, {}), (range(42, 43), FIRST, {"0": SECOND, "1": NONE}),
        (range(43, 46), DAMAGED, {"0": FIRST}), (range(46, 47), DAMAGED, {"0 to 1": FIRST})],
    # the second one, of epoch 1
    ("again", 1): [
        (range(1), FIRST, {}), *mark(FIRST),
        (range(9, 10), FIRST, {"a5": NONE}),
        # 1: of epoch 0, less than 2
        (range(10, 11), NONE, {"81": FIRST, "1": FIRST}),
        *open_head(FIRST),
        (range(35, 42), SECOND, {"0": FIRST}), (range(42, 43), SECOND, {"0 to 1": FIRST, "2": NONE}),
        # the base of a side that does not count is not looked at
        (range(43, 47), FIRST, {})]}
PAIRS = {"once": ONCE, "again": AGAIN}
# what lies on the two sides: three frames of epoch 0, or a copy
COPY, WHOLE = "frames 1\npartition 0 objects 1 used 17\n", "frames 3\npartition 0 objects 1 used 17\n"


def lines(pair, which, sides):
    """What has to be printed where this side of that pair counts."""
    at = 0 if which == FIRST else 1
    name = sides[at][11:27].rstrip().decode()
    return f"cartridge {name} partitions 1 {WHOLE if (pair, at) == ('once', 0) else COPY}", 0


def owed(pair, answer, sides):
    if answer == NONE:
        return None, ("not a side\n", 1)
    if answer == DAMAGED:
        return None, ("damaged at 63\n", 1)
    if answer == BLANK:
        return 0, ("cartridge T00001L6 partitions 1 frames 0\npartition 0 objects 0 used 0\n", 0)
    return (0 if answer == FIRST else 1), lines(pair, answer, sides)


def altered():
    """Each pair with one byte of a head set to a value: where, the two files, which file counts (0 or 1, None where
    neither does or the one that counts is damaged), and what has to be printed, with the status."""
    for (pair, at), rows in TABLE.items():
        for places, most, others in rows:
            answers = {value: answer for text, answer in others.items() for value in values(text)}
            for place in places:
                for value in range(256):
                    sides = [bytearray(side) for side in PAIRS[pair]]
                    sides[at][place] = value
                    which, text = owed(pair, answers.get(value, most), sides)
                    yield f"{pair}, file {at + 1}, byte {place} of {value:02x}", [*map(bytes, sides)], which, text


def by_the_table():
    """How many bytes were set, and what is read otherwise than the table says."""
    count, said = 0, []
    for (pair, at), rows in TABLE.items():
        ends = {"once": (35, 47), "again": (47, 47)}[pair][at]
        if [place for places, _, _ in rows for place in places] != list(range(ends)):
            said.append(f"{pair}, file {at + 1}: the table has not each place once")
    for where, sides, which, text in altered():
        found = counting(*sides)
        right = checked_pair(*sides) == text and (which is None or found is not None and found[0] == which)
        count += 1
        if not right:
            said.append(f"{where}: {checked_pair(*sides)} in the place of {text}")
    return count, said


def closed(data, place=0):
    return data[:place] + b"\0" + data[place + 1:]


# Pairs by name, and what is printed of them. First what a reclaim leaves where it is stopped, one step after the other,
# of the cartridge that was never reclaimed, and of the one that was reclaimed once and got a filemark since.
ALONE = closed(ONCE[0], 9)
SINCE = ONCE[1][:63] + bytes.fromhex("a50000000a02000000000100000001") + b"\0"
PREPARED = bytes.fromhex("00" + MARK + "00")
OF_3 = f"cartridge T00001L6 partitions 1 {WHOLE}", 0
OF_1 = f"cartridge T00001L6 partitions 1 {COPY}", 0
OF_2 = "cartridge T00001L6 partitions 1 frames 2\npartition 0 objects 2 used 33\n", 0
NOT_A_SIDE = "not a side\n", 1
STORE = bytes.fromhex("a556544c52455356310000445249564531" + "20" * 10 + "00")
OF_A_STORE = "reservations DRIVE1 frames 0 registrations 0\n", 0
ROWS = [
    ("no second file", ALONE, None, OF_3), ("an empty one", ALONE, b"", OF_3),
    ("a prepared one", ALONE, PREPARED, OF_3), ("the pair gate is open", ONCE[0], PREPARED, OF_3),
    ("a copy that is not open", ONCE[0], closed(ONCE[1]), OF_3), ("an opened copy", *ONCE, OF_1),
    ("a copy beside a closed pair gate", ALONE, ONCE[1], OF_3),
    ("the first file is closed", closed(ONCE[0]), SINCE, OF_2), ("it is cut to ten bytes", closed(ONCE[0])[:10], SINCE,
                                                                OF_2),
    ("a copy of it is written in part", closed(AGAIN[0])[:40], SINCE, OF_2),
    ("a copy is written", closed(AGAIN[0]), SINCE, OF_2), ("it is opened", AGAIN[0], SINCE, OF_1),
    # none counts
    ("the pair gate is open, and no second file", ONCE[0], None, NOT_A_SIDE),
    ("and an empty one", ONCE[0], b"", NOT_A_SIDE), ("and one of nine bytes", ONCE[0], PREPARED[:9], NOT_A_SIDE),
    ("and one that begins as a store", ONCE[0], STORE, NOT_A_SIDE),
    ("both gates are closed", closed(ONCE[0]), closed(ONCE[1]), NOT_A_SIDE),
    ("both have one epoch", AGAIN[0], closed(AGAIN[0], 9), NOT_A_SIDE),
    ("two that were never reclaimed", ONCE[0], ALONE, NOT_A_SIDE),
    ("an open one of ten bytes", ONCE[0], b"\xa5" + PREPARED[1:], NOT_A_SIDE),
    ("the second one alone, by its own name", ONCE[1], None, NOT_A_SIDE),
    ("a first file of nine bytes", ALONE[:9], ONCE[1], NOT_A_SIDE), ("of no byte", b"", ONCE[1], NOT_A_SIDE),
    # a header of 80h and a count, with epoch 0: it counts where it is open alone
    ("a copy of epoch 0", closed(ONCE[0]), closed(ONCE[1], 42), OF_1),
    # damage, in the file that counts
    ("it is cut behind its body", ONCE[0], ONCE[1][:63], ("damaged at 47\n", 1)),
    ("it has no frame", ONCE[0], ONCE[1][:47] + b"\0", ("damaged at 47\n", 1)),
    ("its first gate is missing", ONCE[0], ONCE[1][:47], ("damaged at 47\n", 1)),
    ("the file that does not count is cut", ONCE[0][:60], ONCE[1], OF_1),
    ("its header is, and its gate is closed", closed(ONCE[0])[:20], ONCE[1], OF_1),
    ("its header is, and its gate is open", ONCE[0][:34], ONCE[1], NOT_A_SIDE),
    ("a bad record", ONCE[0], ONCE[1][:52] + b"\4" + ONCE[1][53:], ("bad record at 47\n", 1)),
    ("a store", STORE, None, OF_A_STORE), ("a store beside a copy", STORE, ONCE[1], OF_A_STORE),
    ("a store whose pair gate is another", closed(STORE)[:9] + b"\1" + STORE[10:], None, NOT_A_SIDE)]


def main():
    count, said = by_the_table()
    for name, first, second, wanted in ROWS:
        if checked_pair(first, second) != wanted:
            said.append(f"{name}: {checked_pair(first, second)} in the place of {wanted}")
    lengths = [len(side) for side in (ALONE, *ONCE, *AGAIN)]
    if lengths != [87, 87, 64, 64, 64]:
        said.append(f"the files have {lengths} bytes")
    print("\n".join(said[:20]), end="\n" if said else "")
    print(f"pairs: {count} bytes and {len(ROWS)} pairs, {len(said)} other than expected")
    return 1 if said else 0


if __name__ == "__main__":
    sys.exit(main())
