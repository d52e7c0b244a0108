"""The scripts of nomemory.py: what each line is answered, what the lines behind a command are answered that memory ran
out for, and what the files then hold. All of it is worked out by hand from docs/FORMATS.md."""
import collections

# A script: the words behind `vtl`, the files at first, and the lines with their answers. `held`: from so many answers
# on the files hold this; a file may have each of its contents. `without`: where memory runs out for the command at a
# place, from 0 on, and it is not given again, the answers behind it, and the files. `owed`: the places of the commands
# for which it has to run out once, since they need memory however they are made. `faults`: where the disk in memory
# does not grow, between which lines that may be, 0 being the start, the status, and all answers. `parts`: whether a
# drive parts into its halves in it.
Script = collections.namedtuple("Script", "name words files lines held without owed faults parts",
                                defaults=[(), (), True])

POWER_ON = "CHECK 700006000000000a00000000290000000000"
MEDIUM_CHANGED = "CHECK 700006000000000a00000000280000000000"
ABORTED = "CHECK 70000b000000000a00000000550300000000"
WRITE_ERROR = "CHECK 700003000000000a000000000c0000000000"
DEFERRED = "CHECK 710003000000000a000000000c0000000000"
READ_ERROR = "CHECK 700003000000000a00000000110000000000"
FAILED = "CHECK 700004000000000a00000000440000000000"
NOT_PRESENT = "CHECK 700002000000000a000000003a0000000000"
BAD_ADDRESS = "CHECK 700005000000000a00000000210100000000"
FULL = "CHECK 700005000000000a000000003b0d00000000"
EMPTY = "CHECK 700005000000000a000000003b0e00000000"
# 5 bytes were asked for, at a filemark and at the end of data
AT_MARK = "CHECK f00080000000050a00000000000100000000"
AT_END = "CHECK f00008000000050a00000000000500000000"

READY, REWIND, READ = "1 1 000000000000", "1 1 010000000000", "1 1 080000000500"
WRITE, MARK = "1 1 0a0000000500 68656c6c6f", "1 1 100000000100"
# of the key a1: REGISTER with APTPL, RESERVE and RELEASE of type 5, REGISTER of the same key without APTPL
REGISTER = "1 1 5f000000000000001800 000000000000000000000000000000a10000000001000000"
RESERVE = "1 1 5f010500000000001800 00000000000000a100000000000000000000000000000000"
RELEASE = "1 1 5f020500000000001800 00000000000000a100000000000000000000000000000000"
FORGET = "1 1 5f000000000000001800 00000000000000a100000000000000a10000000000000000"
READ_KEYS, READ_RESERVATION = "1 1 5e000000000000001000", "1 1 5e010000000000001800"


def contents(*texts):
    """The contents that a file may have."""
    return [bytes.fromhex(text) for text in texts]


def config(home, drives):
    cartridge = f'[[cartridge]]\nbarcode = "T00001L6"\nfile = "tape"\ncapacities = [4096]\nhome = {home}\n'
    stores = [f'[[drive]]\nnumber = {number}\nreservations = "store{number}"\n' for number in drives]
    return {"lib.toml": ["".join([cartridge, *stores]).encode()], "tape.2": [b""]}


# the side of the cartridge, up to its first gate, and the frames of what is written
SIDE = "a5 56544c4341525431 00 01 5430303030314c36 2020202020202020 0000000000001000"
BLOCK_FRAME = "a5 0000000f 01 00 00000000 00000005 68656c6c6f"
MARK_FRAME, MARK_ALONE = "a5 0000000a 02 00 00000001 00000001", "a5 0000000a 02 00 00000000 00000001"
BOTH_FRAME = "a5 00000019 01 00 00000000 00000005 68656c6c6f 02 00 00000001 00000001"
NEW_TAPE, BLOCK_TAPE = contents(SIDE + "00"), contents(SIDE + BLOCK_FRAME + "00")
MARK_TAPE = contents(SIDE + MARK_ALONE + "00")
# a flusher may store the block before its filemark
TAPE = contents(SIDE + BOTH_FRAME + "00", SIDE + BLOCK_FRAME + MARK_FRAME + "00")

# the sides of the stores, and the states that are saved: APTPL, type, holder, one nexus and its key
STORE1 = "a5 56544c5245535631 00 00 445249564531 20202020202020202020"
STORE2 = "a5 56544c5245535631 00 00 445249564532 20202020202020202020"
REGISTERED = "a5 0000000d 01 00 00 01 01 00000000000000a1"
RESERVED = "a5 0000000d 01 05 01 01 01 00000000000000a1"
FORGOTTEN = "a5 0000000d 00 05 01 01 01 00000000000000a1"
NEW_STORE, OTHER_STORE = contents(STORE1 + "00"), contents(STORE2 + "00")
ONE_KEY, ONE_HOLDER = contents(STORE1 + REGISTERED + "00"), contents(STORE1 + REGISTERED + RESERVED + "00")
ONE_RELEASED = contents(STORE1 + REGISTERED + RESERVED + REGISTERED + "00")
ONE_FORGOTTEN = contents(STORE1 + REGISTERED + RESERVED + FORGOTTEN + "00")

# a block and a filemark, read back
FILE_LINES = [(READY, POWER_ON), (READY, "GOOD"), (WRITE, "GOOD"), (MARK, "GOOD"), (REWIND, "GOOD"),
              (READ, "GOOD 68656c6c6f"), (READ, AT_MARK)]
FILE_HEAD = [POWER_ON, "GOOD", "GOOD"]
FILE_WITHOUT = {
    2: (["GOOD", "GOOD", AT_MARK, AT_END], {"tape": MARK_TAPE}),
    3: (["GOOD", "GOOD 68656c6c6f", AT_END], {"tape": BLOCK_TAPE}),
    5: (["GOOD 68656c6c6f"], {"tape": TAPE}),
}
# a short block goes to the disk's half without memory
FILE_OWED = [5]
# a growth at the start: it is not loaded; in a flusher's turn; in WRITE FILEMARKS; in the READ
FILE_FAULTS = [
    ([0], 0, [POWER_ON] + 6 * [NOT_PRESENT]), ([3, 4], 2, [*FILE_HEAD, DEFERRED] + 3 * [FAILED]),
    ([4], 2, [*FILE_HEAD, WRITE_ERROR] + 3 * [FAILED]), ([6], 2, [*FILE_HEAD, "GOOD", "GOOD", READ_ERROR, FAILED]),
]

# moves, the last but one of them out of a reserved drive; then what is written goes from drive to drive
MOVE_LINES = [
    (READY, POWER_ON), ("1 2 000000000000", POWER_ON), ("move 1002 1", EMPTY), ("move 1001 1", "GOOD"),
    ("move 1 1300", BAD_ADDRESS), ("move 1 1", FULL), (READY, MEDIUM_CHANGED), (REGISTER, "GOOD"), (RESERVE, "GOOD"),
    ("move 1 1001", "CONFLICT"), (RELEASE, "GOOD"), (WRITE, "GOOD"), ("move 1 2", "GOOD"),
    ("1 2 000000000000", MEDIUM_CHANGED), ("1 2 080000000500", "GOOD 68656c6c6f"),
]
MOVE_HEAD = [answer for _, answer in MOVE_LINES]
# what is answered from the WRITE on where the cartridge is not in drive 1
GONE = [NOT_PRESENT, EMPTY, NOT_PRESENT, NOT_PRESENT]
MOVE_WITHOUT = {
    3: ([BAD_ADDRESS, EMPTY, NOT_PRESENT, "GOOD", "GOOD", "CONFLICT", "GOOD", *GONE],
        {"tape": NEW_TAPE, "store1": ONE_RELEASED}),
    # drive 1 has no reservation, so the cartridge goes back to its slot
    7: (["CONFLICT", "GOOD", "CONFLICT", *GONE], {"tape": NEW_TAPE, "store1": NEW_STORE}),
    8: (["GOOD", "GOOD", *GONE], {"tape": NEW_TAPE, "store1": ONE_KEY}),
    # it stays reserved, and so the cartridge stays in it
    10: (["GOOD", "CONFLICT", NOT_PRESENT, NOT_PRESENT], {"tape": BLOCK_TAPE, "store1": ONE_HOLDER}),
    11: (["GOOD", MEDIUM_CHANGED, AT_END], {"tape": NEW_TAPE, "store1": ONE_RELEASED}),
    # it was unloaded, and is back in drive 1
    12: ([NOT_PRESENT, NOT_PRESENT], {"tape": BLOCK_TAPE, "store1": ONE_RELEASED}),
    14: ([], {"tape": BLOCK_TAPE, "store1": ONE_RELEASED}),
}
MOVE_OWED = [3, 12, 14]
MOVE_FAULTS = [
    # in the loading of `move 1001 1`, and in the saving of each order
    ([4], 0, [*MOVE_HEAD[:3], READ_ERROR, *MOVE_WITHOUT[3][0]]),
    ([8], 0, [*MOVE_HEAD[:7], FAILED, FAILED, "GOOD", FAILED, *GONE]),
    ([9], 0, [*MOVE_HEAD[:8], FAILED, "GOOD", FAILED, *GONE]),
    ([11], 0, [*MOVE_HEAD[:10], FAILED, *MOVE_WITHOUT[10][0]]),
    # in a flusher's turn: `move 1 2` gives up what waits, and finds the frame in flight or not; no command comes to
    # drive 1 behind that, so the end reports the fault
    ([12, 13], 2, [*MOVE_HEAD[:14], AT_END]), ([12, 13], 2, MOVE_HEAD),
    # in the storing of `move 1 2`, and in its loading; in the READ
    ([13], 2, [*MOVE_HEAD[:12], WRITE_ERROR, NOT_PRESENT, NOT_PRESENT]),
    ([13], 0, [*MOVE_HEAD[:12], READ_ERROR, NOT_PRESENT, NOT_PRESENT]),
    ([15], 2, [*MOVE_HEAD[:14], READ_ERROR]),
]

ONE_DRIVE, TWO_DRIVES = config(1, [1]), config(1001, [1, 2])
OVER, IN_MEMORY = ["run", "--config", "lib.toml"], ["run", "--memory", "--config", "lib.toml"]
KEY = "GOOD 000000000000000800000000000000a1"
SCRIPTS = [
    Script("a block and a filemark over files", OVER, {**ONE_DRIVE, "tape": NEW_TAPE, "store1": NEW_STORE}, FILE_LINES,
           {3: {"tape": BLOCK_TAPE}, 4: {"tape": TAPE}}, FILE_WITHOUT, FILE_OWED),
    Script("a block and a filemark in memory", ["run"], {}, FILE_LINES, {},
           {at: (behind, {}) for at, (behind, _) in FILE_WITHOUT.items()}, FILE_OWED, FILE_FAULTS),
    Script("frames over files", ["serve", *OVER[1:]], {**ONE_DRIVE, "tape": NEW_TAPE, "store1": NEW_STORE}, FILE_LINES,
           {3: {"tape": BLOCK_TAPE}, 4: {"tape": TAPE}}, FILE_WITHOUT, FILE_OWED),
    Script("frames in memory", ["serve"], {}, FILE_LINES, {},
           {at: (behind, {}) for at, (behind, _) in FILE_WITHOUT.items()}, FILE_OWED, FILE_FAULTS),
    Script("a reservation", OVER, {**ONE_DRIVE, "tape": NEW_TAPE, "store1": NEW_STORE},
           [(READY, POWER_ON), (REGISTER, "GOOD"), (RESERVE, "GOOD")],
           {2: {"store1": ONE_KEY}, 3: {"store1": ONE_HOLDER}},
           {1: (["CONFLICT"], {"store1": NEW_STORE}), 2: ([], {"store1": ONE_KEY})}),
    Script("the reservation behind a power on", OVER, {**ONE_DRIVE, "tape": NEW_TAPE, "store1": ONE_HOLDER},
           [(READY, POWER_ON), (READ_KEYS, KEY),
            (READ_RESERVATION, "GOOD 000000000000001000000000000000a10000000000050000"), (FORGET, "GOOD")],
           {4: {"store1": ONE_FORGOTTEN}}, {3: ([], {"store1": ONE_HOLDER})}),
    Script("no reservation behind the next one", OVER, {**ONE_DRIVE, "tape": NEW_TAPE, "store1": ONE_FORGOTTEN},
           [(READY, POWER_ON), (READ_KEYS, "GOOD 0000000000000000")], {}, {}),
    Script("moves over files", OVER,
           {**TWO_DRIVES, "tape": NEW_TAPE, "store1": NEW_STORE, "store2": OTHER_STORE}, MOVE_LINES,
           {8: {"store1": ONE_KEY}, 9: {"store1": ONE_HOLDER},
            11: {"store1": ONE_RELEASED}, 12: {"tape": BLOCK_TAPE}}, MOVE_WITHOUT, MOVE_OWED),
    Script("moves in memory", IN_MEMORY, TWO_DRIVES, MOVE_LINES, {},
           {at: (behind, {}) for at, (behind, _) in MOVE_WITHOUT.items()}, MOVE_OWED, MOVE_FAULTS),
]


def held(script, count):
    """What the files hold behind so many answers, where no command was refused: what they held at first, and what the
    lines made of it."""
    files = dict(script.files)
    for least, those in sorted(script.held.items()):
        if least <= count:
            files.update(those)
    return files
