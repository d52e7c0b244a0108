"""The runner's own tests: rows that are wrong on purpose, over a program that stands here.

That program answers each command `GOOD` and its command block, a phase's answers by rising host, and refuses a line
`x`. Behind the word `counts` it answers a command `LAST` where it ends a phase of several; behind `swaps` it answers
`LONG` where a phase has one command; with `--config` it answers the third drive `FILE`. SERVES does so by frames."""
import os
import subprocess
import sys
import tempfile

import rowfile
import rows
from rowcells import walk


def answers(phase, words):
    order = sorted(range(len(phase)), key=lambda at: (int(phase[at][0]), at))
    told = ["GOOD " + phase[at][2] for at in order]
    if "counts" in words and len(told) > 1:
        told[-1] = "LAST"
    if "swaps" in words and len(told) == 1:
        told = ["LONG"]
    if "--config" in words:
        told = ["FILE" if phase[at][1] == "3" else text for at, text in zip(order, told)]
    return told


def program(words, room, given):
    """Status, standard output and standard error of the program that stands here."""
    if words[:1] == ["write"]:
        with open(os.path.join(room, "made"), "wb") as file:
            file.write(b"\x5a\x5a")
    if words[:1] != ["run"]:
        return 1 if words == ["check", "bad"] else 0, [" ".join(words)], ""
    phase, told = [], []
    for number, line in enumerate(given.split("\n"), 1):
        fields = line.split()
        if line == "x":
            return 1, told, f"vtl: script line {number} refused\n"
        if line == "--" or fields[:1] == ["move"]:
            told += answers(phase, words) + (["GOOD"] if line != "--" else [])
            phase = []
        elif fields and not line.startswith("#"):
            phase.append(fields)
    return 0, told + answers(phase, words), ""


def ended(self, words, room, given):
    self.runs += 1
    status, told, said = program([word.decode() for word in words], room, given.decode())
    return subprocess.CompletedProcess(words, status, "".join(f"{line}\n" for line in told).encode(), said.encode())


# It answers each frame, and with a word more it errs: at the second frame, or at its end.
SERVES = """#!{python}
import struct, sys
header, word = struct.Struct(">BBBBII4x"), sys.argv[-1]
count, out = 0, sys.stdout.buffer
while len(head := sys.stdin.buffer.read(16)) == 16:
    kind, host, drive, length, more, tag = header.unpack(head)
    block = sys.stdin.buffer.read(length)
    count += 1
    status, data = (8 if word == "busy" and count == 2 else 0), block if kind == 1 else b""
    answer = header.pack(kind, host, status, 0, len(data), tag + (word == "tags" and count == 2)) + data
    out.write(answer[:-1] if word == "cuts" and count == 2 else b"" if word == "mutes" and count == 2 else answer)
    out.write(answer if word == "repeats" and count == 2 else b"")
    out.flush()
    if word in ("cuts", "mutes", "tags") and count == 2:
        break
sys.exit(word == "fails")
"""
GOOD = """# a row
$ vtl run
  # a remark
  2 2 01
  > GOOD 01
  1 1 02*3
  > GOOD 020202
  --
  2 times 1 1 03
  > GOOD 03
  move 1 2
  > GOOD
  \\#x
  1 1 04\\e
  > GOOD 04
$ vtl run
  1 1 05
  > GOOD 05
  1 1 06
  > GOOD 06
  --
  x
  1 1 07
exit 1
error vtl: script line 4 refused
$ vtl check a
  > check a
file held
  00 5a*2
bytes held
  005a5a
$ vtl write
  > write
bytes made
  5a5a
remove made
gone made
"""
# what is wrong, the old text and the new one, and what must be said of it
WRONG = [
    ("a wrong answer", "  > GOOD 020202", "  > GOOD 020203",
     ":7: as it stands: GOOD 020202 in the place of GOOD 020203"),
    ("a wrong answer of a move", "2\n  > GOOD\n", "2\n  > CONFLICT\n",
     ":12: as it stands: GOOD in the place of CONFLICT"),
    ("an answer that is missing", "  > GOOD 05\n", "", ":17: the line has no answer"),
    ("an answer that the program does not give", "  1 1 04\\e\n", "  move 1 2\n  > GOOD\n  #\n  move 1 2\n",
     ":18: as it stands: GOOD in the place of GOOD 04"),
    ("one answer too many", "  > GOOD 05\n", "  > GOOD 05\n  > GOOD 05\n", ":19: a second answer to one line"),
    ("an answer to a line that has none", "  --\n  2", "  --\n  > GOOD\n  2", ":9: an answer to a line that has none"),
    ("an answer that a remark swallows", "  \\#x\n", "  1 1 02\\e\n", ":2: a line without its end is not the last"),
    ("one line of output too many", "  > check a\n", "  > check a\n  > check a\n",
     ":28: as it stands: no line in the place of check a"),
    ("a line of output that is missing", "  > check a\n", "", ":26: as it stands: one line too many: check a"),
    ("another status", "check a\n  > check a\n", "check bad\n  > check bad\n", "status 1 in the place of 0"),
    ("a status that is not owed", "bytes held", "exit 2\nerror vtl: device fault\nbytes held",
     "status 0 in the place of 2"),
    ("another line of standard error", "line 4", "line 5", "standard error b'vtl: script line 4 refused"),
    ("a refusal that does not come", "  x\n", "  --\n", ":20: as it stands: one line too many: GOOD 07"),
    ("a refusal that is not owed", "exit 1\nerror vtl: script line 4 refused\n", "", ":22: the line has no answer"),
    ("an answer in the phase that is refused", "  1 1 07\n", "  1 1 07\n  > GOOD 07\n",
     ":24: an answer in the phase that is refused, or behind it"),
    ("another byte of a file", "  005a5a\n", "  005a5b\n", ":30: as it stands: held has 3 bytes, and 5a at 2"),
    ("a file that is longer", "  005a5a\n", "  005a\n", ":30: as it stands: held has 3 bytes, and 5a at 2"),
    ("a file that is there", "remove made\n", "", "made is there"),
    ("a file that is not there", "bytes made\n", "bytes make\n", "make cannot be read"),
    ("no title", "# a row\n", "a row\n", ":1: the first line is no title"),
    ("a title of no word", "# a row\n", "# \n", ":1: the first line is no title"),
    ("no run", GOOD, "# a row\n", ":1: there is no run of the program"),
    ("a step that is none", "bytes held", "byte held", "`byte` begins no step"),
    ("a line that is not indented", "  --\n  2", "--\n  2", ":8: `--` begins no step"),
    ("a line indented by one space", "  --\n  2", " --\n  2", ":8: a line is indented by one space"),
    ("bytes that are none", "  005a5a\n", "  005a5\n", ":31: no hexadecimal bytes"),
    ("an escape that is none", "  \\#x\n", "  \\q\n", ":13: an escape that is none"),
    ("an escape that is none in standard output", "  > check a\n", "  > check \\q\n", ":27: an escape that is none"),
    ("another byte of standard output", "  > check a\n", "  > check \\x62\n",
     ":27: as it stands: check a in the place"),
    ("two hosts at one drive in a phase", "  2 2 01", "  2 1 01", ":6: two hosts at one drive in one phase"),
    ("a script of another word", "  > check a\n", "  1 1 00\n", ":27: only `$ vtl run ..` has a script"),
    ("a link that leads nowhere", "bytes held\n", "link held\nbytes held\n", "`link` leads to no name"),
    ("an indented line behind a folder", "bytes held\n", "folder held\n", "an indented line belongs to nothing"),
    ("a status without its line", "error vtl: script line 4 refused\n", "", "do not go together"),
    ("a refused line that the script lacks", "line 4", "line 40", ":25: the script has no line 40"),
    ("a way that parts the lines", "$ vtl run\n  1 1 05", "$ vtl run counts\n  1 1 05",
     " as it stands: LAST in the place"),
    ("a way that parts the lines, and only it", "$ vtl run\n  1 1 05\n  > GOOD 05\n  1 1 06\n  > GOOD 06",
     "$ vtl run counts\n  1 1 05\n  > GOOD 05\n  1 1 06\n  > LAST",
     ":20: each line a phase: GOOD 06 in the place of LAST"),
    ("a way that joins the phases, and only it", "$ vtl run\n  1 1 05",
     "$ vtl run swaps\n  1 1 05\n  > LONG\n  --\n  1 1 05\n  > LONG\n$ vtl run\n  1 1 05",
     ":18: phases joined: GOOD 05 in the place of LONG"),
    ("a way over files, and only it", "  2 2 01", "  2 3 01", ":5: over files: FILE in the place of GOOD 01"),
    ("a frame with another status", "row\n$ vtl run", "row\n$ vtl run busy", ":7: by frames: 08 020202 in the place"),
    ("a frame with another tag", "row\n$ vtl run", "row\n$ vtl run tags", ":2: by frames: an answer of kind 1"),
    ("a frame that is answered twice", "row\n$ vtl run", "row\n$ vtl run repeats", ":2: by frames: a second answer"),
    ("a frame that is cut off", "row\n$ vtl run", "row\n$ vtl run cuts", ":2: by frames: the output ends inside"),
    ("a frame that is not answered", "row\n$ vtl run", "row\n$ vtl run mutes", ":7: by frames: (no answer) in the"),
    ("another status behind frames", "row\n$ vtl run", "row\n$ vtl run fails", ":2: by frames: status 1 in the place"),
]


# a row whose title says nothing, the cells that it shows, one that it does not, and an answer that the model refuses
SHOWS = """# a title
$ vtl run
  1 1 000000000000
  > CHECK 700006000000000a00000000290000000000
  1 1 100000000100
  > GOOD
  1 1 010000000000
  > GOOD
  1 1 080000000500
  > CHECK f00080000000050a00000000000100000000
"""
SHOWN = ["does | READ | at a filemark", "sense | 29/00 | in the place of TEST UNIT READY", "words | run",
         "script | the end of the script ends a phase"]
NOT_SHOWN = ["does | READ | at a block", "does | TEST UNIT READY | "]


def cells_of(room, text):
    """How many of the cells of the row are not as they should be."""
    path = os.path.join(room, "a.row")
    with open(path, "w") as file:
        file.write(text)
    walked = walk.Walk(rowfile.read(path)).all()
    return walked.said, [cell for cell in SHOWN if cell not in walked.cells] + [
        cell for cell in NOT_SHOWN if cell in walked.cells]


def wrong_cells(room):
    """What the cells of a row say that they must not."""
    said, other = cells_of(room, SHOWS)
    found = [f"the cells of a row that is right: {it}" for it in said + other]
    said, _ = cells_of(room, SHOWS.replace("f00080000000050a", "f00080000000040a"))
    if len(said) != 1 or ":10: " not in said[0]:
        found.append(f"the cells of a row with another answer: {said}")
    _, other = cells_of(room, SHOWS.replace("# a title", "# does READ at a block"))
    return found + [f"the title shows {it}" for it in other]


def said_of(room, text):
    path = os.path.join(room, "a.row")
    with open(path, "w") as file:
        file.write(text)
    try:
        row = rowfile.read(path)
    except rowfile.Bad as bad:
        return [str(bad)]
    return rows.run_all(os.path.join(room, "serves"), [row])[0]


def main():
    wrong = 0
    with tempfile.TemporaryDirectory(prefix="vtl-rows-selftest-") as room:
        rows.Room.ended = ended
        with open(os.path.join(room, "serves"), "w") as file:
            file.write(SERVES.format(python=sys.executable))
        os.chmod(file.name, 0o755)
        others = wrong_cells(room)
        wrong += len(others)
        print("\n".join(others), end="\n" if others else "")
        said = said_of(room, GOOD)
        if said:
            wrong += 1
            print("\n".join(["the row that is right is refused:", *said]))
        for what, old, new, owed in WRONG:
            if GOOD.count(old) != 1:
                sys.exit(f"{what}: its old text stands {GOOD.count(old)} times")
            said = said_of(room, GOOD.replace(old, new))
            if not said or owed not in said[0]:
                wrong += 1
                print(f"{what}: {said[0] if said else 'nothing'} is said in the place of {owed}")
    print(f"rows --selftest: {len(WRONG)} wrong rows, {wrong} not refused as they must be")
    return 1 if wrong else 0
