#!/usr/bin/env python3
"""Runs the built program to each of its endings, and compares status, standard output and standard error.

Done; a bad line; a reader that fails (a folder); a writer that fails (a full device, a closed pipe); words and
configurations that are refused, files that are missing, that can't be written (and are gone again), and full devices
under create, check and reclaim; a standard output that is closed from the start, of which nothing may land in a file;
files that a run in another process has open, which goes on; checked files that hold no side, a damaged one or a bad
record, whose line says so; `vtl serve` (served_endings.py, served_crowd.py); memory that runs out, by limits of the
system over a range: at each at which a script of no line ends well a long one does so too, or memory runs out in the
program or in the command, and at some it does. But for --short, a script of 2,147,483,648 bytes, and one of a byte
more."""
import os
import resource
import signal
import subprocess
import sys
import tempfile

import served_crowd
import served_endings

TOP = os.path.dirname(os.path.dirname(os.path.abspath(__file__)))
PROGRAM = os.path.join(TOP, "crates", "vtl", "out", "vtl")
MOST = 2_147_483_648
READY = b"1 1 000000000000\n"
PHASE = READY + b"--\n"
# a command with 1,048,576 bytes
LONG = b"1 1 0a0010000000 " + b"5a" * 1_048_576 + b"\n"
ATTENTION = b"CHECK 700006000000000a00000000290000000000\n"
ABORTED = b"CHECK 70000b000000000a00000000550300000000\n"
DEVICE, MEMORY = b"vtl: device fault\n", b"vtl: out of memory\n"


def stored(name):
    with open(os.path.join(TOP, "crates", "vtl", name), "rb") as file:
        return file.read()


def ended(script, stdin=None, stdout=None, memory=None):
    """Status, standard output and standard error; stdin and stdout are files in the place of pipes."""
    limited = (lambda: resource.setrlimit(resource.RLIMIT_AS, (memory, memory))) if memory else None
    given = {"input": script} if stdin is None else {"stdin": stdin}
    done = subprocess.run([PROGRAM, "run"], stdout=stdout or subprocess.PIPE, stderr=subprocess.PIPE,
                          preexec_fn=limited, **given)
    return done.returncode, done.stdout or b"", done.stderr


def ended_on(size):
    """The same of a script of this size: a phase of one command, and remarks."""
    child = subprocess.Popen([PROGRAM, "run"], stdin=subprocess.PIPE, stdout=subprocess.PIPE, stderr=subprocess.PIPE)
    left, remark = size - len(PHASE), b"#" * 2_199_999 + b"\n"
    try:
        child.stdin.write(PHASE)
        while left:
            child.stdin.write(remark[-min(left, len(remark)):])
            left -= min(left, len(remark))
        child.stdin.close()
    except BrokenPipeError:
        pass
    out, said = child.stdout.read(), child.stderr.read()
    return child.wait(), out, said


RUN, CREATE = ["run", "--config", "lib.toml"], ["create", "--config", "lib.toml"]
RECLAIM = ["reclaim", "--config", "lib.toml", "T00001L6"]
CONFIG = b"""cartridge = [{ barcode = "T00001L6", file = "t1.tape", capacities = [4096], home = 1 }]
drive = [{ number = 1, reservations = "d1.pr" }]
"""
# the sides of these files as they are made
NEW = {"t1.tape": b"\xa5VTLCART1\0\x01T00001L6" + b" " * 8 + (4096).to_bytes(8, "big") + b"\0",
       "t1.tape.2": b"",
       "d1.pr": b"\xa5VTLRESV1\0\0DRIVE1" + b" " * 10 + b"\0"}


def ended_in(room, words, stdout=None, size=None):
    """Status, standard output, standard error and the files of a run in this folder; no file may be longer than that
    size."""
    def limit():
        signal.signal(signal.SIGXFSZ, signal.SIG_IGN)
        resource.setrlimit(resource.RLIMIT_FSIZE, (size, size))
    done = subprocess.run([PROGRAM, *words], cwd=room, stdin=subprocess.DEVNULL, stdout=stdout or subprocess.PIPE,
                          stderr=subprocess.PIPE, preexec_fn=limit if size is not None else None)
    return done.returncode, done.stdout or b"", done.stderr, sorted(os.listdir(room))


def over_files(full):
    """Endings of the other words, each in a folder that has the configuration."""
    with tempfile.TemporaryDirectory(prefix="vtl-endings-") as room:
        with open(os.path.join(room, "lib.toml"), "wb") as file:
            file.write(CONFIG)
        refused = b"vtl: command line refused\n"
        made, tape = ["d1.pr", "lib.toml", "t1.tape", "t1.tape.2"], os.path.join(room, "t1.tape")
        rows = [
            ("a word that is none", (1, b"", refused, ["lib.toml"]), ended_in(room, ["walk"])),
            ("a word that is no text", (1, b"", refused, ["lib.toml"]), ended_in(room, [b"run", b"--config", b"\xff"])),
            ("files that are missing", (2, b"", DEVICE, ["lib.toml"]), ended_in(room, RUN)),
            # its second file was made before, with no bytes
            ("a cartridge that can't be made is gone again", (2, b"", DEVICE, ["lib.toml", "t1.tape.2"]),
             ended_in(room, CREATE, size=20)),
        ]
        with open(tape, "wb") as file:
            file.write(b"mine")
        rows.append(("so is a store", (2, b"kept T00001L6\n", DEVICE, ["lib.toml", "t1.tape", "t1.tape.2"]),
                     ended_in(room, CREATE, size=20)))
        os.remove(tape)
        rows.append(("a full device for create", (2, b"", DEVICE, ["lib.toml", "t1.tape", "t1.tape.2"]),
                     ended_in(room, CREATE, stdout=full)))
        rows.append(("create goes on", (0, b"kept T00001L6\ncreated DRIVE1\n", b"", made), ended_in(room, CREATE)))
        rows.append(("a full device for check", (2, b"", DEVICE, made),
                     ended_in(room, ["check", "t1.tape"], stdout=full)))
        rows.append(("a script over files", (0, b"", b"", made), ended_in(room, RUN)))
        rows.append(("a full device for reclaim", (2, b"", DEVICE, made), ended_in(room, RECLAIM, stdout=full)))
        rows.append(("reclaim goes on", (0, b"reclaimed T00001L6 epoch 2\n", b"", made), ended_in(room, RECLAIM)))
        return rows + closed_output() + files_in_use(room) + refused_files(room, made)


def ended_closed(room, words):
    """Status, standard error and what each file holds, of a run whose standard output is closed from the start."""
    done = subprocess.run([PROGRAM, *words], cwd=room, input=PHASE, stderr=subprocess.PIPE,
                          preexec_fn=lambda: os.close(1))
    sides = {}
    for name in sorted(os.listdir(room)):
        with open(os.path.join(room, name), "rb") as file:
            sides[name] = file.read()
    return done.returncode, done.stderr, sides


def closed_output():
    """Endings with a standard output that is closed: the first file that is opened then has its number."""
    with tempfile.TemporaryDirectory(prefix="vtl-endings-") as room:
        with open(os.path.join(room, "lib.toml"), "wb") as file:
            file.write(CONFIG)
        tape = {"lib.toml": CONFIG, "t1.tape": NEW["t1.tape"], "t1.tape.2": b""}
        rows = [("a closed output for create", (2, DEVICE, tape), ended_closed(room, CREATE)),
                ("a closed output for a file that is kept", (2, DEVICE, tape), ended_closed(room, CREATE))]
        ended_in(room, CREATE)
        return rows + [("a closed output for run", (2, DEVICE, {**tape, **NEW}), ended_closed(room, RUN)),
                       ("a closed output for check", (2, DEVICE, {**tape, **NEW}),
                        ended_closed(room, ["check", "t1.tape"]))]


def files_in_use(room):
    """Endings over files that a run has open in another process, and the end of that run."""
    made = sorted(os.listdir(room))
    first = subprocess.Popen([PROGRAM, *RUN], cwd=room, stdin=subprocess.PIPE, stdout=subprocess.PIPE,
                             stderr=subprocess.PIPE)
    first.stdin.write(PHASE)
    first.stdin.flush()
    told = first.stdout.readline()
    rows = [(f"{what} that another process has open", (2, b"", DEVICE, made), ended_in(room, words))
            for what, words in (("a run over files", RUN), ("a check of a cartridge", ["check", "t1.tape"]),
                                ("a check of its second file", ["check", "t1.tape.2"]),
                                ("a cartridge to be reclaimed", RECLAIM), ("a check of a store", ["check", "d1.pr"]))]
    rest, said = first.communicate(READY)
    return rows + [("the process that has them open", (0, ATTENTION + b"GOOD\n", b""),
                    (first.returncode, told + rest, said))]


def refused_files(room, made):
    """Endings over a configuration that is refused, and checks of files that are refused: their line says why."""
    def file_of(name, content):
        with open(os.path.join(room, name), "wb") as file:
            file.write(content)
        return sorted({*made, name})
    refused, rows = b"vtl: configuration refused\n", []
    for what, content in (("not UTF-8", b"\xff"), ("no TOML", b"drive"),
                          ("a drive that is not listed", CONFIG.replace(b"number = 1", b"number = 2"))):
        there = file_of("bad.toml", content)
        for words in (["run"], ["create"], ["reclaim", "T00001L6"]):
            rows.append((f"{words[0]} over a configuration that is {what}", (1, b"", refused, there),
                         ended_in(room, [*words, "--config", "bad.toml"])))
    os.remove(os.path.join(room, "bad.toml"))
    side = NEW["t1.tape"]
    # the gate of the first frame of a side of one partition has the place 35
    for what, content, line in (("empty", b"", b"not a side\n"), ("cut before its gate", side[:35], b"damaged at 35\n"),
                                ("open at a frame that is none", side[:35] + b"\xa5", b"damaged at 35\n"),
                                ("of a record that is none", side[:35] + b"\xa5\0\0\0\1x\0", b"bad record at 35\n")):
        there = file_of("bad.tape", content)
        rows.append((f"a check of a file that is {what}", (1, line, b"", there), ended_in(room, ["check", "bad.tape"])))
    os.remove(os.path.join(room, "bad.tape"))
    rows.append(("a check of no file", (2, b"", DEVICE, made), ended_in(room, ["check", "bad.tape"])))
    return rows


def ends_out_of_memory():
    """How often memory ran out over a range of limits, and what ended otherwise than it should."""
    fine, times, wrong = (0, ATTENTION + b"GOOD\n", b""), 0, []
    # the last one: the block was accepted, and the disk in memory could not grow as it was stored
    short = [(0, ATTENTION + ABORTED, b""), (3, ATTENTION, MEMORY), (3, b"", MEMORY),
             (2, ATTENTION + b"GOOD\n", DEVICE)]
    limits = [limit for limit in range(1 << 20, 24 << 20, 1 << 18) if ended(b"", memory=limit) == (0, b"", b"")]
    for limit in [None, *limits]:
        run = ended(PHASE + LONG, memory=limit)
        times += run in short
        if run != fine and not (limit and run in short):
            wrong.append(f"with {limit} bytes: {run}")
    return times, wrong


def main(words):
    if not os.path.exists(PROGRAM):
        sys.exit("build the program first: make vtl")
    folder, full = os.open(TOP, os.O_RDONLY), os.open("/dev/full", os.O_WRONLY)
    read_end, closed = os.pipe()
    os.close(read_end)
    rows = [
        ("the stored script", (0, stored("stdout"), b""), ended(stored("stdin"))),
        ("no line", (0, b"", b""), ended(b"")),
        ("a bad line", (1, ATTENTION, b"vtl: script line 4 refused\n"), ended(PHASE + READY + b"move 1\n" + READY)),
        ("a bad first line", (1, b"", b"vtl: script line 1 refused\n"), ended(b"x\n")),
        ("4,000,000 empty lines", (0, b"", b""), ended(b"\n" * 4_000_000)),
        ("a reader that fails", (2, b"", DEVICE), ended(b"", stdin=folder)),
        ("a writer that is full", (2, b"", DEVICE), ended(PHASE, stdout=full)),
        ("a writer that is closed", (2, b"", DEVICE), ended(PHASE, stdout=closed)),
    ]
    rows += over_files(full)
    if words != ["--short"]:
        rows.append((f"a script of {MOST:,} bytes", (0, ATTENTION, b""), ended_on(MOST)))
        rows.append((f"a script of {MOST + 1:,} bytes", (2, ATTENTION, DEVICE), ended_on(MOST + 1)))
    wrong = 0
    for name, wanted, run in rows:
        wrong += run != wanted
        print(f"{name}: {f'status {wanted[0]}' if run == wanted else f'{run} in the place of {wanted}'}")
    times, others = ends_out_of_memory()
    wrong += len(others) if times else 1
    wrong += served_endings.wrong_in(PROGRAM) + served_crowd.selftest() + served_crowd.wrong_in(PROGRAM)
    print("\n".join([f"memory that runs out: at {times} limits", *others]))
    print(f"endings: {wrong} are not as they should be")
    return 1 if wrong else 0


if __name__ == "__main__":
    sys.exit(main(sys.argv[1:]))
