"""A library over real files for kills.py and stops.py: scripts are run over it, its cartridges are reclaimed, and what
it then holds is compared."""
import itertools
import os
import subprocess
import sys
import threading
import time

import cartridge_files
import front_end
import plain_sides
from drive_model import MARK, Reservations, check
from kill_script import TAPES, configuration

TOP = os.path.dirname(os.path.dirname(os.path.abspath(__file__)))
PROVED = os.path.join(TOP, "crates", "vtl", "out", "vtl")
READER, LONGEST = 64, bytes.fromhex("080210000000")


class RealLibrary:
    """A library in a folder, and what it is known to hold."""

    def __init__(self, program, room):
        self.program, self.room, self.wrong = program, room, []
        for stores in ("drive", "reader"):
            with open(os.path.join(room, f"{stores}.toml"), "w") as file:
                file.write(configuration(stores))
            self.ended(["create", "--config", f"{stores}.toml"])
        self.volumes = {name: [] for name in TAPES}
        self.reservations = {1: Reservations(), 2: Reservations()}

    def ended(self, words, script=""):
        done = subprocess.run([self.program, *words], cwd=self.room, input=script.encode(), capture_output=True)
        if done.returncode or done.stderr:
            self.wrong.append(f"{words} ended with status {done.returncode}: {done.stderr.decode(errors='replace')}")
        return done.stdout.decode().splitlines()

    def run(self, script, moment):
        """The answers of a run that is killed so long after so many of them were read, or runs to its end, and whether
        it was; one that ends by itself has to end with status 0, and none may write to standard error."""
        told, (count, delay) = b"", moment or (sys.maxsize, 0)
        with open(os.path.join(self.room, "script"), "w+b") as given:
            given.write("".join(script.text).encode())
            given.seek(0)
            child = subprocess.Popen([self.program, "run", "--config", "drive.toml"], cwd=self.room, stdin=given,
                                     stdout=subprocess.PIPE, stderr=subprocess.PIPE)
        while told.count(b"\n") < count:
            piece = os.read(child.stdout.fileno(), 65536)
            if not piece:
                break
            told += piece
        if moment:
            time.sleep(delay)
            child.kill()
        rest, said = child.communicate()
        told, killed = told + rest, child.returncode == -9
        if said or child.returncode and not killed:
            self.wrong.append(f"a script ended with status {child.returncode}: {said.decode(errors='replace')}")
        return told.decode().split("\n")[:-1], killed

    def run_frames(self, script, moment):
        """The same by frames, each phase once the one before it is answered. Answers count up to the first line, in the
        order of a script's answers, that has none."""
        run = front_end.Served(self.program, [b"run", b"--config", b"drive.toml"], self.room)
        if moment:
            threading.Thread(target=run.kill_after, args=moment).start()
        for frames in front_end.in_turn(script.parted()):
            run.phase(frames)
        status, answers = run.end(), run.answers
        told = [answers[tag].decode() for tag in itertools.takewhile(answers.__contains__, itertools.count())]
        if run.errors or status not in (0, -9) or run.faults:
            self.wrong.append(f"a run by frames ended with status {status}: {run.errors.decode()} {run.faults[:1]}")
        return told, status == -9

    def reclaim(self, name, delay=None):
        """Reclaims a cartridge, killed so long after its start where a delay is given; whether it was, and whether the
        other file counts then. It may leave the cartridge as it was, or reclaimed, and nothing between."""
        path = os.path.join(self.room, f"{name}.tape")
        _, _, epoch, _ = cartridge_files.side_that_counts(path)
        child = subprocess.Popen([self.program, "reclaim", "--config", "drive.toml", name], cwd=self.room,
                                 stdin=subprocess.DEVNULL, stdout=subprocess.PIPE, stderr=subprocess.PIPE)
        if delay is not None:
            time.sleep(delay)
            child.kill()
        out, said = child.communicate()
        killed, line = child.returncode == -9, f"reclaimed {name} epoch {epoch + 1}\n".encode()
        if said or out not in (line, b"" if killed else line) or child.returncode not in (0, -9 if killed else 0):
            self.wrong.append(f"reclaim {name} ended with status {child.returncode}: {out + said}")
        side, start, later, base = cartridge_files.side_that_counts(path)
        if later not in ((epoch + 1,) if out else (epoch, epoch + 1)):
            self.wrong.append(f"{name}: of epoch {epoch} is reclaimed to epoch {later}, and {out} is written")
        found, damaged = plain_sides.frames(side, start)
        if later > epoch and (damaged is not None or len(found) != base or len(side) != end_of(side)[1] + 1):
            self.wrong.append(f"{name}: a copy of base {base} has {len(found)} frames and {len(side)} bytes")
        return killed, later > epoch

    def keeps(self, name):
        """Whether a volume that was judged last is read again."""
        found = self.read_back({tape: len(objects) for tape, objects in self.volumes.items()})[0]
        if found != self.volumes:
            self.wrong.append(f"{name} was reclaimed, and another volume is read")
        return found == self.volumes

    def read_back(self, counts):
        """Each volume, of so many objects at most, or None where it is not read; and what is read of each drive's
        reservations."""
        reserved = self.ended(["run", "--config", "drive.toml"], "".join(
            f"{READER} {number} {block}\n" for number in (1, 2)
            for block in ("000000000000", "5e00000000000010ff00", "5e010000000000001800")))
        found = self.ended(["run", "--config", "reader.toml"], "".join(reading(*it) for it in counts.items()))
        volumes = {}
        for name, home in TAPES.items():
            skipped, count = 1 if home < 1001 else 4, counts[name] + 1
            volumes[name], found = objects_of(found[skipped:skipped + count]), found[skipped + count:]
        return volumes, {1: tuple(reserved[1:3]), 2: tuple(reserved[4:6])}

    def judge(self, script, told, killed):
        """Compares what is read now with what a first part of the script leaves, and goes on from it; a script that ran
        to its end leaves all of it. For each tape and drive, how many changes or orders were acknowledged, are there,
        and were given."""
        states = {name: tape.states() for name, tape in script.tapes.items()}
        volumes, reserved = self.read_back({name: max(map(len, those)) for name, those in states.items()})
        parts = []
        for name in TAPES:
            acked = script.tape_acks[told][name] if killed else len(states[name]) - 1
            parts.append(self.part(name, acked, [state == volumes[name] for state in states[name]]))
            self.volumes[name] = volumes[name] or []
        for number, drive in script.drives.items():
            wanted = [state.seen_later() for state in drive.orders]
            acked = script.order_acks[told][number] if killed else len(wanted) - 1
            parts.append(self.part(f"drive {number}", acked, [state == reserved[number] for state in wanted]))
            self.reservations[number] = drive.orders[parts[-1][1] or 0]
            self.reservations[number].lose_power()
        return parts

    def part(self, what, acked, fits):
        """What was acknowledged, which part is there, and what was given, where these states, from none given on, are
        there."""
        there = next((at for at, fit in enumerate(fits) if fit and at >= acked), None)
        if there is None:
            older = [at for at, fit in enumerate(fits) if fit]
            self.wrong.append(f"{what}: {acked} of {len(fits) - 1} were acknowledged, and what is there is "
                              f"{older or 'none'}")
        return acked, there, len(fits) - 1


def reading(name, count):
    """The lines that read a volume where it is at power on, or, from a slot, in drive 1: a READ more than it has
    objects."""
    home, drive = TAPES[name], TAPES[name] if TAPES[name] < 1001 else 1
    ready = f"{READER} {drive} 000000000000\n"
    head = ready if home < 1001 else f"move 1 1003\nmove {home} 1\n{ready}{ready}"
    return head + f"{READER} {drive} {LONGEST.hex()}\n" * (count + 1) + "--\n"


def objects_of(answers):
    """The objects that these answers to READ give, up to the end of data; None where it is not reached."""
    objects = []
    for answer in answers:
        if answer == check(8, 0x0005, 0x100000):
            return objects
        if answer == check(0, 0x0001, 0x100000, 0x80):
            objects.append(MARK)
        elif answer.startswith("GOOD "):
            objects.append(bytes.fromhex(answer[5:]))
        else:
            return None
    return None


def read(path):
    """The bytes of a file; of a cartridge those of the one that counts."""
    return cartridge_files.side_that_counts(path)[0] if path.endswith(".tape") else cartridge_files.content(path)


def end_of(side):
    """The places of the last frame's gate and of the gate behind it."""
    at, last = plain_sides.Header(side).end, 0
    while side[at] == 0xA5:
        at, last = at + 5 + int.from_bytes(side[at + 1:at + 5], "big"), at
    return last, at


def is_cut(side, before):
    """Whether behind the last gate bytes stand that did not: a frame that was cut in the middle."""
    at = end_of(side)[1] + 1
    return len(side) > at and side[at:] != before[at:]


def files_of(room):
    return [os.path.join(room, name) for name in [*(f"{tape}.tape" for tape in TAPES), "drive1.pr", "drive2.pr"]]
