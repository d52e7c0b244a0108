#!/usr/bin/env python3
"""Kills the program over real files at random moments (SIGKILL), starts it again, and looks at what it then reads.

A script of writes, filemarks, overwriting, motions, moves and reservations, made from the seed, is given to `vtl run`
over two drives and three cartridges, and each second one by frames to `vtl serve`, where the program has it; after a
random time, the opening included, it is killed. Answers that it had written by then are acknowledged, and must be those
of drive_model.py; a script that ends before its kill must end with status 0 behind all of them, and nothing may stand
on standard error. Started again, each volume must be what a first part of the changes given to it leaves, with every
change up to its last acknowledged synchronizing command; the reservations of each drive must be what a loss of power
leaves after a first part of the orders, with every acknowledged one. The next script goes on from there, ten on one
library.

Between two scripts of a program that has `vtl reclaim` a cartridge is reclaimed, mostly killed at a random moment too.
Each volume must be what it was; the epoch is what it was or one more, and one more where the line is out; a copy that
counts is whole, and nothing lies behind it.

--count N kills (1,000); --seed S; --jobs J libraries at a time; --program PATH another program than the proved one;
--selftest: files are changed behind the program's back instead, of a cartridge that was reclaimed too, and another
end is put behind a script that runs to its end; each of these must be found."""
import argparse
import concurrent.futures
import os
import random
import shlex
import sys
import tempfile
import time

import cartridge_files
import front_end
from kill_script import TAPES, Script
from real_library import PROVED, RealLibrary, end_of, files_of, is_cut, read

LIVES = 10


class Pace:
    """How long the opening and a byte of a script take, in seconds; learnt from the scripts that ran."""

    def __init__(self, opening, seconds, script):
        self.opening, self.byte = opening, max(seconds - opening, 0) / size_of(script)

    def moment(self, chance, script):
        """After how many answers to kill, and how long after: in the opening, at any time, or near a phase's end."""
        whole, way = self.byte * size_of(script), chance.random()
        if way < 0.1:
            return 0, chance.random() * self.opening
        if way < 0.3:
            return 0, chance.random() * (self.opening + whole)
        return chance.randint(1, len(script.answers)), chance.random() * 2 * whole / script.phases

    def learn(self, seconds, part, script):
        """Of a script this part was answered, in so many seconds."""
        if part > 0.3:
            self.byte += 0.2 * (max(seconds - self.opening, 0) / (part * size_of(script)) - self.byte)


def size_of(script):
    return sum(map(len, script.text))


class Found:
    """What was found."""

    def __init__(self):
        self.kills = self.opening = self.cut = self.ended = self.beyond = self.lost = self.answers = self.standing = 0
        self.reclaims = self.stopped = self.copies = self.frames = 0
        self.prefixes, self.wrong = set(), []

    def add(self, killed, read, cut, parts, stands):
        self.answers += read
        self.kills += killed
        self.ended += not killed
        if killed:
            self.opening += read == 0
            self.cut += cut
            self.beyond += any(there is not None and there > acked for acked, there, _ in parts)
            self.standing += stands
            self.lost += any(there is not None and there < given for _, there, given in parts)
            self.prefixes.add(tuple(parts))

    def add_reclaim(self, killed, is_copied):
        self.reclaims += 1
        self.stopped += killed
        self.copies += killed and is_copied


def reclaim_some(library, chance, found, seconds):
    """Reclaims a cartridge now and then, mostly killed within twice the time that one took; how long one takes."""
    if library.wrong or not cartridge_files.reclaims(library.program) or chance.random() < 0.3:
        return seconds
    name, began = chance.choice(list(TAPES)), time.monotonic()
    delay = chance.random() * 2 * seconds if seconds and chance.random() < 0.8 else None
    killed, is_copied = library.reclaim(name, delay)
    took = time.monotonic() - began
    found.add_reclaim(killed, is_copied)
    library.keeps(name)
    return seconds if killed else took if seconds is None else seconds + 0.2 * (took - seconds)


def compared(library, told, script):
    wanted = script.answers[:len(told)]
    if told != wanted:
        at = next((at for at, pair in enumerate(zip(told, wanted)) if pair[0] != pair[1]), len(wanted))
        library.wrong.append(f"answer {at + 1}: {told[at]} in the place of {wanted[at:at + 1]}")


def live(program, seed, kills):
    """So many kills on one library, after a first script that runs to its end."""
    chance, found = random.Random(seed), Found()
    with tempfile.TemporaryDirectory(prefix="vtl-kills-") as room:
        library = RealLibrary(program, room)
        began = time.monotonic()
        library.ended(["run", "--config", "drive.toml"])
        opening = time.monotonic() - began
        reclaim_takes, paces = None, {}
        ways = [library.run, library.run_frames] if front_end.serves(program) else [library.run]
        for at in range(kills * 4 + 1):
            if found.kills == kills or library.wrong:
                break
            script, run = Script(chance, library.volumes, library.reservations), ways[at % len(ways)]
            before = [read(path) for path in files_of(room)]
            began, pace = time.monotonic(), paces.get(run)
            told, killed = run(script, pace.moment(chance, script) if pace else None)
            seconds = time.monotonic() - began
            pace = paces.setdefault(run, Pace(opening, seconds, script))
            pace.learn(seconds, len(told) / len(script.answers), script)
            found.frames += killed and run == library.run_frames
            compared(library, told, script)
            cut = any([is_cut(read(path), old) for path, old in zip(files_of(room), before)])
            if not killed and len(told) < len(script.answers):
                library.wrong.append(f"it ended by itself after {len(told)} of {len(script.answers)} answers")
            parts = library.judge(script, len(told), killed)
            found.add(killed, len(told), cut, parts, any(it.keys for it in library.reservations.values()))
            reclaim_takes = reclaim_some(library, chance, found, reclaim_takes)
        found.wrong = [f"seed {seed}, kill {found.kills}: {wrong}" for wrong in library.wrong]
    return found


def doctored(program):
    """Changes files behind the program's back after a script was run to its end: how many, which were not found."""
    def close_last(side):
        last = end_of(side)[0]
        return side[:last] + b"\0" + side[last + 1:]
    ways = {"nothing": lambda side: side, "the last frame is not there": close_last,
            "the file is cut": lambda side: side[:-3],
            "a byte of the last block is another": lambda side: side[:-2] + bytes([side[-2] ^ 1]) + side[-1:]}
    missed, tried = [], 0
    for way, change in ways.items():
        for name in ("KILL1L6.tape", "drive1.pr"):
            with tempfile.TemporaryDirectory(prefix="vtl-kills-") as room:
                library = RealLibrary(program, room)
                script = Script(random.Random(1), library.volumes, library.reservations)
                library.run(script, None)
                rewrite(os.path.join(room, name), change)
                library.judge(script, len(script.answers), False)
                tried += 1
                if bool(library.wrong) != (way != "nothing"):
                    missed.append(f"{name}: {way}: {library.wrong or 'not found'}")
    return tried, missed


def reclaimed_and_doctored(program):
    """The same for a cartridge that was reclaimed, whose second file counts."""
    def close(place):
        return lambda side: side[:place] + b"\0" + side[place + 1:]
    ways = {"nothing": ("", bytes), "the copy is closed, and the old side counts": ("", bytes),
            "the copy is closed, and a frame of the old side": (cartridge_files.SECOND, close(0)),
            "the copy is cut": (cartridge_files.SECOND, lambda side: side[:-3]),
            "the pair gate is closed, and a frame of the old side": ("", close(9)),
            "a byte of the last block is another": (cartridge_files.SECOND,
                                                    lambda side: side[:-2] + bytes([side[-2] ^ 1]) + side[-1:])}
    missed = []
    for way, (which, change) in ways.items():
        with tempfile.TemporaryDirectory(prefix="vtl-kills-") as room:
            library, name = RealLibrary(program, room), "KILL1L6"
            script = Script(random.Random(1), library.volumes, library.reservations)
            library.run(script, None)
            library.judge(script, len(script.answers), False)
            library.reclaim(name)
            path = os.path.join(room, f"{name}.tape")
            if way.startswith("the copy is closed, and the old"):
                # which holds the same, so nothing may be found
                rewrite(path + cartridge_files.SECOND, close(0))
            if "a frame of the old side" in way:
                rewrite(path, lambda side: close(end_of(side)[0])(side))
            rewrite(path + which, change)
            library.keeps(name)
            if bool(library.wrong) != (change is not bytes):
                missed.append(f"{name}, reclaimed: {way}: {library.wrong or 'not found'}")
    return len(ways), missed


def rewrite(path, change):
    with open(path, "r+b") as file:
        side = change(file.read())
        file.seek(0)
        file.truncate()
        file.write(side)


def stood_in(program):
    """Puts another end behind a script that was run to its end: how many ends, which of them were not found."""
    ends = {"its own": "", "another status": "; exit 2", "a line on standard error": "; echo vtl: device fault >&2",
            "both": "; echo vtl: out of memory >&2; exit 3"}
    missed = []
    for way, end in ends.items():
        with tempfile.TemporaryDirectory(prefix="vtl-kills-") as room:
            library, path = RealLibrary(program, room), os.path.join(room, "stand-in")
            with open(path, "w", encoding="utf-8") as file:
                file.write(f'#!/bin/sh\n{shlex.quote(program)} "$@"{end}\n')
            os.chmod(path, 0o700)
            library.program = path
            script = Script(random.Random(1), library.volumes, library.reservations)
            compared(library, library.run(script, None)[0], script)
            if bool(library.wrong) != bool(end):
                missed.append(f"an end: {way}: {library.wrong or 'not found'}")
    return len(ends), missed


def selftest(program):
    (libraries, changes), (count, ends) = doctored(program), stood_in(program)
    if cartridge_files.reclaims(program):
        more, others = reclaimed_and_doctored(program)
        libraries, changes = libraries + more, changes + others
    print("\n".join([*changes, *ends, f"self-test: {libraries} libraries and {count} ends, "
                     f"{len(changes) + len(ends)} not judged as they should be"]))
    return 1 if changes or ends else 0


def main():
    parser = argparse.ArgumentParser()
    parser.add_argument("--count", type=int, default=1000)
    parser.add_argument("--seed", type=int, default=1)
    parser.add_argument("--jobs", type=int, default=os.cpu_count() or 1)
    parser.add_argument("--program", default=PROVED)
    parser.add_argument("--selftest", action="store_true")
    said = parser.parse_args()
    program = os.path.abspath(said.program)
    if not os.path.exists(program):
        sys.exit(f"{program} is not there; build the program first: make vtl")
    if said.selftest:
        return selftest(program)
    founds, left = [], said.count
    with concurrent.futures.ProcessPoolExecutor(said.jobs) as pool:
        # some scripts of a library end before their kill more often than it tries; others take their place
        while left > 0 and not any(found.wrong for found in founds):
            lives = [(f"{said.seed}.{said.count - left}.{at}", min(LIVES, left - at)) for at in range(0, left, LIVES)]
            founds += pool.map(live, [program] * len(lives), *zip(*lives))
            left = said.count - sum(found.kills for found in founds)
    return tell(founds)


def tell(founds):
    def total(name):
        return sum(getattr(found, name) for found in founds)
    prefixes = set().union(*(found.prefixes for found in founds))
    wrong = [it for found in founds for it in found.wrong]
    kills = total("kills")
    print("\n".join(wrong))
    print(f"{kills} kills, {total('opening')} of them before the first answer, {total('frames')} of a run by frames; "
          f"{total('ended')} scripts ended before their kill")
    print(f"{total('answers')} answers were compared; in {total('cut')} kills a frame was cut in the middle, in "
          f"{kills - total('cut')} none was under way")
    print(f"in {total('lost')} kills a part of what was given is gone, in {total('beyond')} more is there than was "
          f"acknowledged; {len(prefixes)} different prefixes")
    print(f"after {total('standing')} kills registrations and reservations stood")
    print(f"{total('reclaims')} reclaims, {total('stopped')} of them killed, after {total('copies')} of which the copy "
          "counts")
    print(f"kills: {len(wrong)} violations")
    return 1 if wrong else 0


if __name__ == "__main__":
    sys.exit(main())
