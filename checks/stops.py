#!/usr/bin/env python3
"""Loses the power behind each call that the proved program made of the system, and looks at what it then reads.

The calls of a run, and of a creation, over real files are noted (faults.c, which takes `cc`). Behind each of them files
are made which a loss of power might have left there, as docs/FORMATS.md models a disk: what a sync made safe stays;
each range that was written since, and everything from the old end on, holds what stood there, what was written, the
first bytes of it, or any bytes; behind a cut stands anything. The premise of an opening is that one byte stays which is
written over the same one before the first sync; of a program that has `vtl reclaim` all bytes that are written so. A
file is gone whose folder was not synced since it was made, or it is there. Over these files the program is started
again. Each cartridge must hold what a first part of the accepted changes leaves, with all up to the last acknowledged
synchronizing command; the reservations must be those of a first part of the orders, with each acknowledged one; a file
that was reported as created must be new.

So too the opening and the check of files that hold something, with bytes behind their end gates; a run in which a
sync fails, and the cartridge is unloaded and loaded again; a run behind one in which a sync failed, where later syncs
pass over what was written before it; and random scripts of kill_script.py, with writing over, moves and reservations,
three times behind each call, by frames too where the program has `vtl serve`. Of a program that has `vtl reclaim` also
reclaims (reclaim_stops.py), and a script over cartridges that were reclaimed.

--images N: files behind each call (30); --scripts N: such scripts (10); --seed S; --program PATH another program than
the proved one; --selftest: syncs are forgotten, which must be found."""
import argparse
import concurrent.futures
import copy
import os
import random
import subprocess
import sys
import tempfile

import front_end
from cartridge_files import SECOND, content, reclaims
from drive_model import MARK, good
from fault_ends import NEW, brief, judged, read_back
from fault_rooms import EACH_FILE, FILES, Room, made
from fault_script import FIRST, MARKED, SCRIPT, write
from kill_script import TAPES, Script
from real_library import PROVED, TOP, RealLibrary, objects_of
from lost_power import OPENED, Disk, World, noted

# a cartridge is written to, unloaded, loaded, and written to
BODIES = b"before a fault", b"behind a fault"
FRAMES = [[body, MARK] for body in BODIES]
RUN, READ_ALL = ["run", "--config", "lib.toml"], "64 1 000000000000\n" + "64 1 080210000000\n" * 6
LOAD_SCRIPT = "".join(f"{line}\n" for line in [
    "1 1 000000000000", write(BODIES[0]).text, MARKED.text, "1 1 1b0000000000", "1 1 1b0000000100",
    write(BODIES[1]).text, MARKED.text])


def calls_of(tools, folder, words, script):
    """The calls of what these words do."""
    with tempfile.TemporaryDirectory(prefix="vtl-notes-") as room, tempfile.TemporaryFile() as given:
        given.write(script.encode())
        given.seek(0)
        notes = os.path.join(room, "notes")
        subprocess.run([tools[0], *words], cwd=folder, stdin=given, stdout=subprocess.PIPE, check=True,
                       env={**os.environ, "LD_PRELOAD": tools[1], "FAULTS_NOTES": notes})
        return noted(notes)


def calls_by_frames(tools, folder, script):
    """The calls of `vtl serve`, which is given a script of kill_script.py by frames, and what else is wrong."""
    with tempfile.TemporaryDirectory(prefix="vtl-notes-") as room:
        notes = os.path.join(room, "notes")
        run = front_end.Served(tools[0], [b"run", b"--config", b"drive.toml"], folder,
                               {**os.environ, "LD_PRELOAD": tools[1], "FAULTS_NOTES": notes})
        for frames in front_end.in_turn(script.parted()):
            run.phase(frames)
        status, found = run.end(), [answer.decode() for _, answer in sorted(run.answers.items())]
        wrong = [f"by frames: {it}" for it in (*run.faults, run.errors.decode()) if it]
        return noted(notes), wrong + [f"by frames: status {status}"] * (status != 0) + [
            f"by frames: {have} in the place of {want}" for have, want in zip(found, script.answers) if have != want]


def put(folder, files, images):
    for file in files:
        path = os.path.join(folder, file)
        if file in images:
            with open(path, "wb") as out:
                out.write(images[file])
        elif os.path.exists(path):
            os.remove(path)


def after_run(room, out):
    return judged(room, "memory", out.split("\n")[:-1], False)


def after_opening(held):
    def opened(room, out):
        found = read_back(room)[0]
        return [f"{name}: {brief(held[name])} was stored, and there is {brief(found[name])}" for name in held
                if found[name] != held[name]]
    return opened


def after_load(room, out):
    """The frame in flight is there or not; what was acknowledged is there."""
    answers, found = out.split("\n")[:-1], read_back(room)[0][FIRST]
    acknowledged = [answers[at:at + 1] == [good()] for at in (2, 6)]
    # LOAD positions at the beginning, so the second block takes the place of the first one. A flusher may store a block
    # alone, before its filemark.
    alone = [[body] for body in BODIES]
    ways = [FRAMES[1]] if acknowledged[1] else [*FRAMES, alone[1], *[[], alone[0]] * (not acknowledged[0])]
    return [] if found in ways else [f"acknowledged {acknowledged}, and there is {brief(found)}"]


def after_create(room, out):
    told = [name for name in FILES if f"created {name}\n" in out]
    return [f"{name} was reported, and is not new" for name in told
            if room.run(["check", FILES[name]])[:3] != (0, NEW[name], "")]


def held_in(folder):
    """The bytes of each file of a library, None of one that is missing."""
    return {file: content(os.path.join(folder, file)) for file in EACH_FILE}


def left_behind(before, calls, chance, images, forgets=lambda: False, since=0, unnamed=()):
    """So many times behind each call, from that one on: its number, what was written to standard output by then, and
    the files."""
    world = World(before, forgets, unnamed)
    for at in range(len(calls) + 1):
        for _ in range(images if at >= since else 0):
            yield at, world.out, world.images(chance)
        if at < len(calls):
            world.do(calls[at])


def looked_at(what, calls, tasks, look):
    """What is wrong with what was left, each looked at in its own way."""
    def one(task):
        return [f"{what}, behind call {task[0]} of {len(calls)}: {it}" for it in look(*task[1:])]
    with concurrent.futures.ThreadPoolExecutor(os.cpu_count()) as pool:
        wrong = [it for found in pool.map(one, tasks) for it in found]
    print(f"{what}: {len(calls)} calls, {len(tasks)} times what a loss of power may have left behind one", flush=True)
    return wrong


def stop(tools, pristine, words, way, script, chance, images, forgets=lambda: False, unnamed=()):
    """Stops what these words do behind each call; the names of some files may not be safe before."""
    room = Room(tools, pristine)
    with room.room:
        before = held_in(room.path)
        calls = calls_of(tools, room.path, words, script)
    tasks = list(left_behind(before, calls, chance, images, forgets, unnamed=unnamed))
    return looked_at(f"vtl {words[0]}", calls, tasks, looking(tools, pristine, way))


def looking(tools, pristine, way):
    """Looks in this way at files that were left, in a copy of that folder."""
    def look(out, files):
        here = Room(tools, pristine)
        with here.room:
            put(here.path, EACH_FILE, files)
            return way(here, out)
    return look


def openings(tools, used, chance, images):
    """Stops openings and checks of files that hold something, and bytes behind their ends."""
    room = Room(tools, used)
    with room.room:
        held = read_back(room)[0]
    for file in FILES.values():
        with open(os.path.join(used, file), "ab") as out:
            out.write(b"a frame that was cut off")
    run = stop(tools, used, ["run", "--config", "lib.toml"], after_opening(held), "", chance, images)
    return run + stop(tools, used, ["check", FILES[FIRST]], after_opening(held), "", chance, images)


def failing_syncs(tools, pristine, words, script):
    """For each sync that may fail: the number of the call, the calls that were made and noted, and the files that the
    program left, in a folder that is gone later."""
    room = Room(tools, pristine)
    with room.room:
        count = room.run(words, script, "fault", 0).calls
    for at in range(1, count + 1):
        room = Room(tools, pristine)
        with room.room:
            notes = os.path.join(room.room.name, "notes")
            os.environ["FAULTS_NOTES"] = notes
            try:
                run = room.run(words, script, "fault", at)
            finally:
                del os.environ["FAULTS_NOTES"]
            if run.name in ("fsync", "fdatasync"):
                yield at, noted(notes), room


def healed(tools, pristine, chance, images, again="W"):
    """Stops a run behind each call in which a sync fails, and the cartridge is then unloaded and loaded; and a run
    behind such a one, once it has read the cartridge, whose writes are forgotten in a self-test."""
    wrong, before = [], held_in(pristine)
    for at, calls, room in failing_syncs(tools, pristine, RUN, LOAD_SCRIPT):
        tasks = list(left_behind(before, calls, chance, images))
        wrong += looked_at(f"a run whose call {at} fails", calls, tasks, looking(tools, pristine, after_load))
        behind = [call for call in calls_of(tools, room.path, RUN, READ_ALL) if call.letter in f"AFS{again}"]
        read = b"".join(call.bytes for call in behind if call.letter == "A").decode().splitlines()
        more = [*calls, OPENED, *behind]
        tasks = list(left_behind(before, more, chance, 10 * images, since=len(more)))
        way = after_opening({FIRST: objects_of(read[1:])})
        wrong += looked_at(f"a run behind one whose call {at} failed", more, tasks, looking(tools, pristine, way))
    return wrong


def random_stops(tools, chance, images, forgets=lambda: False, first=0, by_frames=False):
    """Stops a random script of kill_script.py, over a library that holds nothing yet, behind each call; or over one
    that has gone through other scripts, so many, and reclaims."""
    files = [*(f"{name}.tape{end}" for name in TAPES for end in ("", SECOND)), "drive1.pr", "drive2.pr"]
    with tempfile.TemporaryDirectory(prefix="vtl-stops-") as room:
        lived = RealLibrary(tools[0], room)
        for _ in range(first):
            script = Script(chance, lived.volumes, lived.reservations)
            lived.run(script, None)
            lived.judge(script, len(script.answers), False)
            for name in TAPES:
                lived.reclaim(name)
        held = {number: copy.deepcopy(it) for number, it in lived.reservations.items()}
        script = Script(chance, lived.volumes, lived.reservations)
        before = {file: content(os.path.join(room, file)) for file in os.listdir(room)}
        if by_frames:
            calls, wrong = calls_by_frames(tools, room, script)
            lived.wrong += wrong
        else:
            calls = calls_of(tools, room, ["run", "--config", "drive.toml"], "".join(script.text))

        def look(out, images_of):
            with tempfile.TemporaryDirectory(prefix="vtl-stops-") as folder:
                others = {file: bytes_of for file, bytes_of in before.items() if file not in files}
                put(folder, [*before, *files], {**others, **images_of})
                again = RealLibrary.__new__(RealLibrary)
                again.program, again.room, again.wrong = tools[0], folder, []
                again.volumes, again.reservations = dict(lived.volumes), copy.deepcopy(held)
                count = front_end.answered(out.encode("latin-1")) if by_frames else out.count("\n")
                again.judge(script, count, True)
                return again.wrong
        sides = {file: before.get(file) for file in files}
        return lived.wrong + looked_at(f"a script of {len(script.answers)} answers", calls,
                                       list(left_behind(sides, calls, chance, images, forgets)), look)


def main():
    parser = argparse.ArgumentParser()
    parser.add_argument("--images", type=int, default=30)
    parser.add_argument("--scripts", type=int, default=10)
    parser.add_argument("--seed", type=int, default=1)
    parser.add_argument("--program", default=PROVED)
    parser.add_argument("--selftest", action="store_true")
    said = parser.parse_args()
    if not os.path.exists(said.program):
        sys.exit(f"{said.program} is not there; build the program first: make vtl")
    chance, script = random.Random(said.seed), "".join(line.text + "\n" for line in SCRIPT)
    with tempfile.TemporaryDirectory(prefix="vtl-stops-") as folder:
        shim = os.path.join(folder, "faults.so")
        source = os.path.join(TOP, "checks", "faults.c")
        subprocess.run(["cc", "-O1", "-shared", "-fPIC", "-o", shim, source], check=True)
        tools = os.path.abspath(said.program), shim
        bare, new, used = made(tools, folder)
        Disk.stays = sys.maxsize if reclaims(tools[0]) else 1
        run = (new, ["run", "--config", "lib.toml"], after_run, script)
        create = (bare, ["create", "--config", "lib.toml"], after_create, "")
        if said.selftest:
            found = [stop(tools, *what, chance, said.images, lambda: chance.random() < 0.2) for what in (run, create)]
            found.append(random_stops(tools, chance, 3, lambda: chance.random() < 0.2))
            counts = ", ".join(str(len(it)) for it in found)
            print(f"self-test: where one sync in five is forgotten {counts} were found wrong")
            found.append(healed(tools, new, chance, 1, again=""))
            print(f"self-test: where an opening writes nothing again {len(found[-1])} were found wrong")
            return 0 if all(found) else 1
        wrong = stop(tools, *run, chance, said.images) + stop(tools, *create, chance, said.images)
        wrong += openings(tools, used, chance, said.images) + healed(tools, new, chance, 3)
        for at in range(said.scripts):
            wrong += random_stops(tools, chance, 3, first=at % 3 if reclaims(tools[0]) else 0)
            if front_end.serves(tools[0]):
                wrong += random_stops(tools, chance, 3, first=at % 3, by_frames=True)
        if reclaims(tools[0]):
            import reclaim_stops
            wrong += reclaim_stops.all_of(tools, used, chance, said.images)
    print("\n".join([*wrong[:20], f"stops: {len(wrong)} wrong"]))
    return 1 if wrong else 0


if __name__ == "__main__":
    sys.exit(main())
