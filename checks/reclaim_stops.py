"""Reclaims for stops.py: the power is lost behind each call of a first, a second and a third one, and of those over
what a stopped one left, once it was written to. So too behind a reclaim in which a sync failed, in the calls of what is
done next: a run that writes, or the reclaim again. The volumes must be what they were, or have what the run wrote;
a line that is out says the epoch that counts; and the cartridge can be reclaimed again."""
import os
import shutil
import tempfile

import cartridge_files
from drive_model import MARK, check, good
from fault_ends import brief, read_back
from fault_rooms import EACH_FILE, FILES, Room
from fault_script import FIRST
from lost_power import OPENED, World
from stops import RUN, calls_of, failing_syncs, held_in, left_behind, looked_at, looking, put, stop

RECLAIM = ["reclaim", "--config", "lib.toml", FIRST]
# behind the end of data
TAIL = b"written behind a reclaim"
SINCE = "".join(f"1 1 {line}\n" for line in ["000000000000", "110300000000", f"0a00{len(TAIL):06x}00 {TAIL.hex()}",
                                             "100000000100"])
# the answers to it
WRITTEN = [check(6, 0x2900), good(), good(), good()]


def epoch_of(room):
    return cartridge_files.side_that_counts(os.path.join(room.path, FILES[FIRST]))[2]


def is_kept_back(room):
    """Whether a stop in the first step left more than ten bytes in the second file, behind a closed pair gate."""
    first, second = cartridge_files.pair(os.path.join(room.path, FILES[FIRST]))
    return first[9:10] != b"\xa5" and len(second or b"") > 10


def volumes(room, ways):
    """What is wrong with what is read: of the first cartridge one of these ways, of the others what is held."""
    held, firsts = ways
    found = read_back(room)[0]
    return [f"{name}: {brief(held[name])} was held, and there is {brief(found[name])}" for name in held
            if found[name] not in (firsts if name == FIRST else [held[name]])]


def after_reclaim(held, epoch):
    def looked(room, out):
        now, line = epoch_of(room), f"reclaimed {FIRST} epoch {epoch + 1}\n"
        wrong = [] if now == epoch + 1 or now == epoch and line not in out else [f"of epoch {epoch} there is {now}"]
        wrong += volumes(room, (held, [held[FIRST]]))
        again = room.run(RECLAIM)
        if is_kept_back(room) and again[:3] == (1, "not reclaimed\n", ""):
            os.remove(os.path.join(room.path, FILES[FIRST] + cartridge_files.SECOND))
            again = room.run(RECLAIM)
        wrong += [] if again[:3] == (0, f"reclaimed {FIRST} epoch {now + 1}\n", "") else [f"again: {again}"]
        return wrong + volumes(room, (held, [held[FIRST]]))
    return looked


def after_writing(held):
    """Behind a run that writes: what was held, with a first part of what it wrote, and all that it acknowledged."""
    def looked(room, out):
        added, told = [TAIL, MARK], out.splitlines()[-4:]
        least = 2 if told == WRITTEN else 0
        return volumes(room, (held, [held[FIRST] + added[:count] for count in range(least, 3)]))
    return looked


def kept(room, top, name):
    """A copy of a library that is gone later."""
    folder = os.path.join(top, name)
    shutil.copytree(room.path, folder)
    return folder


def written(tools, folder, top, name):
    """A library in which that one was written to, and what it holds."""
    room = Room(tools, folder)
    with room.room:
        room.run(RUN, SINCE)
        held = read_back(room)[0]
        return kept(room, top, name), held, epoch_of(room)


def stopped(tools, folder, top, name, chance):
    """A library as a reclaim that is stopped leaves it."""
    room = Room(tools, folder)
    with room.room:
        before = held_in(room.path)
        calls = calls_of(tools, room.path, RECLAIM, "")
        world = World(before, lambda: False)
        for call in calls[:chance.randint(1, len(calls))]:
            world.do(call)
        put(room.path, EACH_FILE, world.images(chance))
        return kept(room, top, name)


def behind_a_failed_sync(tools, folder, held, epoch, chance, images):
    """A sync of a reclaim fails; then a run writes, or the reclaim is made again, and the power is lost behind each of
    those calls."""
    wrong, before = [], held_in(folder)
    for at, calls, room in failing_syncs(tools, folder, RECLAIM, ""):
        now = epoch_of(room)
        for words, script, way in ((RUN, SINCE, after_writing(held)), (RECLAIM, "", after_either(held, epoch, now))):
            here = Room(tools, room.path)
            with here.room:
                more = [*calls, OPENED, *calls_of(tools, here.path, words, script)]
            tasks = list(left_behind(before, more, chance, images, since=len(calls)))
            what = f"vtl {words[0]} behind a reclaim whose call {at} failed"
            wrong += looked_at(what, more, tasks, looking(tools, folder, way))
    return wrong


def after_either(held, epoch, now):
    """Behind a reclaim that failed and one more: the epoch is the first one's, or that of the second one."""
    def looked(room, out):
        found, told = epoch_of(room), f"reclaimed {FIRST} epoch {now + 1}\n"
        right = found == now + 1 if told in out else epoch <= found <= now + 1
        return volumes(room, (held, [held[FIRST]])) + ([] if right else [f"{out!r} is told, and there is {found}"])
    return looked


def all_of(tools, used, chance, images):
    """What is wrong with what is left, in all these ways."""
    wrong, folder = [], used
    with tempfile.TemporaryDirectory(prefix="vtl-stops-") as top:
        for count in range(3):
            folder, held, epoch = written(tools, folder, top, f"written-{count}")
            # a second file of no byte, which a killed process had just made
            unnamed = [] if epoch else [FILES[FIRST] + cartridge_files.SECOND]
            wrong += stop(tools, folder, RECLAIM, after_reclaim(held, epoch), "", chance, images, unnamed=unnamed)
            wrong += behind_a_failed_sync(tools, folder, held, epoch, chance, 3)
            for at in range(3):
                left = stopped(tools, folder, top, f"stopped-{count}-{at}", chance)
                left, those, then = written(tools, left, top, f"left-{count}-{at}")
                wrong += stop(tools, left, RECLAIM, after_reclaim(those, then), "", chance, 3)
            room = Room(tools, folder)
            with room.room:
                room.run(RECLAIM)
                folder = kept(room, top, f"reclaimed-{count}")
    return wrong
