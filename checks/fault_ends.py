"""How a run of faults.py may end, in which a call ended otherwise: of each word of the program, of the stored run in
memory, and of the journal, the cartridge and the buffer."""
import os

import cartridge_files
from cartridge_files import content
from drive_model import MARK
from fault_rooms import FILES, STORE
from fault_script import (ABORTED, ANSWERED, DEFERRED, FIRST, HAS_FAILED, NOT_PRESENT, RESERVED, RIGHT, SCRIPT, SECOND,
                          STATUS, WRITE_ERROR, misanswered)
from real_library import LONGEST, TOP, objects_of

NEW = {name: f"cartridge {name} partitions 1 frames 0\npartition 0 objects 0 used 0\n" for name in (FIRST, SECOND)}
NEW[STORE] = "reservations DRIVE1 frames 0 registrations 0\n"
READY, READ = "64 1 000000000000\n", f"64 1 {LONGEST.hex()}\n"
# A command of the stored run is given again with each of so many growths around its own refused, so many times.
NEAR, TRIES = 64, 4


def fails(kind, wanted, run):
    """Whether it ended with that kind's status and line, behind a beginning of these lines."""
    return kind in STATUS and (run.status, run.err) == STATUS[kind] and wanted.startswith(run.out)


def create(room, kind, at):
    words, wanted = ["create", "--config", "lib.toml"], "".join(f"created {name}\n" for name in FILES)
    run = room.run(words, "", kind, at)
    there, done, wrong = room.sides(), run[:3] == (0, wanted, ""), []
    if not done and not fails(kind, wanted, run):
        wrong.append("its end")
    missing = [name for name in FILES if there[name] is None]
    wrong += [f"{name} was reported as created" for name in missing if f"created {name}\n" in run.out]
    goes_on = "".join(f"{'created' if name in missing else 'kept'} {name}\n" for name in FILES)
    if room.run(words)[:3] != (0, goes_on, ""):
        wrong.append("create does not go on")
    wrong += [f"{name} is not whole" for name in FILES if room.run(["check", FILES[name]])[:3] != (0, NEW[name], "")]
    return run, "nothing" if done else "the program", wrong


def tell(words):
    def helps(room, kind, at):
        wanted = room.run(words)
        run = room.run(words, "", kind, at)
        done = run[:3] == wanted[:3] and wanted.status == 0 and "Usage: vtl" in wanted.out
        return run, "nothing" if done else "the program", [] if done or fails(kind, wanted.out, run) else ["its end"]
    return helps


def look(name):
    def checks(room, kind, at):
        before, wanted = room.sides(), room.run(["check", FILES[name]])
        run = room.run(["check", FILES[name]], "", kind, at)
        done = run[:3] == wanted[:3]
        wrong = [] if done or fails(kind, wanted.out, run) else ["its end"]
        return run, "nothing" if done else "the program", wrong + ["a file is changed"] * (room.sides() != before)
    return checks


def reclaim(room, kind, at):
    """The volumes stay, the cartridge is of its epoch or the next one, and it can be reclaimed again."""
    words, path = ["reclaim", "--config", "lib.toml", FIRST], os.path.join(room.path, FILES[FIRST])
    held, epoch = read_back(room)[0], cartridge_files.side_that_counts(path)[2]
    wanted = f"reclaimed {FIRST} epoch {epoch + 1}\n"
    run = room.run(words, "", kind, at)
    there, done = cartridge_files.side_that_counts(path)[2], run[:3] == (0, wanted, "")
    wrong = [] if done or fails(kind, wanted, run) else ["its end"]
    wrong += [f"of epoch {epoch} there is {there}"] * (there != epoch + 1 if wanted in run.out else there < epoch)
    wrong += ["memory ran out behind the copy"] * (run.status == 3 and there != epoch)
    goes_on = room.run(words)[:3] == (0, f"reclaimed {FIRST} epoch {there + 1}\n", "")
    wrong += [] if goes_on else ["it is not reclaimed again"]
    wrong += [] if read_back(room)[0] == held else ["another volume is read"]
    return run, "nothing" if done else "the program", wrong


def serve(room, kind, at):
    run = room.run(["run", "--config", "lib.toml"], "".join(line.text + "\n" for line in SCRIPT), kind, at)
    answers = run.out.split("\n")[:-1]
    ended = (run.status, run.err, len(answers)) == (0, "", len(ANSWERED))
    what = "nothing" if ended and answers == RIGHT else "commands" if ended else "the program"
    return run, what, misanswered(kind, run) + judged(room, kind, answers, ended)


def judged(room, kind, answers, ended):
    """What is wrong with what the files hold, behind these answers."""
    volumes, reserved = read_back(room)
    loaded, orders, gone = FIRST, 0, []
    accepted, stored, tried = {FIRST: [], SECOND: []}, {FIRST: 0, SECOND: 0}, {}
    # what is stored by commands, without the moves
    marked = {FIRST: 0, SECOND: 0}
    for at, line in enumerate(ANSWERED):
        told = at < len(answers)
        done = not told or answers[at] == line.answer
        orders += line.orders and told and done
        if loaded and not done and kind != "memory":
            tried.setdefault(loaded, [*accepted[loaded], *line.adds])
        if loaded and done:
            accepted[loaded] += line.adds
            if line.stores and told and loaded not in tried:
                stored[loaded] = len(accepted[loaded])
                marked[loaded] = stored[loaded] if line.loads is False else marked[loaded]
        # A host may hear of a flusher's turn that failed once that cartridge is out, and what waited is given up.
        for name in gone if told and answers[at] == DEFERRED else []:
            tried.setdefault(name, accepted[name])
            stored[name] = marked[name]
        if done and line.loads is not False:
            gone += [loaded] if loaded else []
            loaded = line.loads
    wrong = []
    for name, those in accepted.items():
        # a host was informed of a medium that failed
        ways, least = [those, tried.get(name, those)], len(those) if ended and name not in tried else stored[name]
        if not any(volumes[name] == way[:count] for way in ways for count in range(least, len(way) + 1)):
            wrong.append(f"{name}: of {brief(those)} are stored {stored[name]}, and there is {brief(volumes[name])}")
    return wrong + [f"{orders} orders were done, and there is {reserved}"] * (reserved not in RESERVED[orders:])


def brief(objects):
    return objects and ["mark" if it is MARK else it if len(it) < 24 else f"{it[:1]} {len(it)} times"
                        for it in objects]


def read_back(room):
    """What each cartridge holds, and what is answered of the reservations."""
    asked = f"{READY}64 1 5e00000000000010ff00\n64 1 5e010000000000001800\n"
    seen = room.run(["run", "--config", "lib.toml"], asked).out
    most = len(ANSWERED)
    found = room.run(["run", "--config", "reader.toml"],
                     READY + READ * most + "move 1 1003\nmove 1001 1\n" + READY * 2 + READ * most).out.split("\n")
    return {FIRST: objects_of(found[1:1 + most]), SECOND: objects_of(found[5 + most:])}, tuple(seen.split("\n")[1:3])


def stored(name, crate="vtl"):
    """The lines of a stored file but for remarks."""
    text = content(os.path.join(TOP, "crates", crate, name)).decode()
    return [line for line in text.splitlines() if not line.startswith("#")]


def again(room, kind, at):
    """The stored run, in memory: a command that memory ran out for is given again, and then it has its answer. Where
    the disk in memory could not grow, that is a device fault: the cartridge is not loaded, or one command fails, or
    reports that a flusher's turn did, and then the medium has failed."""
    script, wanted = stored("stdin"), stored("stdout")
    run = room.run(["run"], "\n".join(script) + "\n", kind, at)
    answers, text = run.out.splitlines(), "\n".join(wanted) + "\n"
    if run[:3] == (0, text, ""):
        return run, "nothing", []
    line = next((at for at, pair in enumerate(zip(answers, wanted)) if pair[0] != pair[1]), len(answers))
    behind = answers[line + 1:]
    if run.status == 0 and answers[line:line + 1] == [ABORTED]:
        done = given_again(room, kind, at, line)
    elif (run.status, run.err) == STATUS["fault"]:
        failed = answers[line:line + 1] in ([WRITE_ERROR], [DEFERRED])
        done = failed and behind == [HAS_FAILED] * (len(wanted) - line - 1)
    elif run.status == 0:
        done = answers[line:] == [NOT_PRESENT] * (len(wanted) - line)
    else:
        return run, "the program", [] if fails(kind, text, run) else ["its end"]
    return run, "commands", [] if done else [f"line {line + 1}, {answers[line:line + 2]}"]


def given_again(room, kind, at, line):
    """Whether the command of this line of the stored run has its stored answer when it is given again, and so has each
    one behind it. With a longer script a growth comes a few growths later, and where a flusher stores at another time,
    earlier or later by any number: those around it are refused, the nearest first, until memory runs out for this
    command when it is given first. That run decides."""
    script, wanted = stored("stdin"), stored("stdout")
    twice = "\n".join([*script[:line + 1], *script[line:]]) + "\n"
    both = [*wanted[:line], ABORTED, *wanted[line:]]
    for other in TRIES * sorted(range(max(at - NEAR, 1), at + NEAR), key=lambda it: abs(it - at)):
        run = room.run(["run"], twice, kind, other)
        if run.out.splitlines()[:line + 1] == both[:line + 1]:
            return run[:3] == (0, "\n".join(both) + "\n", "")
    return False


def work(crate):
    def works(room, kind, at):
        run, wanted = room.run([], "", kind, at), "".join(line + "\n" for line in stored("stdout", crate))
        same = (run.status, run.out) == (0, wanted)
        done = same or run.status in (1, 2) and wanted.startswith(run.out)
        return run, "nothing" if same else "the program", [] if done else ["its end"]
    return works
