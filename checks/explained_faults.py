#!/usr/bin/env python3
"""Lets each call that the program makes for a file or a stream fail in turn (EIO, by faults.c), with --explain, and
compares what stands behind the one line: where the program ends with a device fault, the call that failed, what it was
for, and the answer. Without --explain there is the one line alone. Where memory is refused in turn, a line says what it
was wanted for, or none does. Of `vtl create` the calls that fail have their names and files in the order in which they
are made. A closed standard error changes neither the status nor the output. Where no file has locks, lines say so once
for the files of a folder.

--program PATH another program than the proved one; --no-memory: memory is not refused; --locks: of all this the last
alone; --selftest: of each call another
name is asked for, and another order of the calls of `vtl create`, and ends are invented, which must be found wrong."""
import argparse
import os
import re
import subprocess
import sys
import tempfile

from cartridge_files import SECOND as BESIDE
from fault_rooms import FILES, STORE, Room, Run, made
from fault_script import FIRST, SCRIPT, SECOND, STATUS
from real_library import PROVED, TOP
from unproved import words_of

EIO = "answer: Input/output error (os error 5)\n"
# the calls of an explanation, by the name that the system has for the one that failed
NAMES = {"openat": ("open", "read", "make", "sync of the folder"), "read": ("read",), "write": ("write",),
         "pread64": ("read at",), "pwrite64": ("write at",), "fsync": ("sync", "sync of the folder"),
         "ftruncate": ("cut",), "flock": ("lock",), "statx": ("look at", "open", "make", "read")}
FAILED = re.compile(r"failed: ([a-z ]+), of (the file [a-z0-9.]+|standard input|standard output)\n"
                    r"(answer: .*\n)to do: .*\n")
MEMORY = re.compile(r"memory ran out: as (it was opened or read, the file [a-z0-9.]+"
                    r"|the script was read, behind [0-9]+ bytes of it)\nto do: .*\n")
# as a file is made: it is opened, and of its folder the opening and the sync; as its first bytes are written
MADE = ("open", "look at", "lock", "sync", "sync of the folder", "sync of the folder")
WRITTEN = ("cut", "write at", "sync", "write at", "sync")
# what is said at once: of an answer, of a file at a start, of a call for an open file
MEANT = re.compile(r"((line [0-9]+: |found: |failed: [a-z ]+( [0-9]+)? \().*\n)*")
AT_ONCE = re.compile(r"failed: (read at|write at|cut)( [0-9]+)? \(Input/output error \(os error 5\)\), "
                     r"of the file [a-z0-9.]+\n")
# calls that are made for open files alone, once the library is on
OPEN = ("pread64", "pwrite64", "ftruncate")


def in_order():
    """What fails in turn as `vtl create` makes the library: the call, and what it is for."""
    # it is opened, its bytes are read, and its end
    said = [("read", "the file lib.toml")] * 3
    for name in (FIRST, SECOND, STORE):
        file = f"the file {FILES[name]}"
        # both names of a cartridge are looked at before
        said += [("look at", it) for it in (file, file + BESIDE) if name != STORE]
        said += [(call, file) for call in MADE]
        if name != STORE:
            said += [(call, file + BESIDE) for call in ("look at", *MADE)]
        said += [*((call, file) for call in WRITTEN), ("write", "standard output")]
    return said


def lines_behind(run, kind):
    """What stands behind the one line; None where there is none."""
    said = run.err[MEANT.match(run.err).end():]
    line = STATUS[kind][1]
    return said[len(line):] if run.status == STATUS[kind][0] and said.startswith(line) else None


def misended(run, lines):
    """What is wrong with the end of a run: it has the line of its status, or status 0 and as many lines of output as
    one in which nothing fails."""
    if any(lines_behind(run, kind) is not None for kind in STATUS):
        return []
    is_whole = run.status == 0 and run.out.count("\n") == lines
    return [] if is_whole else [f"ended with status {run.status}, {run.out!r} and {run.err!r}"]


def misexplained(run):
    """What is wrong with the explanation of a run in which one call failed."""
    said = lines_behind(run, "fault")
    if said is None:
        return ["an explanation of no fault"] if FAILED.search(run.err) else []
    found = FAILED.findall(said)
    if "".join(FAILED.sub("", said)) or not found:
        return [f"explained as {said!r}"]
    named = [call for call, _, answer in found if answer == EIO]
    if run.name in NAMES and not any(call in NAMES[run.name] for call in named):
        return [f"explained as {said!r}"]
    return []


def misremembered(run):
    said = lines_behind(run, "memory")
    return [] if said is None or not said or MEMORY.fullmatch(said) else [f"explained as {said!r}"]


def untold(run):
    """What is wrong where a call for an open file failed and a run ends with a device fault: a line has to say it at
    once, before the one line."""
    said = lines_behind(run, "fault")
    if said is None or run.name not in OPEN or not run.out:
        return []
    return [] if AT_ONCE.match(run.err) or AT_ONCE.search(run.err[:-len(said) or None]) else [f"not said: {run.err!r}"]


def disordered(what, found, wanted):
    pairs = zip([*found, None], [*wanted, None])
    return [] if found == wanted else [f"{what}: {next(it for it in pairs if it[0] != it[1])}, found and wanted"]


def tried(tools, pristine, what, words, script, kinds, wanted=None):
    """Each call in turn, from 1 on; at 0 none fails."""
    wrong, named = [], []
    for kind, judge in kinds:
        count, ended, at, lines = 1, 0, 0, 0
        while at <= count:
            room = Room(tools, pristine)
            with room.room:
                run = room.run([*words, "--explain"], script, kind, at)
            if at == 0:
                count, lines = max(count, run.calls), run.out.count("\n")
            at += 1
            ended += run.status > 1
            named += [it[:2] for it in FAILED.findall(run.err)] if kind == "fault" else []
            wrong += [f"{what}, {kind}, call {at - 1} ({run.name}): {it}" for it in judge(run) + misended(run, lines)]
        print(f"{what}, {kind}: of {count} calls {ended} ended the program", flush=True)
    return wrong + (disordered(what, named, wanted) if wanted else [])


def plain(tools, pristine):
    """Without the option there is the one line; with a closed standard error the status and the output stay."""
    wrong = []
    for words in (["run", "--config", "none.toml"], ["frob"], ["check", "none.tape"]):
        room = Room(tools, pristine)
        with room.room:
            one, all_lines = room.run(words), room.run([*words, "--explain"])
            closed = subprocess.run([*words_of(tools[0]), *words, "--explain"], cwd=room.path,
                                    stdin=subprocess.DEVNULL, stdout=subprocess.PIPE, preexec_fn=lambda: os.close(2))
        if one.err.count("\n") != 1 or not all_lines.err.startswith(one.err) or all_lines.err == one.err:
            wrong.append(f"{words}: {one.err!r}, {all_lines.err!r}")
        ends = [(one.status, one.out), (all_lines.status, all_lines.out), (closed.returncode, closed.stdout.decode())]
        if ends != ends[:1] * 3:
            wrong.append(f"{words}: {ends}")
    return wrong


def lockless(name):
    """The lines for a folder without locks, of which this file is opened first."""
    return (f"no lock: the folder of the file {name} has no locks\n"
            "to do: let no other program use its files while this one runs, or move them to a folder that has locks\n")


def without_locks(tools, new):
    """Where no file has locks, each folder has its lines once, if an explanation is wanted; nothing else changes."""
    room, wrong = Room(tools, new), []
    first, store = FILES[FIRST], os.path.join("other", FILES[STORE])
    with room.room:
        os.mkdir(os.path.join(room.path, "other"))
        with open(os.path.join(room.path, "lib.toml"), encoding="utf-8") as lib, \
                open(os.path.join(room.path, "two.toml"), "w", encoding="utf-8") as two:
            two.write(lib.read().replace(FILES[STORE], store))
        room.run(["create", "--config", "two.toml"])
        for words, said in ((["run", "--config", "lib.toml"], lockless(first)),
                            (["run", "--config", "two.toml"], lockless(first) + lockless(store)),
                            (["check", first], lockless(first)), (["run", "--memory", "--config", "lib.toml"], "")):
            locked = room.run(words)
            for more, wanted in (([], ""), (["--explain"], said)):
                run = room.run([*words, *more], "", "unlocked")
                if run[:3] != (0, locked.out, wanted) or locked.status:
                    wrong.append(f"{words + more} without locks: {run}")
    print(f"without locks: {len(wrong)} wrong", flush=True)
    return wrong


def selftest(tools, bare, used):
    """Each name in turn is no more that of its calls."""
    blind = []
    for name, names in list(NAMES.items()):
        NAMES[name] = ("another",)
        kinds = [("fault", misexplained)]
        found = tried(tools, bare, "vtl create", ["create", "--config", "lib.toml"], "", kinds)
        found += tried(tools, used, "vtl check", ["check", FILES[FIRST]], "", kinds)
        NAMES[name] = names
        blind += [name] * (not found)
    other = in_order()
    other[5], other[6] = other[6], other[5]
    words = ["create", "--config", "lib.toml"]
    blind += ["order"] * (not tried(tools, bare, "vtl create", words, "", [("fault", misexplained)], other))
    # a run that did nothing, one that another program ended
    blind += ["end"] * any(not misended(Run(status, "", "sh: no\n", 0, "read"), 1) for status in (0, 2))
    print(f"self-test: {len(NAMES)} names, an order and two ends, not missed: {blind}")
    return 1 if blind else 0


def main():
    parser = argparse.ArgumentParser()
    parser.add_argument("--program", default=PROVED)
    parser.add_argument("--no-memory", action="store_true")
    parser.add_argument("--locks", action="store_true")
    parser.add_argument("--selftest", action="store_true")
    said = parser.parse_args()
    kinds = [("fault", misexplained)] + [("memory", misremembered)] * (not said.no_memory)
    whole = "".join(f"{line.text}\n" for line in SCRIPT)
    with tempfile.TemporaryDirectory(prefix="vtl-explained-") as folder:
        shim = os.path.join(folder, "faults.so")
        more = ["-DNO_MEMORY"] * said.no_memory
        subprocess.run(["cc", "-O1", "-shared", "-fPIC", *more, "-o", shim, os.path.join(TOP, "checks", "faults.c")],
                       check=True)
        tools = os.path.abspath(said.program), shim
        bare, new, used = made(tools, folder)
        if said.selftest:
            return selftest(tools, bare, used)
        wrong = without_locks(tools, new)
        wrong += [] if said.locks else plain(tools, bare)
        wrong += [] if said.locks else tried(tools, bare, "vtl create", ["create", "--config", "lib.toml"], "", kinds,
                                             in_order())
        for what, room, words, script in () if said.locks else (
                ("vtl check of a cartridge", used, ["check", FILES[FIRST]], ""),
                ("vtl run", new, ["run", "--config", "lib.toml"], whole),
                ("vtl reclaim", used, ["reclaim", "--config", "lib.toml", FIRST], "")):
            more = [("fault", lambda run: misexplained(run) + untold(run))] if words[0] == "run" else kinds[:1]
            wrong += tried(tools, room, what, words, script, more + kinds[1:])
    print("\n".join([*wrong, f"explained faults: {len(wrong)} wrong"]))
    return 1 if wrong else 0


if __name__ == "__main__":
    sys.exit(main())
