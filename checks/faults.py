#!/usr/bin/env python3
"""Lets each call that the proved programs make of the system end otherwise, in turn, over real files.

For help, vtl create, vtl check, vtl run and the stored run in memory, by a file that stands before the C library
(faults.c, which takes `cc`): each growth gets no memory; each call for a file or a stream fails; each is interrupted;
each read or write moves one byte.

Interruptions and short moves change nothing. Where a call fails or memory runs out the program ends with its status and
line behind a beginning of its lines, or commands end, or nothing changes; but none that reads, writes, cuts, syncs,
opens or locks a file is passed over. Of vtl run the first answer that differs is one that such a failure may give, at a
command that can meet it, each later one is what follows from that, and so is the status; where no answer speaks of the
failure, what was written is a beginning of the right answers. Each cartridge then holds what a first part of the
accepted changes leaves, with all up to the last acknowledged synchronizing command, and all of them at status 0 where
none of its commands failed; the reservations are those of a first part of the orders, with each acknowledged one; what
create reported is there, each file that is there is whole, and it goes on; check changes no byte. In the stored run one
command at most ends for lack of memory, and has its stored answer when it is given again. The journal, the cartridge
and the buffer, in memory, end with status 1 (their words) or 2 behind some of their stored answers, or change nothing.
Where the program has `vtl reclaim` that is tried too: the volumes stay, and the cartridge can be reclaimed again.

--program PATH another program than the proved one; --stored: the growths of the stored run alone, as the gate does;
--selftest: writes are lost behind the program's back, which must be found, and so must invented answers."""
import argparse
import collections
import concurrent.futures
import os
import subprocess
import sys
import tempfile

import cartridge_files
import faults_selftest
from fault_ends import again, create, look, reclaim, serve, tell, work
from fault_rooms import STORE, Room, made
from fault_script import FIRST
from real_library import PROVED, TOP

WORKS = ["bench_journal", "bench_cartridge", "bench_buffer"]
# calls of which the program needs no answer: where standard input stands, and a file's length as a hint
HARMLESS = ("lseek", "statx")


def built(crate):
    return os.path.join(TOP, "crates", crate, "out", crate)


def sweep(tools, pristine, what, way, kind):
    """Tries each call of this kind, and says how many ended what, and what went wrong."""
    def one(at):
        room = Room(tools, pristine)
        with room.room:
            run, ended, wrong = way(room, kind, at)
        # (with threads a run may make fewer calls than the one that was counted: then no call was the one)
        if at and kind == "fault" and ended == "nothing" and run.name not in (*HARMLESS, "none"):
            wrong.append("it was passed over")
        return run, ended, [f"{what}, {kind}, call {at} ({run.name}): {it}: {run.status} {run.err!r}" for it in wrong]
    run, ended, wrong = one(0)
    tally = collections.Counter()
    with concurrent.futures.ThreadPoolExecutor(os.cpu_count()) as pool:
        for _, ends, errors in pool.map(one, range(1, run.calls + 1)):
            tally[ends] += 1
            wrong = wrong + errors
    if ended != "nothing" or not run.calls:
        wrong.append(f"{what} without a refusal: {run}")
    print(f"{what}, {kind}: of {run.calls} calls {tally['the program']} ended the program, "
          f"{tally['commands']} commands, {tally['nothing']} nothing", flush=True)
    return wrong


def selftest(tools, new):
    """Writes are lost behind the program's back, and ends of runs are invented."""
    found = sweep(tools, new, "vtl run", serve, "lost")
    count, misjudged = faults_selftest.misjudged()
    print("\n".join([*found, f"self-test: {len(found)} of these were found wrong", *misjudged,
                     f"self-test: {count} ends were invented, {len(misjudged)} not judged as they should be"]))
    return 1 if misjudged or not found else 0


def sweeps(tools, bare, new, used):
    wrong = []
    for what, way, room in (("vtl --help", tell(["--help"]), bare), ("vtl run --help", tell(["run", "--help"]), bare),
                            ("vtl create", create, bare), ("vtl check of a cartridge", look(FIRST), used),
                            ("vtl check of a store", look(STORE), used), ("vtl run", serve, new)):
        for kind in ("memory", "fault", "interrupted", "short"):
            wrong += sweep(tools, room, what, way, kind)
    for kind in ("memory", "fault", "interrupted", "short") if cartridge_files.reclaims(tools[0]) else ():
        room = Room(tools, used)
        with room.room:
            wrong += sweep(tools, room.path, "vtl reclaim", reclaim, kind)
            room.run(["reclaim", "--config", "lib.toml", FIRST])
            wrong += sweep(tools, room.path, "vtl reclaim of a copy", reclaim, kind)
    wrong += sweep(tools, bare, "the stored run", again, "memory")
    for crate in WORKS:
        wrong += sweep((built(crate), tools[1]), bare, crate, work(crate), "memory")
    return wrong


def main():
    parser = argparse.ArgumentParser()
    parser.add_argument("--program", default=PROVED)
    parser.add_argument("--selftest", action="store_true")
    parser.add_argument("--stored", action="store_true")
    said = parser.parse_args()
    missing = [path for path in (said.program, *([] if said.stored else map(built, WORKS))) if not os.path.exists(path)]
    if missing:
        sys.exit(f"{missing[0]} is not there; build the programs first, as make faults does")
    with tempfile.TemporaryDirectory(prefix="vtl-faults-") as folder:
        shim = os.path.join(folder, "faults.so")
        source = os.path.join(TOP, "checks", "faults.c")
        subprocess.run(["cc", "-O1", "-shared", "-fPIC", "-o", shim, source], check=True)
        tools = os.path.abspath(said.program), shim
        rooms = made(tools, folder)
        if said.selftest:
            return selftest(tools, rooms[1])
        wrong = sweep(tools, rooms[0], "the stored run", again, "memory") if said.stored else sweeps(tools, *rooms)
    print("\n".join([*wrong, f"faults: {len(wrong)} wrong"]))
    return 1 if wrong else 0


if __name__ == "__main__":
    sys.exit(main())
