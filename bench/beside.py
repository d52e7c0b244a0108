#!/usr/bin/env python3
"""Whether a program is as fast as another one, such as that of before a change. By frames, over files: the longest wait
of a short buffered WRITE while turns run in which each sync takes longer, TEST UNIT READY there and back, WRITEs of 256
KiB blocks, a filemark each 64 MiB, and READs of them, cached. By lines of a script, in memory: TEST UNIT READY, WRITEs
of 512 bytes, and READs of them.

Of five times, taken in turns, the best and the median. It ends with 1 where a best time is more than 1.05 of the other
program's. Both programs have to be built in the same way: `checks/unproved.py` builds one without its proofs.

beside.py --program NEW --old OLD [FOLDER]

--blocks N: so many blocks of 256 KiB, a multiple of 256. --only WORD: what has this word in its name alone.
--processor: in the place of the clock's time that of the processors, of all that runs for a measurement, as blocks that
are written before they are read; other work on the machine changes it less, and no wait is measured. The files lie in
a new folder beside the repository's own, or in the one that a word names."""
import argparse
import os
import resource
import sys
import tempfile

import script
import served
from script import ATTENTION, BREAK, GOOD, READY, REWIND

MOST = 1.05
WAIT = "the longest wait of a buffered WRITE beside turns"
# short blocks, so many to a phase, in so many phases; and so often they are read back
BYTES, PHASE, PHASES, TIMES = 512, 500, 4, 30
HEX = served.DATA[:BYTES].hex()
WRITE, READ = script.line(f"0a00{BYTES:06x}00", HEX), script.line(f"0800{BYTES:06x}00")
WRITES = [(READY, 1), (WRITE * PHASE + BREAK, PHASES)]
# by name, a script and its answers, as pieces and how often each stands there
SCRIPTS = {
    "300,000 lines of TEST UNIT READY": ([(READY, 1), (READY * 1_000 + BREAK, 300)], [ATTENTION, (GOOD, 300_000)]),
    f"20,000 lines of WRITE of {BYTES} bytes": ([(READY, 1), (WRITE * PHASE + BREAK, 20_000 // PHASE)],
                                                [ATTENTION, (GOOD, 20_000)]),
    f"{PHASE * PHASES * TIMES:,} lines of READ of {BYTES} bytes": (
        [*WRITES, (REWIND + (READ * PHASE + BREAK) * PHASES, TIMES)],
        [ATTENTION, (GOOD, PHASE * PHASES), (GOOD + f"GOOD {HEX}\n".encode() * PHASE * PHASES, TIMES)]),
}


def scripted(program, folder, name):
    """Seconds of the script of this name."""
    source, sink = os.path.join(folder, "in"), os.path.join(folder, "out")
    lines, answers = SCRIPTS[name]
    script.written(source, lines)
    seconds, _, status = script.run([program, "run"], source, sink)
    if status or not script.is_text(sink, answers):
        sys.exit(f"{name}: status {status}, or another answer than expected, of {program}")
    return seconds


def works(program, folder, blocks):
    """By name, what is measured of a program, in seconds."""
    os.mkdir(folder)
    bench = served.Bench(program, folder)
    return {
        WAIT: lambda: max(bench.waits()),
        f"{served.TRIPS:,} frames of TEST UNIT READY": lambda: bench.trips(bench.library(1, "--memory")),
        f"{blocks:,} frames of WRITE of {served.BLOCK:,} bytes": lambda: bench.written(1, blocks),
        f"{blocks:,} frames of READ of them": lambda: bench.reads(blocks),
        **{name: lambda name=name: scripted(program, folder, name) for name in SCRIPTS},
    }


def processed(work):
    """The processors' seconds of the processes that a measurement starts."""
    before = resource.getrusage(resource.RUSAGE_CHILDREN)
    work()
    after = resource.getrusage(resource.RUSAGE_CHILDREN)
    return after.ru_utime + after.ru_stime - before.ru_utime - before.ru_stime


def main():
    parser = argparse.ArgumentParser()
    parser.add_argument("folder", nargs="?", default=os.path.dirname(served.TOP))
    parser.add_argument("--program", default=served.PROVED)
    parser.add_argument("--old", required=True)
    parser.add_argument("--blocks", type=int, default=served.BLOCKS)
    parser.add_argument("--only", default="")
    parser.add_argument("--processor", action="store_true")
    given = parser.parse_args()
    slow = []
    with tempfile.TemporaryDirectory(prefix="vtl-beside-", dir=given.folder) as room:
        new, old = (works(os.path.abspath(program), os.path.join(room, name), given.blocks)
                    for program, name in ((given.program, "new"), (given.old, "old")))
        for name in (name for name in new if given.only in name and not (given.processor and name == WAIT)):
            pair = new[name], old[name]
            now, before = served.best(*[lambda it=it: processed(it) for it in pair] if given.processor else pair)
            slow += [name] * (now[0] > MOST * before[0])
            print(f"{name}: {now[0] * 1e3:,.2f} ms (median {now[1] * 1e3:,.2f}), before {before[0] * 1e3:,.2f} "
                  f"({before[1] * 1e3:,.2f}): {served.ratio(now, before)} times as long; load {os.getloadavg()[0]:.1f}",
                  flush=True)
    if slow:
        sys.exit(f"more than {MOST} times as long: {'; '.join(slow)}")


if __name__ == "__main__":
    main()
