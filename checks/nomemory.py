#!/usr/bin/env python3
"""Refuses each growth of memory of the proved program in turn, in scripts of a few lines, by a file that stands before
the C library (faults.c, which takes `cc`), and compares each end with those that nomemory_rows.py says.

The scripts: a block and a filemark, over files and in memory; a reservation that outlives one loss of power and not the
next; moves, over files and in memory; the first of them by frames to `vtl serve` too. Each line is a phase, and is
given when the one before it is answered. The growths of the start, of each line and of the end are counted apart, up
to the first run that has no growth of that number. All is done twice: a command that memory runs out for is given once
more, or it is not.

A run of which a growth is refused ends with status 3 and `vtl: out of memory`, behind the answers up to that line. Or
memory runs out for the command of that line: it changes nothing, the lines behind it are answered so, and given again
it has its own answer. Or the disk in memory does not grow, and then the answers are those to a device fault. Or a
thread does not start: there is one fewer, and all is as with no refusal. Or a drive that parts into its halves finds no
memory for what hosts may send without its disk: then they wait for the disk, and all is as with no refusal. No other
end stands. The files hold what was accepted.

--program PATH: another program than the proved one; --selftest: ends that are invented must be judged as they should
be, and wrong programs that stand in for the right one must be found."""
import argparse
import collections
import concurrent.futures
import itertools
import os
import shutil
import subprocess
import sys
import tempfile
import threading

import front_end
import rowfile
from real_library import PROVED, TOP, read
from nomemory_rows import ABORTED, SCRIPTS, held

ERRORS = {0: "", 2: "vtl: device fault\n", 3: "vtl: out of memory\n"}
WAYS = ("not given again", "given again")
SECONDS = 300
# a program that has a growth of each number is wrong
MOST = 1_000
# the threads that a round of `vtl serve` starts: one that answers, one that writes, and 63 more for the hosts
ROUND = 65
# what a drive that parts finds no memory for
ROOM = "the room of a hosts' half"
# so often a line is swept once more for whose command memory is to run out
AGAIN = 20

# How a run ended, what it wrote and what its files hold; how many growths there were, whether one was refused, and how
# many threads were started.
Run = collections.namedtuple("Run", "status out err files calls refused threads")
# An end that stands: what the refusal ended, the status, the answers, and the contents that each file may have.
End = collections.namedtuple("End", "what status answers files")


def right_end(script):
    return End("nothing", 0, [answer for _, answer in script.lines], held(script, len(script.lines)))


def ends(script, way, place):
    """The ends of a run of which a growth of this line was refused, 0 being the start."""
    right = right_end(script).answers
    # the line's answer was written or not, and what it asks for was done or not
    for answered in {max(place - 1, 0), min(place, len(right))}:
        for done in {answered, min(place, len(right))}:
            yield End("the program", 3, right[:answered], held(script, done))
    if place - 1 in script.without:
        behind, files = script.without[place - 1]
        if way == WAYS[0]:
            yield End("the command", 0, [*right[:place - 1], ABORTED, *behind], {**script.files, **files})
        else:
            yield End("the command", 0, [*right[:place - 1], ABORTED, *right[place - 1:]], right_end(script).files)
    for places, status, answers in script.faults:
        if place in places:
            yield End("the disk in memory", status, answers, script.files)


def is_at(run, end):
    text = "".join(f"{answer}\n" for answer in end.answers)
    return (run.status, run.out, run.err) == (end.status, text, ERRORS[end.status]) and (
        run.files.keys() == end.files.keys()) and all(run.files[name] in end.files[name] for name in end.files)


def fewer(script, run, threads):
    """How many threads a run has less than one with no refusal, which has so many. Where a thread of a round of frames
    does not start, or starts late, they are served in a round more, with threads of its own."""
    lacking = threads - run.threads
    return lacking % ROUND if script.words[0] == "serve" and run.threads + 1 >= ROUND else lacking


def ended(script, way, place, run, threads):
    """What a refusal ended, or None where a run may not end so. With none refused so many threads are started."""
    fitting = [*ends(script, way, place)] if run.refused else [right_end(script)]
    if run.refused and fewer(script, run, threads) == 1:
        # its work is done by the thread that waits for it
        fitting.append(right_end(script)._replace(what="a thread"))
    if run.refused and script.parts and fewer(script, run, threads) == 0:
        # what hosts write waits for the disk
        fitting.append(right_end(script)._replace(what=ROOM))
    return next((end.what for end in fitting if is_at(run, end)), None)


def give(child, lines, tries, way):
    """Gives each line when the one before it is answered, and one that memory runs out for so many times."""
    told = []
    try:
        for text, _ in lines:
            for _ in range(tries):
                told.append(way(child, text, len(told)))
                if told[-1] != f"{ABORTED}\n":
                    break
            if not told[-1]:
                break
    except BrokenPipeError:
        pass
    rest, said = child.communicate()
    return "".join(told) + rest.decode(errors="replace"), said.decode()


def by_line(child, text, _):
    """Gives a line as a phase, and reads its answer."""
    child.stdin.write((text if text.startswith("move") else f"{text}\n--").encode() + b"\n")
    return child.stdout.readline().decode()


def by_frame(child, text, tag):
    """The same by a frame."""
    told = front_end.exchange(child, rowfile.Line(0, text.encode()), tag).decode()
    return f"{told}\n" if told else ""


def run(tools, script, way, place, at):
    """A run of which this growth of this line is refused; none is where that is 0."""
    with tempfile.TemporaryDirectory(prefix="vtl-nomemory-") as room:
        told, folder = os.path.join(room, "told"), os.path.join(room, "library")
        os.mkdir(folder)
        for name, possible in script.files.items():
            with open(os.path.join(folder, name), "wb") as file:
                file.write(possible[0])
        more = {"LD_PRELOAD": tools[1], "FAULTS": "memory", "FAULTS_AT": str(at), "FAULTS_BEHIND": str(place),
                "FAULTS_TOLD": told}
        with subprocess.Popen([tools[0], *script.words], cwd=folder, env={**os.environ, **more}, bufsize=0,
                              stdin=subprocess.PIPE, stdout=subprocess.PIPE, stderr=subprocess.PIPE) as child:
            watch = threading.Timer(SECONDS, child.kill)
            watch.start()
            try:
                out, err = give(child, script.lines, 1 if way == WAYS[0] else 2,
                                by_frame if script.words[0] == "serve" else by_line)
            finally:
                watch.cancel()
        files = {name: read(os.path.join(folder, name)) for name in os.listdir(folder)}
        calls, name, threads = read(told).decode().split() if os.path.exists(told) else (0, "none", 0)
        return Run(child.returncode, out, err, files, int(calls), name != "none", int(threads))


def line_of(one, place, begun):
    """The runs of which the growths of a line from this number on are refused, up to the one that has none of it."""
    for at in itertools.count(begun):
        last = one(place, at)
        yield last
        if not last[2].refused or last[3] is None or at >= MOST:
            return


def missing(script, swept):
    """The lines for whose commands memory is to run out, and did not."""
    refused = {place for place, _, done, what in swept if done.refused and what == "the command"}
    return [at + 1 for at in script.owed if at + 1 not in refused]


def sweep(tools, script, way, pool):
    """Refuses each growth of a script in turn, and says what is wrong. That of the start is refused in one way only."""
    said, tally = f"{script.name}, {way}", collections.Counter()
    places = range(WAYS.index(way), len(script.lines) + 2)

    def one(place, at):
        done = run(tools, script, way, place, at)
        return place, at, done, ended(script, way, place, done, threads)

    threads = run(tools, script, way, 0, 0).threads
    first = [*pool.map(one, places, itertools.repeat(0))]
    bad = [it for it in first if it[3] is None or it[2].refused or fewer(script, it[2], threads)]
    if bad or not any(it[2].calls for it in first):
        return [f"{said}: without a refusal {next(iter(bad), first)}"]
    numbers = [(it[0], at) for it in first for at in range(1, it[2].calls + 1)]
    swept = [*pool.map(one, *zip(*numbers))]
    swept += itertools.chain(*pool.map(lambda it: [*line_of(one, it[0], it[2].calls + 1)], first))
    # the growth of that number may have been a flusher's in each run
    for place in itertools.chain(*itertools.repeat(missing(script, swept), AGAIN)):
        swept += line_of(one, place, 1) if place in missing(script, swept) else []
    wrong = [f"{said}: growth {at} of line {place}: {done}" for place, at, done, what in swept if what is None]
    wrong += [f"{said}: line {place} has {at} growths" for place, at, _, _ in swept if at >= MOST]
    wrong += [f"{said}: memory never runs out for line {place}" for place in missing(script, swept)]
    tally.update(what for _, _, done, what in swept if done.refused)
    print(f"{said}: {sum(tally.values())} growths were refused, of which ended "
          f"{', '.join(f'{count} {what}' for what, count in tally.items())}", flush=True)
    return wrong


def shim_in(folder):
    path = os.path.join(folder, "faults.so")
    if not shutil.which("cc"):
        sys.exit("cc was not found: install a C compiler")
    subprocess.run(["cc", "-O1", "-shared", "-fPIC", "-o", path, os.path.join(TOP, "checks", "faults.c")], check=True)
    return path


def swept(tools, scripts):
    with concurrent.futures.ThreadPoolExecutor(os.cpu_count()) as pool:
        return [it for script in scripts for way in WAYS for it in sweep(tools, script, way, pool)]


def main():
    parser = argparse.ArgumentParser()
    parser.add_argument("--program", default=PROVED)
    parser.add_argument("--selftest", action="store_true")
    said = parser.parse_args()
    if said.selftest:
        import nomemory_selftest
        return nomemory_selftest.main()
    if not os.path.exists(said.program):
        sys.exit(f"{said.program} is not there; build the program first: make vtl")
    import no_threads
    with tempfile.TemporaryDirectory(prefix="vtl-nomemory-") as folder:
        tools = os.path.abspath(said.program), shim_in(folder)
        wrong = swept(tools, SCRIPTS)
        others = no_threads.wrong_in(*tools)
    print("\n".join([*wrong, f"nomemory: {len(wrong) + others} wrong"]))
    return 1 if wrong or others else 0


if __name__ == "__main__":
    sys.exit(main())
