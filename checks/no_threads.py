#!/usr/bin/env python3
"""Refuses starts of threads of `vtl serve`, by a file that stands before the C library (faults.c, which takes `cc`):
each in turn, and all from a number on, up to those of the second round. Each run has to be answered as with all
threads, and to end: no thread waits forever for one that begins only once it has ended.

One host sends each command once the one before it is answered. Or several hosts send at once, the first and the last
among them, then comes an inventory, and a command behind it.

--program PATH: another program than the proved one."""
import argparse
import concurrent.futures
import os
import subprocess
import sys
import tempfile
import threading

import front_end
from nomemory import ROUND, shim_in
from real_library import PROVED

READY, INVENTORY = bytes(6), 3
HOSTS = (1, 2, 32, 33, 63, 64)
# one flusher, and the threads of two rounds
STARTS = range(1, 1 + 2 * ROUND + 1)
# all are refused from these on: the first ones, and some of each size of a part of the hosts
ONWARDS = (1, 2, 3, 4, 5, 6, 8, 20, 36, 60, ROUND, ROUND + 1, ROUND + 2)
AT_ONCE = 16
SECONDS = 120


def command(host, tag):
    return front_end.HEADER.pack(front_end.COMMAND, host, 1, len(READY), 0, tag) + READY


def told(stream):
    """Host and tag of the next answer, or None at the end."""
    header = front_end.read_whole(stream, front_end.HEADER.size)
    if len(header) < front_end.HEADER.size:
        return None
    _, host, _, sense, length, tag = front_end.HEADER.unpack(header)
    front_end.read_whole(stream, sense + length)
    return host, tag


def in_turn(child):
    """Three commands of host 1, each sent once the one before it is answered."""
    for tag in range(3):
        child.stdin.write(command(1, tag))
        yield told(child.stdout)


def at_once(child):
    """Commands of several hosts, an inventory, and a command behind it."""
    child.stdin.write(b"".join(command(host, host) for host in HOSTS)
                      + front_end.HEADER.pack(INVENTORY, 0, 0, 0, 0, 65) + command(2, 66))
    for _ in range(len(HOSTS) + 2):
        yield told(child.stdout)


def ended(program, shim, way, words):
    """Status, answers and standard error of a run."""
    with subprocess.Popen([program, "serve", "--memory"], bufsize=0, env={**os.environ, "LD_PRELOAD": shim, **words},
                          stdin=subprocess.PIPE, stdout=subprocess.PIPE, stderr=subprocess.PIPE) as child:
        watch = threading.Timer(SECONDS, child.kill)
        watch.start()
        found = []
        try:
            for answer in way(child):
                found.append(answer)
            child.stdin.close()
        except BrokenPipeError:
            pass
        said, rest = child.stderr.read(), child.stdout.read()
        child.wait()
        watch.cancel()
    return child.returncode, found, said + rest


def is_right(way, run):
    status, found, said = run
    if way is in_turn:
        is_answered = found == [(1, tag) for tag in range(3)]
    else:
        is_answered = None not in found and sorted(found[:-2]) == [(host, host) for host in HOSTS] and found[-2:] == [
            (0, 65), (2, 66)]
    return (status, said) == (0, b"") and is_answered


def wrong_in(program, shim):
    """How many runs are not answered as they should be, or don't end."""
    runs = [(way, {}) for way in (in_turn, at_once)]
    runs += [(way, {"FAULTS": kind, "FAULTS_AT": str(at)}) for way in (in_turn, at_once)
             for kind, numbers in (("thread", STARTS), ("threads", ONWARDS)) for at in numbers]
    with concurrent.futures.ThreadPoolExecutor(AT_ONCE) as pool:
        found = [*pool.map(lambda run: ended(program, shim, *run), runs)]
    wrong = [f"{way.__name__} {words}: {run}" for (way, words), run in zip(runs, found) if not is_right(way, run)]
    print("\n".join([*wrong[:10], f"no threads: {len(runs)} runs, {len(wrong)} are not as they should be"]))
    return len(wrong)


def main():
    parser = argparse.ArgumentParser()
    parser.add_argument("--program", default=PROVED)
    program = os.path.abspath(parser.parse_args().program)
    with tempfile.TemporaryDirectory(prefix="vtl-threads-") as folder:
        return 1 if wrong_in(program, shim_in(folder)) else 0


if __name__ == "__main__":
    sys.exit(main())
