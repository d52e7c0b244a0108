#!/usr/bin/env python3
"""Speed of a drive in buffered mode over a cartridge on a disk in memory, and the syncs that its writes take. Best of
five runs."""
import os
import subprocess
import sys

TOP = os.path.dirname(os.path.dirname(os.path.abspath(__file__)))
PROGRAM = os.path.join(TOP, "crates", "bench_buffer", "out", "bench_buffer")
# records and bytes of blocks that wait at most, and the syncs of a frame
WAIT, BYTES, SYNCS = 256, 4_194_304, 2


def run(word, count):
    """Seconds, what came of it, greatest memory in bytes."""
    child = subprocess.Popen([PROGRAM, word, str(count)], stdout=subprocess.PIPE)
    told = child.stdout.read().split()
    _, status, usage = os.wait4(child.pid, 0)
    if status:
        sys.exit(f"{word} {count} ended with status {os.waitstatus_to_exitcode(status)}")
    return int(told[0]) / 1e9, int(told[1]), usage.ru_maxrss * 1024


def best(word, count, wanted=None):
    runs = [run(word, count) for _ in range(5)]
    if wanted is not None and any(came != wanted for _, came, _ in runs):
        sys.exit(f"{word} {count} took {runs[0][1]} syncs, and not {wanted}")
    return min(time for time, _, _ in runs)


def frames_of(count, size, group):
    """Frames that so many writes of one block of this size make, with a filemark behind each group, which stores what
    waits with it: what has no room beside those that wait finds them stored."""
    frames = waiting = 0
    for i in range(count):
        if waiting == WAIT or (waiting + 1) * size > BYTES:
            frames, waiting = frames + 1, 0
        waiting += 1
        if group and i % group == group - 1:
            if waiting == WAIT:
                frames, waiting = frames + 1, 0
            frames, waiting = frames + 1, 0
    return frames


def main():
    if not os.path.exists(PROGRAM):
        sys.exit("build the program first: cd crates/bench_buffer && rt run")
    count, size, group = 4_096, 65_536, 1_024
    frames = frames_of(count, size, group)
    seconds = best("blocks", count, frames * SYNCS)
    print(f"{count:,} buffered WRITEs of {size:,} bytes, a filemark each {group:,}: {seconds:.3f} s, "
          f"{count * size / 1e6 / seconds:.0f} MB/s, {frames * SYNCS} syncs for {frames} frames")
    seconds = best("copy", count)
    print(f"a plain copy of the same bytes: {seconds:.3f} s, {count * size / 1e6 / seconds:.0f} MB/s")
    for count in (256, 1_000_000):
        frames = frames_of(count, 1, None)
        seconds = best("bytes", count, frames * SYNCS)
        print(f"{count:,} buffered WRITEs of one byte: {seconds:.4f} s, {seconds / count * 1e9:.0f} ns a command, "
              f"{frames * SYNCS:,} syncs for {frames:,} frames")
    count = 100_000
    seconds = best("marks", count, count * SYNCS)
    print(f"{count:,} times a WRITE of one byte and WRITE FILEMARKS of one: {seconds:.3f} s, "
          f"{seconds / count * 1e9:.0f} ns a pair, {count * SYNCS:,} syncs for {count:,} frames")


main()
