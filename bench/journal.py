#!/usr/bin/env python3
"""Speed and memory of the journal over a disk in memory. Best of five runs."""
from timed import MIB, Program


def main():
    best = Program("bench_journal", 1_000_000).best
    count = 400
    for word in ("append", "copy"):
        seconds, _, memory = best(word, count)
        print(f"{word} of {count} bodies of 262,144 bytes: {seconds:.3f} s, "
              f"{count * 262_144 / 1e6 / seconds:.0f} MB/s, {memory / MIB:.0f} MiB")
    count = 100_000
    seconds, length, memory = best("write", count)
    print(f"{count} writes of 1,000 bytes, as many of 10 bytes over them, and a sync: {seconds:.3f} s, "
          f"{memory / length:.2f} bytes of memory a byte of the disk")
    for count in (25_000, 50_000, 100_000):
        made, _, before = best("side", count)
        seconds, frames, memory = best("open", count)
        print(f"open of {frames} frames of 100 bytes: {seconds:.4f} s, {seconds / frames * 1e9:.0f} ns a frame, "
              f"{(memory - before) / frames:.0f} bytes of memory a frame; adding them took {made:.3f} s")


main()
