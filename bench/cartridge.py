#!/usr/bin/env python3
"""Speed and memory of a cartridge over a disk in memory. Best of five runs."""
from timed import Program


def main():
    best = Program("bench_cartridge", 1_000_000_000).best
    count, size = 200, 262_144
    for word, what in (("store", "store of"), ("fetch", "fetch of"), ("copy", "a plain copy of")):
        seconds, _, _ = best(word, count)
        print(f"{what} {count} blocks of {size:,} bytes, one by one: {seconds:.3f} s, "
              f"{count * size / 1e6 / seconds:.0f} MB/s")
    count = 400
    seconds, frames, _ = best("frame", count)
    blocks = frames * 64
    print(f"store of {frames} frames of 64 blocks of 1,024 bytes: {seconds:.3f} s, "
          f"{seconds / blocks * 1e9:.0f} ns a block, {blocks * 1024 / 1e6 / seconds:.0f} MB/s")
    for count in (10_000, 20_000, 100_000):
        _, length, before = best("side", count)
        seconds, objects, memory = best("open", count)
        print(f"open of {objects} blocks of 1,024 bytes, a frame each: {seconds:.4f} s, "
              f"{seconds / objects * 1e9:.0f} ns a block, {(memory - before) / objects:.0f} bytes of memory an object "
              "beside the disk's")


main()
