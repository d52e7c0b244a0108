#!/usr/bin/env python3
"""Speed of CRC-32C over bytes in memory, on one processor. Best of five runs."""
from timed import MIB, Program


def main():
    best = Program("bench_sums", 1_000_000).best
    for count in (MIB // 4, MIB, 64 * MIB):
        seconds, _, _ = best("sum", count)
        print(f"the sum of {count} bytes: {seconds * 1e6:.0f} µs, {count / 1e9 / seconds:.2f} GB/s")


main()
