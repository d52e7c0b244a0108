#!/usr/bin/env python3
"""Speed of the iSCSI front end beside tgt's tape, by one libiscsi client (iscsi.c): WRITE of 256 KiB blocks, a filemark
each 64 MiB, READ of them, and TEST UNIT READY; eight hosts at eight drives beside one; and the memory at rest and of a
session. Files lie on the same disk; no digests. Of five times, taken in turns, the best and the median.

Needs the Debian packages tgt, libiscsi-dev and a C compiler, and a user who may run tgtd, as root. --program PATH:
another program than the proved one. --depth N: commands of a host at once, 1 by default, as of one that waits for each
answer."""
import argparse
import contextlib
import os
import shutil
import socket
import statistics
import subprocess
import sys
import tempfile
import time
from collections.abc import Callable, Iterator

TOP = os.path.dirname(os.path.dirname(os.path.abspath(__file__)))
TESTS = os.path.join(TOP, "frontends", "iscsi", "tests")
sys.path[:0] = [TESTS, os.path.dirname(TESTS)]

import harness  # noqa: E402
from initiator import Initiator  # noqa: E402

PROVED = os.path.join(TOP, "crates", "vtl", "out", "vtl")
VTL, TGT = "iqn.2026-11.local.vtl:library", "iqn.2000-01.example:tgt"
BLOCK, BLOCKS, GROUP, TRIPS, ROUNDS, HOSTS, CONTROL = 262_144, 2_048, 256, 20_000, 5, 8, 9
CONFIG = "".join(f'[[drive]]\nnumber = {at}\nreservations = "{at}.pr"\n[[cartridge]]\nbarcode = "TAPE0{at}L6"\n'
                 f'file = "{at}.tape"\ncapacities = [1_099_511_627_776]\nhome = {at}\n' for at in range(1, HOSTS + 1))
Work = Callable[[], float]


def client(folder: str) -> str:
    made = os.path.join(folder, "client")
    subprocess.run(["cc", "-O2", "-o", made, os.path.join(TOP, "bench", "iscsi.c"), "-liscsi"], check=True)
    return made


@contextlib.contextmanager
def tgt(folder: str) -> Iterator[int]:
    """A tgtd with a tape at LUN 1; its port."""
    with socket.create_server(("127.0.0.1", 0)) as sock:
        port = sock.getsockname()[1]
    image = os.path.join(folder, "tgt.img")
    process = subprocess.Popen(["tgtd", "-f", "-C", str(CONTROL), "--iscsi", f"portal=127.0.0.1:{port}"],
                               stdout=subprocess.DEVNULL, stderr=subprocess.DEVNULL)
    try:
        time.sleep(2)
        words = ["tgtadm", "-C", str(CONTROL), "--lld", "iscsi"]
        for more in (["--op", "new", "--mode", "target", "--tid", "1", "-T", TGT],
                     ["--op", "new", "--mode", "logicalunit", "--tid", "1", "--lun", "1", "-b", image, "--bstype",
                      "ssc", "--device-type", "tape"],
                     ["--op", "bind", "--mode", "target", "--tid", "1", "-I", "ALL"]):
            if more[3] == "logicalunit":
                subprocess.run(["tgtimg", "--op", "new", "--device-type", "tape", "--barcode", "A0000001", "--size",
                                "65536", "--type", "data", "--file", image], check=True, stdout=subprocess.DEVNULL)
            subprocess.run([*words, *more], check=True)
        yield port
    finally:
        process.kill()
        process.wait()


def ran(program: str, port: int, target: str, lun: int, work: str, count: int, depth: int) -> subprocess.Popen[bytes]:
    return subprocess.Popen([program, f"127.0.0.1:{port}", target, str(lun), work, str(count), str(BLOCK), str(GROUP),
                             str(depth)], stdout=subprocess.PIPE)


def seconds(process: subprocess.Popen[bytes]) -> float:
    said, _ = process.communicate()
    if process.returncode:
        sys.exit("the client failed")
    return float(said.split()[0])


def best(*works: Work) -> list[tuple[float, float]]:
    rounds = [[work() for work in works] for _ in range(ROUNDS)]
    return [(min(times), statistics.median(times)) for times in zip(*rounds)]


def all_at_once(program: str, port: int, blocks: int, depth: int, hosts: int = HOSTS) -> float:
    """So many hosts write to a drive each, until the last has ended."""
    start = time.perf_counter()
    for process in [ran(program, port, VTL, at, "write", blocks, depth) for at in range(1, hosts + 1)]:
        seconds(process)
    return time.perf_counter() - start


def memory(bench: harness.Bench) -> tuple[int, float]:
    """Resident bytes without a session, and what each of eight takes that has written and read a longest block."""
    before, hosts = bench.memory(), []
    for at in range(1, HOSTS + 1):
        host: Initiator = bench.ready(at, f"host{at}")
        host.command(at, "010000000000")
        host.command(at, "0a0010000000", bytes(1_048_576))
        host.command(at, "010000000000")
        host.command(at, "080010000000", read=1_048_576)
        hosts.append(host)
    after = bench.memory()
    return before, (after - before) / HOSTS


def main() -> None:
    parser = argparse.ArgumentParser()
    parser.add_argument("--program", default=PROVED)
    parser.add_argument("--depth", type=int, default=1)
    parser.add_argument("--blocks", type=int, default=BLOCKS)
    parser.add_argument("--trips", type=int, default=TRIPS)
    given = parser.parse_args()
    if not shutil.which("tgtd") or not shutil.which("cc"):
        sys.exit("this needs the Debian packages tgt, libiscsi-dev and gcc")
    with tempfile.TemporaryDirectory(prefix="vtl-iscsi-", dir=os.path.dirname(TOP)) as folder, tgt(folder) as port:
        tempfile.tempdir, made = folder, client(folder)
        with harness.bench(given.program, None, config=CONFIG) as bench:
            rest, session = memory(bench)
            print(f"memory: {rest / 1048576:.1f} MiB at rest, {session / 1048576:.2f} MiB more for each session")
            for work, count in (("ready", given.trips), ("write", given.blocks), ("read", given.blocks)):
                ours, theirs = best(
                    lambda: seconds(ran(made, bench.port, VTL, 1, work, count, given.depth)),
                    lambda: seconds(ran(made, port, TGT, 1, work, count, given.depth)))
                if work == "ready":
                    print(f"TEST UNIT READY: {ours[0] / count * 1e6:.1f} us, {ours[0] / theirs[0]:.2f} "
                          f"({ours[1] / theirs[1]:.2f}) times tgt's", flush=True)
                else:
                    print(f"{work.upper()}: {count * BLOCK / ours[0] / 1e6:,.0f} MB/s, tgt "
                          f"{count * BLOCK / theirs[0] / 1e6:,.0f}: {theirs[0] / ours[0]:.2f} "
                          f"({theirs[1] / ours[1]:.2f}) times tgt's", flush=True)
            part = given.blocks // 4
            eight, one = best(lambda: all_at_once(made, bench.port, part, given.depth),
                              lambda: all_at_once(made, bench.port, part, given.depth, 1))
            print(f"eight hosts at eight drives, WRITE: {HOSTS * one[0] / eight[0]:.2f} "
                  f"({HOSTS * one[1] / eight[1]:.2f}) times as much as one")


if __name__ == "__main__":
    main()
