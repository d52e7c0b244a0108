#!/usr/bin/env python3
"""Speed of `vtl serve`, each beside a plain peer in C (`cc` has to be there): TEST UNIT READY there and back beside a
process that only exchanges the frames (peer.c); WRITE of 256 KiB blocks over files by a front end in C (front.c), a
filemark each 64 MiB, beside the raw file with as many syncs (syncs.c counts them) and beside a plain program behind the
same pipe (files.c); READ of them beside a raw read through a pipe; two hosts at two drives beside one at one, and the
same of the plain program, of raw files, and where each sync takes 20 milliseconds more; TEST UNIT READY, and loads of a
cartridge, of two hosts beside one, and beside two processes that share nothing (alone.c); how long short buffered
WRITEs wait where each sync takes longer; and the memory at rest, without a host and with 64 that have spoken.

Of five times, taken in turns, the best and the median. --program PATH: another program than the proved one. --pipe
BYTES: longer pipes, as a front end may make them. The files lie in a new folder beside the repository's own, or in the
one that a word names."""
import argparse
import os
import statistics
import subprocess
import sys
import tempfile
import threading
import time

from peers import Peer, compiled

TOP = os.path.dirname(os.path.dirname(os.path.abspath(__file__)))
PROVED = os.path.join(TOP, "crates", "vtl", "out", "vtl")
READY, REWIND = bytes(6), bytes.fromhex("010000000000")
BLOCK, BLOCKS, GROUP, TRIPS, ROUNDS, HOSTS = 262_144, 2_048, 256, 20_000, 5, 64
# a slow sync, in milliseconds, and so many blocks are written where each is
SLOW, FEWER = 20, 512
# and a host writes a short block this often, in seconds, so many times
OFTEN, SHORT_WRITES = 0.001, 3_000
READ = b"\x08\x00\x04\x00\x00\x00"
# loads of a cartridge of so many blocks of 1,024 bytes
UNLOAD, LOAD, MARK = bytes.fromhex("1b0000000000"), bytes.fromhex("1b0000000100"), bytes.fromhex("100000000100")
LOADS, SHORT_BLOCKS, SHORT_BLOCK = 20, 20_000, b"\x0a\x00\x00\x04\x00\x00"
SHORT_WRITE = b"\x0a\x00\x00\x02\x00\x00"
DATA = os.urandom(BLOCK)


def timed(work):
    start = time.perf_counter()
    work()
    return time.perf_counter() - start


def best(*works):
    """The least and the median of five times of each work, taken in turns."""
    rounds = [[work() for work in works] for _ in range(ROUNDS)]
    return [(min(times), statistics.median(times)) for times in zip(*rounds)]


def ratio(one, other):
    return f"{one[0] / other[0]:.2f} ({one[1] / other[1]:.2f})"


def twice(one, two):
    return f"{2 * one[0] / two[0]:.2f} ({2 * one[1] / two[1]:.2f})"


class Bench:
    def __init__(self, program, folder):
        self.program, self.folder = program, folder
        self.front, self.files = compiled(folder, "front.c"), compiled(folder, "files.c", "-pthread")
        self.computes = compiled(folder, "alone.c")
        self.shim = {"LD_PRELOAD": compiled(folder, "syncs.c", "-shared", "-fPIC"),
                     "SYNCS_TOLD": os.path.join(folder, "syncs")}

    def library(self, drives, *flags, **environment):
        """A new library of so many drives over files, served."""
        for name in os.listdir(self.folder):
            if ".tape" in name or name.endswith(".pr"):
                os.remove(os.path.join(self.folder, name))
        tapes = ", ".join(f'{{ barcode = "T{at}", file = "{at}.tape", capacities = [1_099_511_627_776], home = {at} }}'
                          for at in range(1, drives + 1))
        stores = ", ".join(f'{{ number = {at}, reservations = "{at}.pr" }}' for at in range(1, drives + 1))
        with open(os.path.join(self.folder, "lib.toml"), "w", encoding="utf-8") as file:
            file.write(f"cartridge = [{tapes}]\ndrive = [{stores}]\n")
        subprocess.run([self.program, "create", "--config", "lib.toml"], cwd=self.folder, check=True,
                       stdout=subprocess.DEVNULL)
        return Peer([self.program, "serve", *flags, "--config", "lib.toml"], self.folder, **environment)

    def trips(self, peer):
        peer.exchange(READY)
        seconds = timed(lambda: [peer.exchange(READY) for _ in range(TRIPS)])
        peer.end()
        return seconds

    def writes(self, drives=1, blocks=BLOCKS, **environment):
        """So many blocks to each of these drives, by a host each, a filemark each 64 MiB; at most two commands of a
        host wait for their answers. The front end is front.c, so that what it takes itself is little."""
        peer = self.library(drives, **environment)
        for at in range(1, drives + 1):
            peer.exchange(READY, b"", at, at)
        return peer, self.sent(peer, drives, blocks)

    def sent(self, peer, hosts, blocks):
        """How long the front end's blocks take at the other end, in seconds."""
        return self.front_end(peer, hosts, blocks, GROUP, 2)

    def front_end(self, peer, *words):
        """How long front.c takes with these words, in seconds."""
        words = [self.front, *map(str, words)]
        ran = subprocess.run(words, stdin=peer.answers, stdout=peer.process.stdin, stderr=subprocess.PIPE, check=False)
        if ran.returncode:
            sys.exit(ran.stderr.decode())
        return float(ran.stderr)

    def readied(self, hosts):
        """How long a TEST UNIT READY of each of these hosts takes, each at a drive of its own, so many times each: a
        host waits for its answer before it gives the next."""
        peer = self.library(hosts)
        for at in range(1, hosts + 1):
            peer.exchange(READY, b"", at, at)
        seconds = self.front_end(peer, hosts, TRIPS, 0, 1)
        peer.end()
        return seconds

    def loads(self, hosts):
        """How long it takes that each of these hosts unloads and loads the cartridge in its drive so many times."""
        peer = self.library(hosts)

        def each(*commands):
            for at in range(1, hosts + 1):
                for block, data in commands:
                    peer.send(block, data, at, at)
            peer.flush()
            return [peer.answer()[0] for _ in range(hosts * len(commands))]

        each((READY, b""))
        for _ in range(SHORT_BLOCKS // 20):
            each(*[(SHORT_BLOCK, DATA[:1_024])] * 20)
        each((MARK, b""))
        statuses = []
        seconds = timed(lambda: [statuses.extend(each((UNLOAD, b""), (LOAD, b""))) for _ in range(LOADS)])
        if any(statuses):
            sys.exit("a load was not GOOD")
        peer.end()
        return seconds

    def alone(self, processes):
        """How long it takes that each of so many processes, which share nothing, computes the same."""
        def work():
            for process in [subprocess.Popen([self.computes], stdout=subprocess.DEVNULL) for _ in range(processes)]:
                process.wait()

        return timed(work)

    def written(self, drives=1, blocks=BLOCKS, **environment):
        peer, seconds = self.writes(drives, blocks, **environment)
        peer.end()
        return seconds

    def plainly(self, hosts, syncs):
        """The same blocks at a plain program in C, which only writes them to a file for each host, by a thread each,
        with as many syncs."""
        peer = Peer([self.files, self.folder, str(BLOCKS), str(syncs)], self.folder)
        seconds = self.sent(peer, hosts, BLOCKS)
        peer.end()
        return seconds

    def slowly(self, drives):
        return self.written(drives, FEWER, **self.shim, SYNCS_MS=str(SLOW))

    def waits(self):
        """How long a host waits for the answer to each of many buffered WRITEs of 512 bytes, one a millisecond, while
        turns run in which each sync takes 20 milliseconds more."""
        peer = self.library(1, **self.shim, SYNCS_MS=str(SLOW))
        peer.exchange(READY)
        waits = []
        for _ in range(SHORT_WRITES):
            waits.append(timed(lambda: peer.exchange(SHORT_WRITE, DATA[:512])))
            time.sleep(OFTEN)
        peer.end()
        return waits

    def syncs(self):
        """How many syncs the writes of one host take."""
        self.written(**self.shim)
        with open(self.shim["SYNCS_TOLD"], encoding="ascii") as file:
            return int(file.read())

    def raw_file(self, number, syncs):
        file = os.open(os.path.join(self.folder, f"raw{number}.tape"), os.O_CREAT | os.O_WRONLY | os.O_TRUNC)
        for block in range(BLOCKS):
            os.write(file, DATA)
            for _ in range((block + 1) * syncs // BLOCKS - block * syncs // BLOCKS):
                os.fsync(file)
        os.close(file)

    def raw(self, syncs, files=1):
        """So many raw files, each with as many blocks and syncs, at once."""
        threads = [threading.Thread(target=self.raw_file, args=(number, syncs)) for number in range(1, files + 1)]

        def work():
            for thread in threads:
                thread.start()
            for thread in threads:
                thread.join()

        return timed(work)

    def reads(self, blocks=BLOCKS):
        """How long READs of so many blocks take that were just written, so that they are cached."""
        peer, _ = self.writes(1, blocks)
        peer.exchange(REWIND)

        def work():
            for number in range(blocks):
                status, data = peer.exchange(READ)
                if status == 0x02:
                    status, data = peer.exchange(READ)
                if len(data) != BLOCK:
                    sys.exit(f"block {number} has {len(data)} bytes")

        seconds = timed(work)
        peer.end()
        return seconds

    def raw_reads(self):
        self.raw(1)
        with subprocess.Popen(["cat", "raw1.tape"], cwd=self.folder, stdout=subprocess.PIPE, pipesize=Peer.pipe) as cat:
            return timed(lambda: [cat.stdout.read(BLOCK) for _ in range(BLOCKS)])

    def rest(self):
        peer = self.library(1, "--memory")
        peer.exchange(READY)
        before = peer.memory()
        for host in range(2, HOSTS + 1):
            peer.exchange(READY, b"", host)
        after = peer.memory()
        peer.end()
        return before, (after - before) / (HOSTS - 1)


def main():
    parser = argparse.ArgumentParser()
    parser.add_argument("folder", nargs="?")
    parser.add_argument("--program", default=PROVED)
    parser.add_argument("--waits", action="store_true", help="how long short buffered WRITEs wait, alone")
    parser.add_argument("--pipe", type=int, default=-1, help="the bytes of each pipe, where the system's are 65,536")
    given = parser.parse_args()
    Peer.pipe = given.pipe
    with tempfile.TemporaryDirectory(prefix="vtl-served-", dir=given.folder or os.path.dirname(TOP)) as folder:
        peer = compiled(folder, "peer.c")
        bench = Bench(os.path.abspath(given.program), folder)
        waits = sorted(bench.waits())
        print(f"a buffered WRITE of 512 bytes each millisecond, where a sync takes {SLOW} ms more: it waits "
              f"{waits[-1] * 1e3:.2f} ms at most, {statistics.median(waits) * 1e3:.2f} ms as a median", flush=True)
        if given.waits:
            return
        served, plain = best(lambda: bench.trips(bench.library(1, "--memory")),
                             lambda: bench.trips(Peer([peer], folder)))
        print(f"TEST UNIT READY there and back: {served[0] / TRIPS * 1e6:.1f} us, {ratio(served, plain)} of two "
              "processes that exchange the frames", flush=True)
        for what, work in ("TEST UNIT READY", bench.readied), (f"loads of {SHORT_BLOCKS:,} blocks", bench.loads):
            one, two, own, both = best(lambda: work(1), lambda: work(2), lambda: bench.alone(1),
                                       lambda: bench.alone(2))
            print(f"two hosts at two drives, {what}: {twice(one, two)} times as much done as one, where two processes "
                  f"that share nothing get {twice(own, both)} times as much of the machine as one", flush=True)
        syncs = bench.syncs()
        one, raw, two, both, plain_one, plain_two = best(
            bench.written, lambda: bench.raw(syncs), lambda: bench.written(2), lambda: bench.raw(syncs, 2),
            lambda: bench.plainly(1, syncs), lambda: bench.plainly(2, syncs))
        print(f"WRITE: {BLOCKS * BLOCK / one[0] / 1e6:,.0f} MB/s, {ratio(raw, one)} of the raw file with {syncs} "
              f"syncs, {ratio(plain_one, one)} of the plain program", flush=True)
        slow, slow_two = best(lambda: bench.slowly(1), lambda: bench.slowly(2))
        print(f"two hosts at two drives, WRITE: {twice(one, two)} times as much done as one, at the plain program "
              f"{twice(plain_one, plain_two)}, and two raw files {twice(raw, both)}; where a sync takes {SLOW} ms more "
              f"{twice(slow, slow_two)}", flush=True)
        cached, piped = best(bench.reads, bench.raw_reads)
        print(f"READ, cached: {BLOCKS * BLOCK / cached[0] / 1e6:,.0f} MB/s, {ratio(piped, cached)} of a raw read "
              "through a pipe", flush=True)
        rest, host = bench.rest()
        print(f"at rest: {rest / 1024:,.0f} KiB, and {host / 1024:.1f} KiB more for each host that has spoken")


if __name__ == "__main__":
    main()
