#!/usr/bin/env python3
"""Tries real file systems over a device that fails and is mended: what the program acknowledged behind that has to be
there once the file system is mounted anew.

mended_faults.py [--program PATH] [--runs N] [--seed N] [FILESYSTEM ..]
mended_faults.py --selftest     runs nothing, and looks at what is taken for lost

It needs root, loop devices, /dev/fuse and fusepy (Debian's python3-fusepy), and the tools of each file system; what
cannot run is named. Each run makes a new file system on a loop device over refusing_device.py, and a library in it. Of
a cartridge: five saves; the device refuses writes to what was never written; a save, UNLOAD and LOAD; the device is
mended; UNLOAD and LOAD, three saves. A store of reservations is opened at a start, so of a store the program ends and
starts again in place of each UNLOAD and LOAD. Then the file system is mounted anew, and what is read is compared with
what was acknowledged. Status 1 where anything is lost."""
import argparse
import contextlib
import os
import random
import shutil
import signal
import subprocess
import sys
import tempfile
import time
import uuid

TOP = os.path.dirname(os.path.dirname(os.path.abspath(__file__)))
PROVED = os.path.join(TOP, "crates", "vtl", "out", "vtl")
DEVICE = os.path.join(TOP, "checks", "refusing_device.py")
MEBI = 1 << 20
# the size of the device, the file system's name, and how it is made
SYSTEMS = {
    "ext4-1024": (64, "ext4", 1024, ["mkfs.ext4", "-q", "-F", "-b", "1024"]),
    "ext4-4096": (64, "ext4", 4096, ["mkfs.ext4", "-q", "-F", "-b", "4096"]),
    "xfs": (320, "xfs", 4096, ["mkfs.xfs", "-q", "-f", "-K"]),
    "btrfs": (256, "btrfs", 4096, ["mkfs.btrfs", "-q", "-f", "-K"]),
}
# all that the file system writes of its own is written before the fault
WRITTEN_AT_ONCE = {"ext4": ["-E", "nodiscard,lazy_itable_init=0,lazy_journal_init=0"]}
CONFIGURATION = """[[drive]]
number = 1
reservations = "drive1.pr"
[[cartridge]]
barcode = "T00001L6"
file = "t1.tape"
capacities = [1_048_576]
home = 1
"""
READY, UNLOAD, LOAD = "000000000000", "1b0000000000", "1b0000000100"
TO_THE_END, MARK, READ = "110300000000", "100000000100", "080200ffff00"
READ_KEYS = "5e000000000000040000"


class Broken(Exception):
    """A run in which something failed that is none of the program's."""


def called(*words):
    done = subprocess.run(words, capture_output=True)
    if done.returncode:
        raise Broken(f"{' '.join(words)}: {done.stderr.decode(errors='replace').strip()}")
    return done.stdout.decode().strip()


class Mounted:
    """A file system on a loop device over a device that can refuse, mounted in a room of its own."""

    def __init__(self, python, name):
        self.python, (self.size, self.system, self.block, self.maker) = python, SYSTEMS[name]
        self.room = tempfile.mkdtemp(prefix="vtl-mended-")
        self.place, self.loop, self.device = os.path.join(self.room, "mounted"), None, None
        os.mkdir(self.place)
        os.mkdir(os.path.join(self.room, "device"))

    def made(self):
        identity = str(uuid.uuid4())
        let = [identity.replace("-", "")] if self.system == "btrfs" else []
        self.device = subprocess.Popen([self.python, DEVICE, self.room, str(self.size * MEBI), *let])
        disk = os.path.join(self.room, "device", "disk")
        for _ in range(500):
            if os.path.exists(disk):
                break
            time.sleep(0.02)
        self.loop = called("losetup", "-f", "--show", disk)
        named = ["-U", identity] if self.system == "btrfs" else []
        called(*self.maker, *WRITTEN_AT_ONCE.get(self.system, []), *named, self.loop)
        self.mount()
        # files that take the blocks which the making of the file system wrote, small gaps too
        for at, size in enumerate([4 * MEBI, *[4096] * 64]):
            with open(os.path.join(self.place, f"filler{at}"), "wb") as file:
                file.write(bytes([at + 1]) * size)
        os.sync()

    def mount(self):
        called("mount", "-t", self.system, self.loop, self.place)

    def unmount(self):
        called("umount", self.place)

    def refuses(self, refuses):
        name = os.path.join(self.room, "refuses")
        if refuses:
            open(name, "w").close()
        else:
            os.remove(name)

    def gone(self):
        with contextlib.suppress(FileNotFoundError):
            self.refuses(False)
        for _ in range(100):
            if not os.path.ismount(self.place):
                break
            subprocess.run(["umount", self.place], capture_output=True)
        if self.loop:
            subprocess.run(["losetup", "-d", self.loop], capture_output=True)
        if self.device:
            self.device.kill()
            self.device.wait()
        # lazily: the loop device may be let go of later
        for place in (self.place, os.path.join(self.room, "device")):
            subprocess.run(["umount", "-l", place], capture_output=True)
        shutil.rmtree(self.room, ignore_errors=True)


class Running:
    """A run of the program, which is given a command at a time."""

    def __init__(self, program, folder):
        self.child = subprocess.Popen([program, "run", "--explain", "--config", "library.toml"], cwd=folder,
                                      stdin=subprocess.PIPE, stdout=subprocess.PIPE, stderr=subprocess.PIPE)

    def tell(self, block, data=b"", host=1):
        """The answer to a command, word by word; none where the program has ended."""
        try:
            self.child.stdin.write(f"{host} 1 {block} {data.hex()}\n--\n".encode())
            self.child.stdin.flush()
        except BrokenPipeError:
            return []
        return self.child.stdout.readline().decode().split()

    def is_good(self, block, data=b"", host=1):
        return self.tell(block, data, host)[:1] == ["GOOD"]

    def until_good(self, block, host=1):
        """Gives a command until it is answered GOOD: conditions and a deferred error come before it."""
        answers = []
        for _ in range(6):
            answers.append(self.tell(block, host=host))
            if answers[-1][:1] == ["GOOD"]:
                return True
        self.refused = answers
        return False

    def end(self):
        with contextlib.suppress(BrokenPipeError):
            self.child.stdin.close()
        self.child.stdout.read()
        self.child.stdout.close()
        said = self.child.stderr.read()
        self.child.stderr.close()
        return self.child.wait(), said


class Cartridge:
    """Saves are a block and a filemark behind it, which makes it safe."""

    def __init__(self, program, folder, block, chance):
        self.program, self.folder, self.chance = program, folder, chance
        # of each save its block, and whether it was acknowledged
        self.saves = []

    def save(self, run):
        block = self.chance.randbytes(self.chance.randint(200, 6000))
        wrote = run.is_good(f"0a00{len(block):06x}00", block)
        self.saves.append((block, wrote and run.is_good(MARK)))
        return self.saves[-1][1]

    def reload(self, run):
        return run.until_good(UNLOAD) and run.until_good(LOAD) and run.is_good(TO_THE_END)

    def work(self, refuses):
        """The saves and the fault. Returns how many saves behind it were acknowledged."""
        run = Running(self.program, self.folder)
        run.until_good(READY)
        if not all(self.save(run) for _ in range(5)):
            raise Broken("a save before the fault was not acknowledged")
        refuses(True)
        self.save(run)
        self.reload(run)
        refuses(False)
        acknowledged = sum(self.save(run) for _ in range(3)) if self.reload(run) else 0
        run.end()
        return acknowledged

    def read(self):
        """The blocks and marks that are found; None where the cartridge is refused."""
        run, found = Running(self.program, self.folder), []
        if not run.until_good(READY):
            print(f"not read: {run.refused}, {run.end()}", flush=True)
            return None
        while answer := run.tell(READ):
            if answer[0] == "GOOD":
                found.append(bytes.fromhex(answer[1]))
            elif answer[1][4:6] == "80":
                found.append(None)
            else:
                break
        run.end()
        return found

    def told(self):
        return [f"{block.hex()[:16]}{'' if acknowledged else '?'}" for block, acknowledged in self.saves]

    def is_there(self, found):
        """Whether each acknowledged save is found, and behind it nothing but what may be: of one that was not
        acknowledged nothing, its block, or both."""
        at = 0
        for block, acknowledged in self.saves:
            whole = (found or [])[at:at + 2] == [block, None]
            if not whole and acknowledged:
                return False
            at += 2 if whole else (found or [])[at:at + 1] == [block]
        return at == len(found or [])


class Store:
    """Saves are registrations of 64 hosts, each of which is kept over a loss of power."""

    def __init__(self, program, folder, block, chance):
        self.program, self.folder, self.block, self.chance = program, folder, block, chance
        # of each host the keys that it may have: the acknowledged one, or also one that was not acknowledged
        self.keys = {}

    def save(self, run, host):
        key = self.chance.randbytes(8)
        saved = run.is_good("5f060000000000001800", bytes(8) + key + bytes(4) + b"\x01" + bytes(3), host)
        self.keys[host] = {key} if saved else {key} | self.keys.get(host, {b""})
        return saved

    def size(self):
        return os.stat(os.path.join(self.folder, "drive1.pr")).st_size

    def work(self, refuses):
        """The saves and the fault. Returns how many saves behind it were acknowledged."""
        run = Running(self.program, self.folder)
        for host in range(1, 65):
            run.until_good(READY, host)
            self.save(run, host)
        # the save that meets the fault is to go beyond the file's last block
        frame = 4 + 9 * 64 + 5
        while (self.size() + 5 * frame) % self.block + frame <= self.block:
            self.save(run, 1)
        if not all(self.save(run, host) for host in range(1, 6)):
            raise Broken("a save before the fault was not acknowledged")
        refuses(True)
        self.save(run, 6)
        run.end()
        run = Running(self.program, self.folder)
        run.until_good(READY)
        run.end()
        refuses(False)
        run = Running(self.program, self.folder)
        acknowledged = sum(run.until_good(READY, host) and self.save(run, host) for host in range(7, 10))
        run.end()
        return acknowledged

    def read(self):
        """The keys that are found, of one host after another; None where the store is refused."""
        run = Running(self.program, self.folder)
        answer = run.tell(READ_KEYS) if run.until_good(READY) else []
        run.end()
        if answer[:1] != ["GOOD"]:
            return None
        data = bytes.fromhex(answer[1])
        return [data[at:at + 8] for at in range(8, len(data), 8)]

    def told(self):
        return [" or ".join(sorted(key.hex() for key in self.keys[host])) for host in sorted(self.keys)]

    def is_there(self, found):
        """Whether each host has a key that it may have."""
        return found is not None and len(found) == len(self.keys) and all(
            key in self.keys[host] for host, key in enumerate(found, 1))


def one_run(python, program, name, kind, chance):
    """Whether all is there, and how many saves behind the fault were acknowledged."""
    mounted = Mounted(python, name)
    try:
        mounted.made()
        folder = os.path.join(mounted.place, "library")
        os.mkdir(folder)
        with open(os.path.join(folder, "library.toml"), "w") as file:
            file.write(CONFIGURATION)
            # what nobody syncs may be gone behind the mount, and this file is not the program's
            file.flush()
            os.fsync(file.fileno())
        done = subprocess.run([program, "create", "--config", "library.toml"], cwd=folder, capture_output=True)
        if done.returncode:
            raise Broken("create failed")
        work = kind(program, folder, mounted.block, chance)
        acknowledged = work.work(mounted.refuses)
        mounted.unmount()
        mounted.mount()
        found = work.read()
        is_there = work.is_there(found)
        if not is_there:
            checks = [subprocess.run([program, "check", file], cwd=folder, capture_output=True).stdout
                      for file in ("t1.tape", "drive1.pr")]
            print(f"{name}: saved {work.told()}, found {found and [it and it.hex()[:16] for it in found]}, check says "
                  f"{checks}", flush=True)
        return is_there, acknowledged
    finally:
        mounted.gone()


def selftest():
    tape, store = Cartridge(None, None, 0, None), Store(None, None, 0, None)
    tape.saves = [(b"a", True), (b"b", False), (b"c", True)]
    store.keys = {1: {b"1"}, 2: {b"2", b"3"}}
    for found, is_there in (([b"a", None, b"c", None], True), ([b"a", None, b"b", b"c", None], True),
                            ([b"a", None, b"b", None, b"c", None], True), ([b"a", None, b"b", None], False),
                            ([b"a", None, bytes(1), None], False), ([b"a", None], False), (None, False),
                            ([b"a", None, b"c", None, b"d"], False), ([b"a", None, b"c"], False)):
        assert tape.is_there(found) == is_there, found
    for found, is_there in (([b"1", b"2"], True), ([b"1", b"3"], True), ([b"1", b"4"], False), ([b"1"], False),
                            ([b"3", b"2"], False), (None, False)):
        assert store.is_there(found) == is_there, found
    print("mended_faults: what is lost is found")


def python_with_fuse():
    for python in (sys.executable, "/usr/bin/python3"):
        for module in ("fusepy", "fuse"):
            if subprocess.run([python, "-c", f"import {module}; {module}.FUSE"], capture_output=True).returncode == 0:
                return python
    return None


def missing(name):
    """What a run over this file system lacks here; None where nothing."""
    _, system, _, maker = SYSTEMS[name]
    with open("/proc/filesystems") as file:
        known = [line.split()[-1] for line in file]
    for lacks, what in ((os.geteuid() != 0, "root"), (not os.path.exists("/dev/fuse"), "/dev/fuse"),
                        (not os.path.exists("/dev/loop-control"), "loop devices"),
                        (not shutil.which("losetup"), "losetup"), (not python_with_fuse(), "python3-fusepy"),
                        (not shutil.which(maker[0]), maker[0]), (system not in known, f"{system} in the system")):
        if lacks:
            return what
    return None


def main():
    words = argparse.ArgumentParser(description=__doc__, formatter_class=argparse.RawDescriptionHelpFormatter)
    words.add_argument("--program", default=PROVED)
    words.add_argument("--runs", type=int, default=40)
    words.add_argument("--seed", default="mended")
    words.add_argument("--selftest", action="store_true")
    words.add_argument("systems", nargs="*", metavar="FILESYSTEM", help=" ".join(SYSTEMS))
    words = words.parse_args()
    if words.selftest:
        return selftest()
    # what is mounted is unmounted then
    signal.signal(signal.SIGTERM, lambda *_: sys.exit(1))
    python, any_lost = python_with_fuse(), False
    for name in words.systems or SYSTEMS:
        lacks = missing(name)
        if lacks:
            print(f"{name}: did not run: there is no {lacks}", flush=True)
            continue
        for kind in (Cartridge, Store):
            lost, acknowledged, broken = [], 0, []
            for at in range(words.runs):
                chance = random.Random(f"{words.seed}/{name}/{kind.__name__}/{at}")
                try:
                    there, saves = one_run(python, os.path.abspath(words.program), name, kind, chance)
                except Broken as why:
                    broken.append(str(why))
                    continue
                acknowledged += saves
                lost += [] if there else [at]
            any_lost = any_lost or bool(lost) or len(broken) == words.runs
            print(f"{name}, {kind.__name__.lower()}: {words.runs} runs, {acknowledged} saves acknowledged behind the "
                  f"fault, {len(lost)} runs lost something", lost or "",
                  f"; {len(broken)} broke off: {broken[0]}" if broken else "", flush=True)
    return 1 if any_lost else 0


if __name__ == "__main__":
    sys.exit(main())
