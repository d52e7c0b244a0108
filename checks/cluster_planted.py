#!/usr/bin/env python3
"""Programs in the place of `vtl` that are wrong in one thing each: rounds have to report every one of them.

  cluster_planted.py MISTAKE PROGRAM WORD..     the command of `vtl` with these words, with the mistake

`vtl serve` runs behind it, and frames are changed on their way; it is killed where this program is."""
import contextlib
import ctypes
import fcntl
import os
import shutil
import signal
import subprocess
import sys
import threading
import time

from cluster_hosts import FENCED, TO_END, WRITER
from cluster_rounds import CUT_IDLE, KILLED, ROUNDS_OF_A_LIBRARY
from front_end import COMMAND, HEADER, read_whole

WRITE, MARKS, RESERVE_OUT = 0x0A, 0x10, 0x5F
MARK_BACK, ERASE, LATE = map(bytes.fromhex, ("1101ffffff00", "190100000000", "0a0000000400"))
# Keys of sense data that say that a device or a medium failed, and the status of CHECK CONDITION.
FAILED, CHECK = (0x3, 0x4), 0x02
# The seconds between two copies, where the store copies later; where a start finds a lock, the status.
LATER, IN_USE, TRIES = 3, 2, 3
NONE, DROPPED, ADDED, FORGOTTEN, OPEN, CHANGED, TAKEN, BESIDE, END, COPIED = (
    "nothing", "a start drops the last filemark", "a start adds a block", "reservations are forgotten",
    "the fence is open", "a block is changed", "a refused filemark is acknowledged", "two serve", "an end fails",
    "the store copies later")
# The fault that shows each one, and what the judge says of it.
SHOWN = {NONE: (KILLED, None), DROPPED: (KILLED, "objects were acknowledged"), ADDED: (KILLED, "is another one"),
         FORGOTTEN: (KILLED, "drive 1 has ([], None)"), OPEN: (KILLED, "that was fenced off was answered GOOD"),
         CHANGED: (KILLED, "is another one"), TAKEN: (CUT_IDLE, "the old process acknowledged a filemark"),
         BESIDE: (KILLED, "a start beside a library"), END: (KILLED, "an end in good order had status 1"),
         COPIED: (KILLED, "objects were acknowledged")}


def dies_with_this():
    ctypes.CDLL(None).prctl(1, signal.SIGKILL)


class Wrong:
    """A `vtl serve` with a mistake."""

    def __init__(self, mistake, program, words):
        self.mistake, self.blocks, self.own = mistake, 0, {}
        self.child = subprocess.Popen([program, *words], bufsize=0, stdin=subprocess.PIPE, stdout=subprocess.PIPE,
                                      preexec_fn=dies_with_this)

    def asked(self, host, drive, block, data):
        """A command on its way to the library."""
        if self.mistake == FORGOTTEN and block[0] == RESERVE_OUT and len(data) == 24:
            data = data[:20] + bytes(4)
        if self.mistake == CHANGED and block[0] == WRITE:
            self.blocks += 1
            data = bytes([data[0] ^ 1]) + data[1:] if self.blocks == 2 else data
        if self.mistake == OPEN and host == FENCED and block[0] == WRITE:
            host = WRITER
        return host, drive, block, data

    def answered(self, command, status, sense):
        """An answer on its way back."""
        if self.mistake == TAKEN and command == MARKS and status == CHECK and sense[2] & 0x0F in FAILED:
            return 0, b""
        return status, sense

    def send(self, host, drive, block, data, tag):
        self.child.stdin.write(HEADER.pack(COMMAND, host, drive, len(block), len(data), tag) + block + data)

    def begin(self):
        """Commands of its own, before any of a host's."""
        for block in {DROPPED: (TO_END, MARK_BACK, ERASE), ADDED: (TO_END, LATE)}.get(self.mistake, ()):
            while self.is_attention(block):
                pass

    def is_attention(self, block):
        """Whether the library answers a command of its own by a unit attention condition."""
        self.send(WRITER, 1, block, b"late" if block is LATE else b"", 0)
        head = read_whole(self.child.stdout, HEADER.size)
        if len(head) < HEADER.size:
            return False
        _, _, status, sense, length, _ = HEADER.unpack(head)
        behind = read_whole(self.child.stdout, sense + length)
        return status == CHECK and behind[2] & 0x0F == 0x6

    def commands(self):
        """Sends on what hosts ask for, up to the end of the input."""
        read = open(0, "rb", buffering=0, closefd=False)
        with contextlib.suppress(OSError):
            while len(header := read_whole(read, HEADER.size)) == HEADER.size:
                _, host, drive, block, data, tag = HEADER.unpack(header)
                given = read_whole(read, block), read_whole(read, data)
                self.own[tag] = host, given[0][0]
                self.send(*self.asked(host, drive, *given), tag)
        with contextlib.suppress(OSError):
            self.child.stdin.close()

    def serve(self):
        """The status of a `vtl serve` that is served this way."""
        with contextlib.suppress(OSError):
            self.begin()
        threading.Thread(target=self.commands, daemon=True).start()
        out, read = open(1, "wb", buffering=0, closefd=False), self.child.stdout
        while len(header := read_whole(read, HEADER.size)) == HEADER.size:
            kind, _, status, sense, length, tag = HEADER.unpack(header)
            behind, data = read_whole(read, sense), read_whole(read, length)
            host, command = self.own.pop(tag)
            status, behind = self.answered(command, status, behind)
            frame = HEADER.pack(kind, host, status, len(behind), len(data), tag) + behind + data
            while frame:
                frame = frame[out.write(frame):]
        status = self.child.wait()
        return 1 if self.mistake == END and status == 0 else status


def copied(source, target):
    for name in os.listdir(source):
        shutil.copy(os.path.join(source, name), target)


def is_held(file):
    """Whether another one has the lock of a file; it is taken otherwise."""
    try:
        fcntl.flock(file, fcntl.LOCK_EX | fcntl.LOCK_NB)
        return False
    except OSError:
        return True


def serve_a_copy(mistake, program, words):
    """Serves a copy of the machine's own. Where the store copies later it is copied back now and then, under the lock
    of the store's file; where two serve it is lost."""
    store, own = os.getcwd(), f"/run/copy-{os.path.basename(os.getcwd())}"
    shutil.rmtree(own, ignore_errors=True)
    os.makedirs(own)
    copied(store, own)
    os.chdir(own)
    if mistake == COPIED:
        threading.Thread(target=copies, args=(own, store), daemon=True).start()
    status = Wrong(mistake, program, words).serve()
    if mistake == COPIED:
        copied(own, store)
    return status


def copies(own, store):
    while True:
        time.sleep(LATER)
        with contextlib.suppress(OSError):
            copied(own, store)


def main(mistake, program, *words):
    if words[:1] != ("serve",):
        os.execv(program, [program, *words])
    with contextlib.nullcontext() if mistake not in (BESIDE, COPIED) else open("t1.tape", "rb") as file:
        if mistake == COPIED and is_held(file):
            return IN_USE
        if mistake == COPIED or mistake == BESIDE and is_held(file):
            return serve_a_copy(mistake, program, words)
    return Wrong(mistake, program, words).serve()


def planted(room, mistake, program):
    """A file that is started in the place of the program."""
    path = os.path.join(room, "wrong-" + mistake.replace(" ", "-"))
    with open(path, "w", encoding="utf-8") as file:
        file.write(f'#!/bin/sh\nexec {sys.executable} {os.path.abspath(__file__)} "{mistake}" {program} "$@"\n')
    os.chmod(path, 0o755)
    return path


def passed(rounds, room, judge):
    """The mistakes that rounds did not report; and a round with none, if something was wrong in it."""
    program = rounds.program
    for mistake, (kind, said) in SHOWN.items():
        rounds.program, found = planted(room, mistake, program), []
        rounds.made += -rounds.made % ROUNDS_OF_A_LIBRARY
        for _ in range(1 if said is None else TRIES):
            found += judge(rounds.round(kind))
            if found:
                break
        shown = [it for it in found if said and said in it] or found
        print(f"{mistake}: {'; '.join(shown) or 'nothing was wrong'}", flush=True)
        if not any(said in it for it in found) if said else found:
            yield mistake
        rounds.served.end()
        rounds.served, rounds.made = None, rounds.made + 1


if __name__ == "__main__":
    sys.exit(main(*sys.argv[1:]))
