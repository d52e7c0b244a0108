"""Hosts of a library that is served on a machine of a cluster: what they send, and what they were acknowledged."""
import contextlib
import hashlib
import os
import signal
import subprocess
import threading
import time

from cluster_machines import child_of
from front_end import COMMAND, HEADER, read_whole, text_of

MARK, READY, REWIND, READ, TO_END, LOAD, UNLOAD = map(bytes.fromhex, (
    "100000000100", "000000000000", "010000000000", "080210000000", "110300000000", "1b0000000100", "1b0000000000"))
READ_KEYS, READ_RESERVATION = bytes.fromhex("5e00000000000010ff00"), bytes.fromhex("5e010000000000001800")
REGISTER, RESERVE, PREEMPT = 6, 1, 4
WRITER, KEEPER, FENCED, WATCHER = 1, 2, 3, 64
BURST = 100
END_OF_DATA, AT_MARK, EARLY = "8, 00/05", "0, 00/01", "0, 00/02"


def sense_of(answer):
    """The key, code and qualifier of an answer, as FORMATS.md writes them; other answers as they are."""
    if answer is None or not answer.startswith("CHECK"):
        return "no answer" if answer is None else answer.split()[0]
    sense = bytes.fromhex(answer.split()[1])
    deferred = "deferred " if sense[0] & 0x7F == 0x71 else ""
    return f"{deferred}{sense[2] & 0x0F:X}, {sense[12]:02X}/{sense[13]:02X}"


def block_of(serial):
    """The block of a number: its bytes and their count go by the number alone."""
    seed = hashlib.sha256(b"block %d" % serial).digest()
    return (b"%016d" % serial + seed * (1 + seed[0] * seed[1] // 64))[:16 + seed[0] * seed[1] % 49_152]


def write_of(data):
    """A WRITE and its data."""
    return b"\x0a\x00" + len(data).to_bytes(3, "big") + b"\x00", data


class Served:
    """A `vtl serve` on a machine, or what leads to one, and the answers that it gave, by their tags."""

    def __init__(self, machine, words, folder="/"):
        self.process = machine.popen(*words, folder=folder, bufsize=0, stdin=subprocess.PIPE, stdout=subprocess.PIPE,
                                     stderr=subprocess.DEVNULL)
        self.answers, self.news, self.has_ended = {}, threading.Condition(), False
        self.tag, self.sending, self.machine = 0, threading.Lock(), machine
        self.reader = threading.Thread(target=self.read, daemon=True)
        self.reader.start()

    def read(self):
        stream = self.process.stdout
        while len(header := read_whole(stream, HEADER.size)) == HEADER.size:
            _, _, status, sense, length, tag = HEADER.unpack(header)
            behind = read_whole(stream, sense), read_whole(stream, length)
            if sum(map(len, behind)) < sense + length:
                break
            with self.news:
                self.answers[tag] = text_of(status, *behind).decode()
                self.news.notify_all()
        with self.news:
            self.has_ended = True
            self.news.notify_all()

    def send(self, block, data=b"", host=WRITER, drive=1):
        """Sends a command, and gives its tag."""
        with self.sending:
            self.tag += 1
            tag = self.tag
            frame = HEADER.pack(COMMAND, host, drive, len(block), len(data), tag) + block + data
            with contextlib.suppress(OSError):
                self.process.stdin.write(frame)
        return tag

    def answer(self, tag, seconds=120):
        """The answer to a command; None where the program has ended or has not answered in time."""
        with self.news:
            self.news.wait_for(lambda: tag in self.answers or self.has_ended, seconds)
            return self.answers.get(tag)

    def ask(self, *words, seconds=120, **more):
        return self.answer(self.send(*words, **more), seconds)

    def greeted(self, *words, **more):
        """The answer behind the unit attention conditions that a host is due."""
        while sense_of(answer := self.ask(*words, **more)).startswith("6, "):
            pass
        return answer

    def order(self, action, key, other, host, drive, kind=5, seconds=120):
        """The answer to a PERSISTENT RESERVE OUT with APTPL."""
        block = bytes([0x5F, action, kind, 0, 0, 0, 0, 0, 24, 0])
        data = key.to_bytes(8, "big") + other.to_bytes(8, "big") + bytes(4) + b"\1" + bytes(3)
        return self.greeted(block, data, host=host, drive=drive, seconds=seconds)

    def kill(self):
        """Kills the program itself, not only the process that put it into the machine's namespaces."""
        with contextlib.suppress(OSError):
            os.kill(child_of(self.process.pid), signal.SIGKILL)

    def end(self, seconds=120):
        """The status at the end of the input; None where the program does not end."""
        with contextlib.suppress(OSError):
            self.process.stdin.close()
        with contextlib.suppress(subprocess.TimeoutExpired):
            return self.process.wait(seconds)
        return None

    def objects(self):
        """The objects of the tape in drive 1 from its beginning; the answer where it cannot be read to its end."""
        if (answer := self.greeted(REWIND)) != "GOOD":
            return f"REWIND: {sense_of(answer)}"
        found = []
        while True:
            answer = self.ask(READ)
            if sense_of(answer) == END_OF_DATA:
                return found
            if sense_of(answer) == AT_MARK:
                found.append(MARK)
            elif answer and answer.startswith("GOOD "):
                found.append(bytes.fromhex(answer[5:]))
            else:
                return f"READ {len(found)}: {sense_of(answer)}"

    def keys(self, drive, host):
        """The registered keys of a drive, and the key and the type of its reservation, as numbers."""
        keys, held = (self.greeted(block, host=host, drive=drive) for block in (READ_KEYS, READ_RESERVATION))
        if not (keys and keys.startswith("GOOD ") and held and held.startswith("GOOD ")):
            return None
        keys, held = bytes.fromhex(keys[5:]), bytes.fromhex(held[5:])
        names = [int.from_bytes(keys[at:at + 8], "big") for at in range(8, len(keys), 8)]
        return names, (int.from_bytes(held[8:16], "big"), held[21]) if len(held) > 8 else None


class Writer(threading.Thread):
    """Host 1 writes blocks and filemarks to drive 1, one command at a time, until it is stopped or refused."""

    def __init__(self, served, serial):
        super().__init__(daemon=True)
        self.served, self.serial, self.sent, self.safe = served, serial, [], 0
        self.is_stopped, self.refusal, self.slowest = False, None, 0

    def run(self):
        while not self.is_stopped and self.refusal is None:
            self.serial += 1
            self.give(block_of(self.serial), False)
            if self.serial % 4 == 0 and self.refusal is None:
                self.give(MARK, True)
            # so that a long fault leaves no long tape
            time.sleep(0 if len(self.sent) < BURST else 0.25)

    def give(self, item, is_mark):
        self.sent.append(item)
        begun = time.monotonic()
        answer = self.served.ask(*([MARK] if is_mark else write_of(item)), seconds=400)
        self.slowest = max(self.slowest, time.monotonic() - begun)
        if sense_of(answer) not in ("GOOD", EARLY):
            self.refusal = sense_of(answer)
        elif is_mark:
            self.safe = len(self.sent)


class Keeper(threading.Thread):
    """Host 2 changes its key at drive 2, with APTPL, until it is stopped or refused."""

    def __init__(self, served, key):
        super().__init__(daemon=True)
        self.served, self.given, self.kept, self.is_stopped, self.refusal = served, [key], 0, False, None

    def run(self):
        while not self.is_stopped and self.refusal is None:
            self.given.append(self.given[-1] + 1)
            answer = self.served.order(REGISTER, 0, self.given[-1], KEEPER, 2, seconds=400)
            if answer == "GOOD":
                self.kept = len(self.given) - 1
            else:
                self.refusal = sense_of(answer)
            time.sleep(0.02)
