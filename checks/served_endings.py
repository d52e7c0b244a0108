#!/usr/bin/env python3
"""Runs `vtl serve` to each of its endings, and compares status, answers and standard error.

An exchange that is cut off behind each of its bytes, and one that comes in random pieces; each frame that is refused,
behind two that are answered; a reader and a writer that fail; a front end that goes away behind each byte of the
answers, of which nothing that was acknowledged may be lost; a block that a flusher stores with no further command;
inventories and moves; a configuration that is refused, and files that are missing. --program PATH: another program than
the proved one."""
import argparse
import os
import random
import struct
import subprocess
import sys
import tempfile
import time

from served_frames import (ANSWERS, EXCHANGE, EXPLAINED, INVENTORY, LONG, MARK, MOVE, READY, REFUSED, REQUESTS, TWO,
                           command, frame, good)

TOP = os.path.dirname(os.path.dirname(os.path.abspath(__file__)))
PROVED = os.path.join(TOP, "crates", "vtl", "out", "vtl")
DEVICE = b"vtl: device fault\n"
CONFIG = b"""cartridge = [{ barcode = "T00001L6", file = "t1.tape", capacities = [4096], home = 1 }]
drive = [{ number = 1, reservations = "d1.pr" }]
"""
PIECES = 10
# Seconds in which a flusher, which rests ten milliseconds at most, stores a block: each of five times, and the fastest.
LATEST, SOON = 20, 1


def refused(number):
    return b"vtl: frame %d refused\n" % number


class Ends:
    def __init__(self, program):
        self.program, self.wrong, self.count = program, 0, 0

    def see(self, what, wanted, found):
        self.count += 1
        if wanted != found:
            self.wrong += 1
            print(f"{what}: {found} in the place of {wanted}")

    def ended(self, requests=b"", words=(), room=None, stdin=None, stdout=None):
        """Status, answers and standard error."""
        given = {"input": requests} if stdin is None else {"stdin": stdin}
        done = subprocess.run([self.program, "serve", *words], cwd=room, stdout=stdout or subprocess.PIPE,
                              stderr=subprocess.PIPE, **given)
        return done.returncode, done.stdout or b"", done.stderr

    def cut_off(self):
        whole, ends = b"", {0: (0, b"")}
        for at, (request, answer) in enumerate(EXCHANGE):
            for length in range(1, len(request)):
                ends[len(whole) + length] = (at, ends[len(whole)][1])
            ends[len(whole) + len(request)] = (at + 1, ends[len(whole)][1] + answer)
            whole += request
        boundaries = {0} | {len(b"".join(it for it, _ in EXCHANGE[:at + 1])) for at in range(len(EXCHANGE))}
        for length, (frames, answers) in ends.items():
            wanted = (0, answers, b"") if length in boundaries else (1, answers, refused(frames + 1))
            self.see(f"an exchange cut off behind {length} bytes", wanted, self.ended(whole[:length]))

    def in_pieces(self):
        """Each piece is given to the system by itself, some of them late."""
        requests, answers = (b"".join(sides) for sides in zip(*LONG))
        for seed in range(PIECES):
            chance, at = random.Random(seed), 0
            child = subprocess.Popen([self.program, "serve"], bufsize=0, stdin=subprocess.PIPE, stdout=subprocess.PIPE,
                                     stderr=subprocess.PIPE)
            while at < len(requests):
                count = chance.randint(1, chance.choice((2, 20, 100_000)))
                at += child.stdin.write(requests[at:at + count])
                time.sleep(chance.choice((0, 0, 0.002)))
            found = child.communicate()
            self.see(f"an exchange in pieces, seed {seed}", (0, answers, b""), (child.returncode, *found))

    def refused(self):
        requests, answers = (b"".join(sides) for sides in zip(*TWO))
        for what, bytes_of in REFUSED:
            self.see(what, (1, answers, refused(3)), self.ended(requests + bytes_of))
        self.see("a first frame", (1, b"", refused(1)), self.ended(b"x"))
        # what stands behind a frame that is refused is not read as another
        self.see("a frame behind one that is refused", (1, answers, refused(3)),
                 self.ended(requests + frame(9, 1, 1, READY) + REQUESTS))

    def explained(self):
        requests, answers = (b"".join(sides) for sides in zip(*TWO))
        for bytes_of, what, at, allowed in EXPLAINED:
            place = "frame 3" if at is None else f"frame 3, byte {at} of its header"
            lines = (f"refused: {what}\nwhere: {place}\nallowed: {allowed}\n"
                     "to do: correct what sends the frame; those before it were answered\n")
            self.see(f"why {what} is refused", (1, answers, refused(3) + lines.encode()),
                     self.ended(requests + bytes_of, ["--explain"]))
        lines = (b"refused: the input ends inside the frame\nwhere: frame %d\nallowed: an end behind a frame\n"
                 b"to do: correct what sends the frame; those before it were answered\n")
        self.see("why a first frame is refused", (1, b"", refused(1) + lines % 1), self.ended(b"x", ["--explain"]))
        self.see("why a sixth frame is refused", (1, ANSWERS, refused(6) + lines % 6),
                 self.ended(REQUESTS + b"x", ["--explain"]))
        self.see("nothing is explained where nothing is refused", (0, ANSWERS, b""),
                 self.ended(REQUESTS, ["--explain"]))

    def streams(self):
        folder, full = os.open(TOP, os.O_RDONLY), os.open("/dev/full", os.O_WRONLY)
        read_end, closed = os.pipe()
        os.close(read_end)
        self.see("no frame", (0, b"", b""), self.ended())
        self.see("an exchange", (0, ANSWERS, b""), self.ended(REQUESTS))
        self.see("a reader that fails", (2, b"", DEVICE), self.ended(stdin=folder))
        self.see("a writer that is full", (2, b"", DEVICE), self.ended(REQUESTS, stdout=full))
        self.see("a writer that is closed", (2, b"", DEVICE), self.ended(REQUESTS, stdout=closed))
        for it in (folder, full, closed):
            os.close(it)

    def goes_away(self):
        """A front end sends an exchange with three marks, reads so many bytes of the answers and goes away. What it had
        an answer to is there at the next start."""
        sent = EXCHANGE[:3] + [(command(bytes.fromhex("0a0000000300"), b"def", 12), good(12)),
                               (command(MARK, tag=13), good(13)), EXCHANGE[3]]
        answers = b"".join(it for _, it in sent)
        stored = [len(b"".join(it for _, it in sent[:count])) for count in (3, 5)]
        for length in range(len(answers) + 1):
            with tempfile.TemporaryDirectory(prefix="vtl-served-") as room:
                with open(os.path.join(room, "library.toml"), "wb") as file:
                    file.write(CONFIG)
                run = lambda *words: subprocess.run([self.program, *words], cwd=room, capture_output=True)
                run("create", "--config", "library.toml")
                child = subprocess.Popen([self.program, "serve", "--config", "library.toml"], cwd=room,
                                         stdin=subprocess.PIPE, stdout=subprocess.PIPE, stderr=subprocess.PIPE)
                child.stdin.write(b"".join(it for it, _ in sent))
                child.stdin.flush()
                found = child.stdout.read(length) if length else b""
                child.stdout.close()
                child.stdin.close()
                said = child.stderr.read()
                what = f"a front end that goes away behind {length} bytes"
                self.see(what, (answers[:length], True), (found, (child.wait(), said) in ((0, b""), (2, DEVICE))))
                check = run("check", "t1.tape").stdout
                objects = int(check.split(b" objects ")[1].split()[0]) if b" objects " in check else -1
                self.see(f"{what}: what was acknowledged is stored", True,
                         objects >= 2 * sum(length >= it for it in stored))

    def kept_open(self, room):
        """Writes a block without a filemark, waits for its frame with the input open, does the same again, and kills
        the program. The seconds that the slower of the two took."""
        child = subprocess.Popen([self.program, "serve", "--config", "library.toml"], cwd=room, bufsize=0,
                                 stdin=subprocess.PIPE, stdout=subprocess.PIPE)
        file, took = os.path.join(room, "t1.tape"), []
        for sent in ([EXCHANGE[0], EXCHANGE[1]], [EXCHANGE[1]]):
            before, answers, found = os.path.getsize(file), b"".join(it for _, it in sent), b""
            child.stdin.write(b"".join(it for it, _ in sent))
            while len(found) < len(answers):
                found += child.stdout.read(len(answers) - len(found)) or b"an end"
            begun = time.monotonic()
            while os.path.getsize(file) < before + 18 and time.monotonic() - begun < LATEST:
                time.sleep(0.001)
            took.append(time.monotonic() - begun)
            self.see("what is answered before a flusher's turn", answers, found)
        time.sleep(0.05)
        child.kill()
        child.communicate()
        return max(took)

    def waits(self):
        """What waits is stored by a flusher's turn, with no command behind it and the input open. So is the next."""
        took = []
        for _ in range(5):
            with tempfile.TemporaryDirectory(prefix="vtl-served-") as room:
                with open(os.path.join(room, "library.toml"), "wb") as file:
                    file.write(CONFIG)
                run = lambda *words: subprocess.run([self.program, *words], cwd=room, capture_output=True)
                run("create", "--config", "library.toml")
                took.append(self.kept_open(room))
                self.see("a block that waited is stored by a flusher", True,
                         b"partition 0 objects 2 used 38\n" in run("check", "t1.tape").stdout)
        self.see("the fastest of five turns comes soon", True, min(took) < SOON)

    def inventories(self):
        """What is in each drive and slot, before a move and behind it."""
        config = b"""cartridge = [{ barcode = "T00001L6", file = "t1.tape", capacities = [4096], home = 2 },
                       { barcode = "A", file = "t2.tape", capacities = [4096], home = 1256 }]
drive = [{ number = 2, reservations = "d2.pr" }, { number = 1, reservations = "d1.pr" }]
"""
        def inventory(tag, places):
            at = {**{number: b"" for number in (1, 2, *range(1001, 1257))}, **places}
            data = b"".join(number.to_bytes(4, "big") + (code.ljust(16) if code else bytes(16))
                            for number, code in sorted(at.items()))
            return frame(INVENTORY, 0, 0, b"", data, tag)

        def move(tag, *ends):
            return frame(MOVE, 0, 0, struct.pack(">II", *ends), b"", tag)

        wrong = bytes.fromhex("700005000000000a00000000210100000000")
        requests = [(frame(INVENTORY, 0, 0, tag=1), inventory(1, {2: b"T00001L6", 1256: b"A"})),
                    (move(2, 1256, 1), frame(MOVE, 0, 0, b"", b"", 2)),
                    (move(3, 1, 3), frame(MOVE, 0, 2, wrong, b"", 3)),
                    (frame(INVENTORY, 0, 0, tag=4), inventory(4, {2: b"T00001L6", 1: b"A"})),
                    (move(5, 2, 1001), frame(MOVE, 0, 0, b"", b"", 5)),
                    (frame(INVENTORY, 0, 0, tag=6), inventory(6, {1001: b"T00001L6", 1: b"A"}))]
        with tempfile.TemporaryDirectory(prefix="vtl-served-") as room:
            with open(os.path.join(room, "library.toml"), "wb") as file:
                file.write(config)
            answers = b"".join(it for _, it in requests)
            self.see("inventories", (0, answers, b""), self.ended(
                b"".join(it for it, _ in requests), ["--memory", "--config", "library.toml"], room))

    def over_files(self):
        with tempfile.TemporaryDirectory(prefix="vtl-served-") as room:
            def config(content):
                with open(os.path.join(room, "library.toml"), "wb") as file:
                    file.write(content)
            words = ["--config", "library.toml"]
            self.see("no configuration", (2, b"", DEVICE), self.ended(REQUESTS, words, room))
            config(b"drive = 1\n")
            self.see("a configuration that is refused", (1, b"", b"vtl: configuration refused\n"),
                     self.ended(REQUESTS, words, room))
            config(CONFIG)
            self.see("files that are missing", (2, b"", DEVICE), self.ended(REQUESTS, words, room))
            self.see("no file is needed in memory", (0, ANSWERS, b""),
                     self.ended(REQUESTS, ["--memory", *words], room))
            subprocess.run([self.program, "create", *words], cwd=room, capture_output=True)
            self.see("over files", (0, ANSWERS, b""), self.ended(REQUESTS, words, room))
            self.see("what was written before a refused frame is stored", (1, ANSWERS, refused(6)),
                     self.ended(REQUESTS + b"x", words, room))
            found = subprocess.run([self.program, "check", "t1.tape"], cwd=room, capture_output=True).stdout
            self.see("what stands in the file then", True, b"partition 0 objects 2 used 35\n" in found)


def wrong_in(program):
    """How many endings are not as they should be."""
    ends = Ends(program)
    for part in (ends.streams, ends.refused, ends.explained, ends.cut_off, ends.in_pieces, ends.inventories,
                 ends.over_files, ends.goes_away, ends.waits):
        part()
    print(f"served endings: {ends.count} looked at, {ends.wrong} are not as they should be")
    return ends.wrong


def main():
    parser = argparse.ArgumentParser()
    parser.add_argument("--program", default=PROVED)
    return 1 if wrong_in(os.path.abspath(parser.parse_args().program)) else 0


if __name__ == "__main__":
    sys.exit(main())
