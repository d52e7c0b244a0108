"""A process at the other end of two pipes, to which frames are sent, and the programs in C of this folder."""
import os
import struct
import subprocess
import sys

TOP = os.path.dirname(os.path.dirname(os.path.abspath(__file__)))
HEADER = struct.Struct(">BBBBII4x")


class Peer:
    """A process at the other end of two pipes. Answers are read to their end, and GOOD has to be their status."""
    pipe = -1

    def __init__(self, words, folder, **environment):
        self.process = subprocess.Popen(words, cwd=folder, stdin=subprocess.PIPE, stdout=subprocess.PIPE,
                                        pipesize=Peer.pipe, env={**os.environ, **environment})
        self.answers = self.process.stdout

    def send(self, block, data=b"", host=1, drive=1):
        self.process.stdin.write(HEADER.pack(1, host, drive, len(block), len(data), 0) + block + data)

    def flush(self):
        self.process.stdin.flush()

    def answer(self):
        _, _, status, sense, length, _ = HEADER.unpack(self.answers.read(HEADER.size))
        self.answers.read(sense)
        return status, self.answers.read(length)

    def exchange(self, block, data=b"", host=1, drive=1):
        self.send(block, data, host, drive)
        self.flush()
        return self.answer()

    def memory(self):
        with open(f"/proc/{self.process.pid}/status", encoding="utf-8") as file:
            return next(int(line.split()[1]) * 1024 for line in file if line.startswith("VmRSS"))

    def end(self):
        self.process.stdin.close()
        self.answers.close()
        if self.process.wait():
            sys.exit(f"status {self.process.returncode}")


def compiled(folder, source, *flags):
    path = os.path.join(folder, source.removesuffix(".c"))
    path += ".so" if "-shared" in flags else ""
    subprocess.run(["cc", "-O2", *flags, "-o", path, os.path.join(TOP, "bench", source)], check=True)
    return path
