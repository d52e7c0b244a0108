#!/usr/bin/env python3
"""Frames on standard input, answered over iSCSI: each host of a frame is an initiator of its own, which logs in at its
first command, and loads the cartridge in drive 1 if that is host 1. It ends where a connection does.

  cluster_initiator.py TESTS ADDRESS PORT      TESTS: the folder of the front end's own test initiator"""
import os
import queue
import struct
import sys
import threading

HEADER = struct.Struct(">BBBBII4x")
READY, LOAD, NOT_READY = bytes(6), bytes.fromhex("1b0000000100"), 0x2
HOSTS, SECONDS = (1, 2, 3, 64), 400


def access():
    """The front end's file of the names and secrets of these hosts."""
    return "".join(f'[[host]]\nname = "{name_of(host)}"\nuser = "host{host}"\nsecret = "{secret_of(host)}"\n'
                   for host in HOSTS)


def name_of(host):
    return f"iqn.2000-01.example:host{host}"


def secret_of(host):
    return f"the phrase of host {host}"


def length_of(block):
    """How many bytes the host has room for."""
    if block[0] == 0x08:
        return int.from_bytes(block[2:5], "big")
    return int.from_bytes(block[7:9], "big") if block[0] == 0x5E else 0


class Host(threading.Thread):
    """A host's session: its commands one after the other."""
    writing = threading.Lock()

    def __init__(self, number, initiator, place):
        super().__init__(daemon=True)
        self.number, self.asked = number, queue.Queue()
        self.log_in = lambda: initiator(place[1], name_of(number), address=place[0], seconds=SECONDS,
                                        chap=(f"host{number}", secret_of(number), "7"))

    def run(self):
        try:
            session = self.log_in()
            if self.number == 1 and (answer := session.passes(1, READY)).status and answer.sense[2] & 15 == NOT_READY:
                session.passes(1, LOAD)
            while True:
                drive, block, data, tag = self.asked.get()
                answer = session.command(drive, block, data, length_of(block))
                head = HEADER.pack(1, self.number, answer.status, len(answer.sense), len(answer.data), tag)
                with Host.writing:
                    sys.stdout.buffer.write(head + answer.sense + answer.data)
                    sys.stdout.buffer.flush()
        except Exception as error:  # whatever ends a session ends the front end's connection
            print(f"host {self.number}: {error!r}", file=sys.stderr, flush=True)
            os._exit(1)


def main(tests, address, port):
    sys.path.insert(0, tests)
    from initiator import Initiator  # noqa: PLC0415
    hosts, read = {}, sys.stdin.buffer.read
    while len(header := read(HEADER.size)) == HEADER.size:
        _, number, drive, block, data, tag = HEADER.unpack(header)
        if number not in hosts:
            hosts[number] = Host(number, Initiator, (address, int(port)))
            hosts[number].start()
        hosts[number].asked.put((drive, read(block), read(data), tag))
    os._exit(0)


if __name__ == "__main__":
    main(*sys.argv[1:])
