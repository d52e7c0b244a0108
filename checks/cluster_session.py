"""What the hosts of a library do in a round, and what they know from round to round."""
import random

from cluster_hosts import (FENCED, KEEPER, MARK, PREEMPT, REGISTER, RESERVE, TO_END, WATCHER, WRITER, Keeper, Writer,
                           block_of, sense_of, write_of)

CONFIG = """cartridge = [{ barcode = "T00001L6", file = "t1.tape", capacities = [1_099_511_627_776], home = 1 }]
drive = [{ number = 1, reservations = "d1.pr" }, { number = 2, reservations = "d2.pr" }]
"""
MAKE = 'mkdir "$1" && printf %s "$0" > "$1"/library.toml && cd "$1" && exec "$2" create --config library.toml'
KEY, FENCED_KEY = 0xA1, 0xF1
# The numbers of blocks that are written behind a take-over begin here.
ADDED = 10**12


def wants(answer, found):
    if found != answer:
        raise OSError(f"the library answers {sense_of(found)} in the place of {answer}")


def make_library(machine, folder, program):
    """A new library of a cartridge and two drives in a folder of the store."""
    machine.ran("sh", "-c", MAKE, CONFIG, folder, program)


class Session:
    """The hosts of a library: what stands on its tape, and the key of host 2."""

    def __init__(self, seed):
        self.chance = random.Random(seed)
        self.objects, self.key, self.serial, self.added = [], 0, 0, ADDED

    def reserve(self, served):
        """Of a new library host 1 reserves drive 1, host 2 drive 2, both for registrants."""
        self.objects, self.key = [], self.key + 1_000_000
        for host, drive, key in ((WRITER, 1, KEY), (KEEPER, 2, self.key)):
            wants("GOOD", served.order(REGISTER, 0, key, host, drive))
            wants("GOOD", served.order(RESERVE, key, 0, host, drive))

    def begin(self, seen, served):
        """Fences host 3 off, and gives the hosts that are to write."""
        seen.before, seen.key = self.objects, KEY
        wants("GOOD", served.order(REGISTER, 0, FENCED_KEY, FENCED, 1))
        wants("GOOD", served.order(PREEMPT, KEY, FENCED_KEY, WRITER, 1))
        wants("GOOD", served.greeted(TO_END))
        return Writer(served, self.serial), Keeper(served, self.key)

    def look(self, seen, served):
        """Adds what a start shows to what was seen."""
        seen.fenced.append(sense_of(served.greeted(*write_of(b"abc"), host=FENCED)))
        seen.reservations.append([served.keys(drive, WATCHER) for drive in (1, 2)])
        seen.read.append(served.objects())

    def add(self, seen, served):
        """A few blocks and a filemark more, which are acknowledged."""
        wants("GOOD", served.greeted(TO_END))
        for _ in range(3):
            self.added += 1
            seen.more.append(block_of(self.added))
            wants("GOOD", served.ask(*write_of(seen.more[-1])))
        wants("GOOD", served.ask(MARK))
        seen.more.append(MARK)

    def note(self, seen, hosts):
        """What the hosts of the old process have sent, and had acknowledged, so far."""
        writer, keeper = hosts
        seen.safe, seen.sent, seen.slowest = writer.safe, list(writer.sent), writer.slowest
        seen.kept, seen.given = keeper.kept, list(keeper.given)
        seen.refusals = [host.refusal for host in hosts]
        self.serial = writer.serial

    def end(self, seen):
        """What the next round begins with."""
        self.objects = seen.read[-1]
        keys = (seen.reservations[-1][1] or ([], None))[0]
        self.key = keys[0] if keys else 0


def stop(hosts):
    for host in hosts:
        host.is_stopped = True
    for host in hosts:
        host.join()
