"""How fast one host is over a store, beside the disk of the same machine: marks, and blocks, by frames."""
import os
import time

from cluster_hosts import MARK, READY, Served, write_of
from cluster_session import make_library, wants

RUNS, MARKS, BLOCKS, BLOCK = 3, 100, 64, os.urandom(262_144)


def marks(served):
    """Blocks of a byte with a filemark behind each, in a second."""
    begun = time.monotonic()
    for _ in range(MARKS):
        wants("GOOD", served.ask(*write_of(b"x")))
        wants("GOOD", served.ask(MARK))
    return MARKS / (time.monotonic() - begun)


def blocks(served):
    """MB/s of blocks of 256 KiB with a filemark behind the last one."""
    begun = time.monotonic()
    for _ in range(BLOCKS):
        wants("GOOD", served.ask(*write_of(BLOCK)))
    wants("GOOD", served.ask(MARK))
    return BLOCKS * len(BLOCK) / (time.monotonic() - begun) / 1e6


def measured(store, network, program):
    """The best of three runs, taken in turns, over the store and over the disk."""
    machine = network.machine("client1", 11)
    folders = {"store": os.path.join(store.mount(machine), "speed"), "disk": os.path.join(machine.folder, "speed")}
    found = {name: {"marks": 0, "blocks": 0} for name in folders}
    served = {}
    for name, folder in folders.items():
        make_library(machine, folder, program)
        served[name] = Served(machine, [program, "serve", "--config", "library.toml"], folder)
        served[name].ask(READY)
    for _ in range(RUNS):
        for name, one in served.items():
            found[name]["marks"] = max(found[name]["marks"], marks(one))
            found[name]["blocks"] = max(found[name]["blocks"], blocks(one))
    for one in served.values():
        one.end()
    return {"store": store.name, "speed": found}
