"""A library in a folder of its own, and the runs of a program over it, in which a call may end otherwise (faults.c)."""
import collections
import os
import shutil
import subprocess
import tempfile

import cartridge_files
from cartridge_files import content
from fault_script import FIRST, SCRIPT, SECOND
from unproved import words_of

STORE = "DRIVE1"
FILES = {FIRST: "1.tape", SECOND: "2.tape", STORE: "drive1.pr"}
# the second files of cartridges too, which a program without `vtl reclaim` does not have
EACH_FILE = [*FILES.values(), *(FILES[name] + cartridge_files.SECOND for name in (FIRST, SECOND))]
CONFIG = "".join(f'[[cartridge]]\nbarcode = "{name}"\nfile = "{FILES[name]}"\n'
                 f"capacities = [65_536]\nhome = {home}\n"
                 for name, home in [(FIRST, 1), (SECOND, 1001)]) + "[[drive]]\nnumber = 1\nreservations = "

Run = collections.namedtuple("Run", "status out err calls name")


class Room:
    """A folder with a library, of which each call has its own."""

    def __init__(self, tools, pristine):
        self.program, self.shim = tools
        self.room = tempfile.TemporaryDirectory(prefix="vtl-faults-")
        self.path = os.path.join(self.room.name, "library")
        shutil.copytree(pristine, self.path)

    def run(self, words, script="", kind=None, at=0):
        told = os.path.join(self.room.name, "told")
        more = {"LD_PRELOAD": self.shim, "FAULTS": kind, "FAULTS_AT": str(at), "FAULTS_TOLD": told} if kind else {}
        with tempfile.TemporaryFile() as given:
            given.write(script.encode())
            given.seek(0)
            done = subprocess.run([*words_of(self.program), *words], cwd=self.path, stdin=given, stdout=subprocess.PIPE,
                                  stderr=subprocess.PIPE, env={**os.environ, **more}, timeout=60)
        calls, name, _ = content(told).decode().split() if kind else (0, "", 0)
        return Run(done.returncode, done.stdout.decode(), done.stderr.decode(), int(calls), name)

    def sides(self):
        return {name: content(os.path.join(self.path, file)) for name, file in FILES.items()}


def made(tools, folder):
    """A folder with the configurations alone, one with new files, and one with files that were written to."""
    bare, new, used = (os.path.join(folder, name) for name in ("bare", "new", "used"))
    os.mkdir(bare)
    for config, store in (("lib", "drive1.pr"), ("reader", "reader1.pr")):
        with open(os.path.join(bare, f"{config}.toml"), "w", encoding="utf-8") as file:
            file.write(f'{CONFIG}"{store}"\n')
    whole = "".join(f"{line.text}\n" for line in SCRIPT)
    for path, before, words, script in ((new, bare, ["create"], ""), (used, new, ["run"], whole)):
        room = Room(tools, before)
        with room.room:
            for config in ("lib", "reader") if path == new else ("lib",):
                room.run([*words, "--config", f"{config}.toml"], script)
            shutil.copytree(room.path, path)
    return bare, new, used
