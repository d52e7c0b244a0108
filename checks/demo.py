#!/usr/bin/env python3
"""Shows the commands of README's first page in a new folder, by a program that is built without its proofs, and
compares what they print with the examples' expected answers."""
import os
import shutil
import subprocess
import sys
import tempfile

import frames_owed
import unproved

EXAMPLES = os.path.join(unproved.TOP, "examples")
STEPS = [("create --config library.toml", None, "create.expected"),
         ("run --config library.toml", "01-backup.script", "01-backup.expected"),
         ("run --config library.toml", "02-append.script", "02-append.expected"),
         ("check daily1.tape", None, "02-append.check")]


def stored(name):
    with open(os.path.join(EXAMPLES, name), "rb") as file:
        return file.read()


def step(room, words, script, expected):
    """Whether the command printed what is expected."""
    print(f"\n$ vtl {words}" + (f" < {script}" if script else ""), flush=True)
    given = stored(script) if script else b""
    done = subprocess.run([unproved.STARTED, *words.split()], cwd=room, input=given, stdout=subprocess.PIPE)
    print(done.stdout.decode(errors="replace"), end="", flush=True)
    wanted = stored(expected)
    if expected.endswith(".check"):
        wanted = wanted.partition(b"\n")[2]
    return done.returncode == 0 and frames_owed.as_owed(done.stdout, wanted) == wanted


def main():
    if not unproved.is_fresh():
        print("building the program without its proofs, which takes up to a minute", flush=True)
        unproved.build()
    with tempfile.TemporaryDirectory(prefix="vtl-demo-") as room:
        shutil.copy(os.path.join(EXAMPLES, "library.toml"), room)
        well = [step(room, *words) for words in STEPS]
    print("\n(this program was not proved: 'make vtl' proves and builds it, 'make check' proves everything)")
    if not all(well):
        print("some of these answers are not those of examples/")
    return 0 if all(well) else 1


if __name__ == "__main__":
    sys.exit(main())
