#!/usr/bin/env python3
"""Builds the program without its proofs: `rt try` builds it and runs it, with a pipe in the place of a configuration;
while the program waits for that it is copied to .unproved/, and .unproved/vtl starts it. It stops where a proof would
have refused a step, and is slower than the proved program. It is built again where a source is newer, or with --new."""
import os
import shlex
import shutil
import subprocess
import sys
import tempfile
import time

TOP = os.path.dirname(os.path.dirname(os.path.abspath(__file__)))
ROOM = os.path.join(TOP, ".unproved")
STARTED = os.path.join(ROOM, "vtl")
# what stands in the file that starts the program, before and behind the words
BEFORE, BEHIND = "#!/bin/sh\nexec ", ' "$@"\n'


def reader_of(pipe):
    """The command line of the process that reads this pipe, and its folder; it is looked for until it has the pipe
    open."""
    for _ in range(200):
        found = reader_now(pipe)
        if found:
            return found
        time.sleep(0.02)
    return None, None


def reader_now(pipe):
    for number in os.listdir("/proc"):
        if not number.isdigit() or int(number) == os.getpid():
            continue
        try:
            open_files = [os.readlink(f"/proc/{number}/fd/{at}") for at in os.listdir(f"/proc/{number}/fd")]
            if pipe in open_files:
                with open(f"/proc/{number}/cmdline", "rb") as words:
                    return words.read().decode().split("\0")[:-1], os.readlink(f"/proc/{number}/cwd")
        except OSError:
            continue
    return None


def taken(words, folder):
    """Copies the program of such a command line, and writes what starts the copy."""
    loader, at = words[:words.index("run")], words.index("run") - 1
    # its help names the program by its file
    copy = os.path.join(ROOM, "bin", "vtl")
    os.makedirs(os.path.dirname(copy), exist_ok=True)
    shutil.copy(os.path.join(folder, loader[at]), copy)
    os.chmod(copy, 0o755)
    with open(STARTED, "w") as file:
        file.write(BEFORE + " ".join(map(shlex.quote, [*loader[:at], copy])) + BEHIND)
    os.chmod(STARTED, 0o755)


def words_of(program):
    """The words that start a program. Of one that is built without its proofs they are those behind its shell, so that
    what is to fail fails in the program and not in the shell."""
    with open(program, "rb") as file:
        text = file.read(4096)
    if not (text.startswith(BEFORE.encode()) and text.endswith(BEHIND.encode())):
        return [program]
    return shlex.split(text.decode()[len(BEFORE):-len(BEHIND)])


def opened(pipe, child):
    """The pipe's end to write to, once something reads it; None where the child ended before."""
    while child.poll() is None:
        try:
            return os.open(pipe, os.O_WRONLY | os.O_NONBLOCK)
        except OSError:
            time.sleep(0.05)
    return None


def is_fresh():
    """Whether the program is there, and no source is newer."""
    if not os.path.exists(STARTED):
        return False
    made, crates = os.path.getmtime(STARTED), os.path.join(TOP, "crates")
    return all(os.path.getmtime(os.path.join(folder, name)) < made
               for folder, _, names in os.walk(crates) if "/src" in folder for name in names)


def build():
    with tempfile.TemporaryDirectory(prefix="vtl-unproved-") as room:
        os.chmod(room, 0o711)
        pipe, said = os.path.join(room, "pipe"), os.path.join(room, "said")
        os.mkfifo(pipe)
        os.chmod(pipe, 0o666)
        with open(said, "wb") as log:
            child = subprocess.Popen(["rt", "try", "--", "run", "--config", pipe],
                                     cwd=os.path.join(TOP, "crates", "vtl"), stdin=subprocess.DEVNULL,
                                     stdout=subprocess.DEVNULL, stderr=log)
        end = opened(pipe, child)
        words, folder = reader_of(pipe) if end is not None else (None, None)
        if words:
            taken(words, folder)
        if end is not None:
            os.close(end)
        child.wait()
        if not words:
            with open(said, errors="replace") as log:
                sys.exit(f"rt try did not build the program:\n{log.read()}")


def main(words):
    if "--new" in words or not is_fresh():
        build()
    print(os.path.relpath(STARTED, os.getcwd()))


if __name__ == "__main__":
    main(sys.argv[1:])
