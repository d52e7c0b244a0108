#!/usr/bin/env python3
"""Proves and builds a program and the crates below it side by side, each by one `rattle build`: as many at a time as
there are processors, and 4 GiB of memory for each. Those go first that the longest chain of crates waits for. A crate
gets the processors that no other one is ready for. `rt lib` would build them one by one, since each waits for all
others that stand on the same crates. What is built already, from the same text, is kept.

build.py [CRATE]     the program, vtl where none is named"""
import functools
import hashlib
import os
import re
import shutil
import subprocess
import sys
import tempfile
import time
from concurrent.futures import FIRST_COMPLETED, ThreadPoolExecutor, wait

TOP = os.path.dirname(os.path.dirname(os.path.abspath(__file__)))
ROOM = 4 * 2**30
TARGET = "x86_64-unknown-linux-gnu"


@functools.cache
def kit():
    """The folder of the toolchain."""
    return os.path.dirname(subprocess.run(["rt", "doc"], capture_output=True, text=True, check=True).stdout.strip())


@functools.cache
def used():
    """The crates of crates.txt, each with the libraries that it names."""
    with open(os.path.join(TOP, "crates.txt"), encoding="utf-8") as file:
        return {name: said.split() for name, said in re.findall(r"(?m)^(\w+)[^:#\n]*:(.*)$", file.read())}


@functools.cache
def below(name):
    """The crates below one, the lowest first."""
    found = []
    for it in used()[name]:
        found += [other for other in [*below(it), it] if other not in found] if it in used() else []
    return found


def folder(name):
    return os.path.join(TOP, "crates", name)


@functools.cache
def texts(name):
    """The files of a crate's sources, definitions and proofs."""
    parts = [os.path.join(folder(name), part) for part in ("src", "specs", "proofs")]
    return sorted(os.path.join(at, it) for part in parts for at, _, files in os.walk(part) for it in files)


@functools.cache
def stamp(name):
    """A sum of all that a crate is built from."""
    total = hashlib.sha256(open(os.path.join(kit(), "KIT-ID"), "rb").read())
    total.update(repr([used()[name], [stamp(it) for it in used()[name] if it in used()]]).encode())
    for at in texts(name):
        with open(at, "rb") as file:
            total.update(repr((os.path.relpath(at, TOP), file.read())).encode())
    return total.hexdigest()


def is_program(name):
    return os.path.exists(os.path.join(folder(name), "src", "main.rt"))


def made(name):
    """Where a library, or a program, is put."""
    return os.path.join(folder(name), "out", name if is_program(name) else os.path.join("built", f"{name}.rlib"))


def is_built(name):
    try:
        with open(made(name) + ".text", encoding="ascii") as file:
            return os.path.exists(made(name)) and file.read() == stamp(name)
    except OSError:
        return False


def words(name, jobs):
    """The words of the crate's check by so many processes, in its folder."""
    rlibs = os.path.join(kit(), "rlibs")
    place = {it: made(it) if it in used() else os.path.join(rlibs, f"{it}.rlib") for it in ["std", *used()[name]]}
    libraries = [word for it, at in place.items() for word in ("--extern", f"{it}={at}")]
    folders = [rlibs, *(os.path.dirname(made(it)) for it in below(name))]
    return ["--crate-name", name, "src/main.rt" if is_program(name) else "src/lib.rt", *libraries,
            *(word for it in folders for word in ("-L", f"dependency={it}")),
            "--antt-project", os.path.join(kit(), "rattle/logic/antt-project.json"),
            "--logic-built", os.path.join(kit(), "logic_built"), "--jobs", str(jobs), "--links", f"{name}="]


def commands(name, jobs):
    """What proves and builds a crate: a library with its statements alone, a program by LLVM."""
    rattle, to, tools = os.path.join(kit(), "bin/rattle"), made(name), ["--toolchain", os.path.join(kit(), "toolchain")]
    if not is_program(name):
        return [[rattle, "build", *words(name, jobs), "--statements", "-o", to]]
    of_c = [os.path.join(kit(), "c", it) for it in ("libos_c.a", "liblibc_c.a")]
    return [[rattle, "build", *words(name, jobs), *tools, "--backend", "llvm", "-o", f"{to}.o"],
            [f"{rattle}-link", "--target", TARGET, *tools, "-o", to, f"{to}.o", *of_c]]


def build(name, jobs):
    """None once the crate is built, or what the toolchain printed where it was refused."""
    to = made(name)
    shutil.rmtree(to, ignore_errors=True)
    os.makedirs(os.path.dirname(to), exist_ok=True)
    for command in commands(name, jobs):
        with tempfile.TemporaryFile("w+", errors="replace") as said:
            done = subprocess.run(command, cwd=folder(name), stdin=subprocess.DEVNULL, stdout=said, stderr=said)
            if done.returncode != 0:
                said.seek(0)
                return said.read()
    with open(to + ".text", "w", encoding="ascii") as file:
        file.write(stamp(name))
    return None


def chains(names):
    """Of each crate the size of the longest chain of crates that begins with it and goes up."""
    found = {}
    for name in reversed(names):
        own = sum(map(os.path.getsize, texts(name)))
        found[name] = own + max((found[it] for it in names if name in used()[it]), default=0)
    return found


def lanes():
    free = int(re.search(r"MemAvailable: +(\d+) kB", open("/proc/meminfo", encoding="ascii").read())[1]) * 1024
    return max(1, min(len(os.sched_getaffinity(0)), free // ROOM))


def main(given):
    program, begun = given[0] if given else "vtl", time.monotonic()
    names, most = [*below(program), program], lanes()
    length, left, running = chains(names), {it for it in names if not is_built(it)}, {}
    total = len(left)
    with ThreadPoolExecutor(most) as pool:
        while left or running:
            waits = left | {name for name, _ in running.values()}
            ready = sorted((it for it in left if waits.isdisjoint(below(it))), key=length.get, reverse=True)
            for at, name in enumerate(ready):
                idle = most - sum(jobs for _, jobs in running.values())
                if idle > 0:
                    jobs = max(1, idle // (len(ready) - at))
                    left.remove(name)
                    running[pool.submit(build, name, jobs)] = name, jobs
            for ended in wait(running, return_when=FIRST_COMPLETED).done:
                (name, _), refused = running.pop(ended), ended.result()
                if refused is not None:
                    pool.shutdown(cancel_futures=True)
                    sys.exit(f"{refused}\n{name} was not built")
                done, minutes = total - len(left) - len(running), (time.monotonic() - begun) / 60
                print(f"built {name}, {done} of {total}, {minutes:.1f} minutes", flush=True)


if __name__ == "__main__":
    main(sys.argv[1:])
