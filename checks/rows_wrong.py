#!/usr/bin/env python3
"""Tries whether the rows find wrong code: each edit of rows/wrong.txt, CRATE/NAME, the edit NAME of
crates/CRATE/wrong.edits.

On a copy of the repository each is made, the program is built without its proofs, and the rows are run as they stand,
those of its subject first, until one differs: it is named. An edit that no row finds, or that does not build, is an
error; and so is a row that differs without an edit, which is tried first, but for --edits-alone. --at-once N: so many
copies. CRATE/NAME ..: these edits."""
import argparse
import os
import queue
import shutil
import subprocess
import sys
import tempfile
from concurrent.futures import ThreadPoolExecutor

import rows
import wrong_edits

TOP = os.path.dirname(os.path.dirname(os.path.abspath(__file__)))
LIST = os.path.join(TOP, "rows", "wrong.txt")
# by crate, the folders whose rows are run first
FIRST = {"scsi_sense": "03 05 11", "scsi_opcodes": "01", "scsi_lists": "07 09", "scsi_attention": "10", "pr_core": "09",
         "positioning": "05 06", "drive_commands": "10 08 03", "bay_moves": "11", "vtl_config": "12", "vtl_words": "13",
         "vtl_script": "14", "volume_core": "06", "change_records": "06", "object_index": "06", "aptpl_store": "09 15",
         "gate_journal": "15", "vtl_files": "15", "check_lines": "15"}


def listed():
    with open(LIST, encoding="utf-8") as lines:
        return [line.strip() for line in lines if line.strip() and not line.startswith("#")]


def edited(room, name):
    """Makes the edit in the copy; the old texts by path."""
    crate, _, edit = name.partition("/")
    old, texts, path = None, {}, None
    for line in wrong_edits.edits_in(crate, "wrong.edits")[edit].removesuffix("\n").split("\n"):
        word, _, rest = line.partition(":")
        rest = rest[1:]
        if word == "file":
            path = os.path.join(room, "crates", crate, rest)
            texts.setdefault(path, wrong_edits.read(path))
        elif word == "old":
            old = rest
        else:
            with open(path, encoding="utf-8") as file:
                text = file.read()
            with open(path, "w", encoding="utf-8") as file:
                file.write(text.replace(old, rest))
    return texts


def copied(room):
    for name in ("crates.txt", "HANDLES"):
        shutil.copy(os.path.join(TOP, name), room)
    shutil.copytree(os.path.join(TOP, "crates"), os.path.join(room, "crates"),
                    ignore=shutil.ignore_patterns("out", "must-fail", "wrong.edits"))
    os.makedirs(os.path.join(room, "checks"))
    shutil.copy(os.path.join(TOP, "checks", "unproved.py"), os.path.join(room, "checks"))
    subprocess.run(["git", "init", "-q", room], check=True)


def weight(row):
    return sum(len(line.text) for run in row.runs for line in run.lines) + 100 * len(row.runs)


def found_by(room, program, ordered):
    """What the first row says that differs, of rows that are run one after another."""
    for row in ordered:
        said = rows.run_in(program, row, rows.WAYS[0]).said
        if said:
            return said[0]
    return None


def tried(rooms, name, ordered):
    """Whether a row found the edit; without one, whether no row differs."""
    room = rooms.get()
    texts = edited(room, name) if name else {}
    built = subprocess.run([sys.executable, os.path.join(room, "checks", "unproved.py"), "--new"], cwd=room,
                           capture_output=True, text=True)
    said = None
    if not built.returncode:
        first = FIRST.get((name or "").partition("/")[0], "").split()
        said = found_by(room, os.path.join(room, ".unproved", "vtl"), sorted(
            ordered, key=lambda row: os.path.basename(os.path.dirname(row.path))[:2] not in first))
    for path, text in texts.items():
        with open(path, "w", encoding="utf-8") as file:
            file.write(text)
    rooms.put(room)
    told = "NOT BUILT: " + built.stderr.strip()[-300:] if built.returncode else said or "no row differs"
    print(f"{name or 'without an edit'}: {told}", flush=True)
    return bool(said) if name else not said and not built.returncode


def main():
    parser = argparse.ArgumentParser()
    parser.add_argument("names", nargs="*")
    parser.add_argument("--at-once", type=int, default=2)
    parser.add_argument("--edits-alone", action="store_true", help="nothing is tried without an edit")
    given = parser.parse_args()
    names = given.names or listed()
    for name in names:
        crate, _, edit = name.partition("/")
        edits = wrong_edits.edits_in(crate, "wrong.edits")
        why = wrong_edits.fault_in(crate, edits[edit]) if edit in edits else "there is no such edit"
        if why:
            sys.exit(f"{name}: {why}")
    ordered, said = rows.read_all([os.path.join(TOP, "rows")])
    if said:
        sys.exit("\n".join(said))
    ordered.sort(key=weight)
    with tempfile.TemporaryDirectory(prefix="vtl-rows-wrong-") as top:
        rooms = queue.Queue()
        for at in range(given.at_once):
            room = os.path.join(top, str(at))
            os.makedirs(room)
            copied(room)
            rooms.put(room)
        if not given.edits_alone and not tried(rooms, None, ordered):
            return 1
        with ThreadPoolExecutor(given.at_once) as pool:
            found = list(pool.map(lambda name: tried(rooms, name, ordered), names))
    print(f"rows-wrong: {len(names)} edits, {found.count(False)} that no row finds")
    return 1 if False in found else 0


if __name__ == "__main__":
    sys.exit(main())
