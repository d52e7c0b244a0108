"""Tries the edits of a crate on a copy of the repository: many in one check, and what is left by the gate's tool."""
import os
import re
import shutil
import subprocess
import sys
import threading

import wrong_batches
from wrong_edits import (TOP, UNTRIED, edits_in, file_of, first_line, libraries_below, lowest_first, parted, read,
                         sum_of)

SAID = re.compile(r"rt: must-fail (\w+)/([\w.-]+)\.edit: (refused, as it must be|NOT REFUSED|BAD EDIT)(.*)")
BY_NAME = "refused by a name alone"
KINDS = {"refused, as it must be": "refused alone", "NOT REFUSED": "PROVED (a hole)",
         "BAD EDIT": "NOT TRIED (a bad edit)"}


def copied(room, chosen, known):
    """A repository like this one, over which each library below the chosen edits is built."""
    for file in ("crates.txt", "HANDLES"):
        shutil.copy(os.path.join(TOP, file), room)
    leave = shutil.ignore_patterns("out", "must-fail", "wrong.edits")
    for crate in known:
        shutil.copytree(os.path.join(TOP, "crates", crate), os.path.join(room, "crates", crate), ignore=leave)
    subprocess.run(["git", "init", "-q", room], check=True)
    for crate in libraries_below(chosen, known):
        # what earlier checks kept: a library whose text has changed since is proved again
        kept, folder = os.path.join(TOP, "crates", crate, "out"), os.path.join(room, "crates", crate)
        if os.path.isdir(kept):
            shutil.copytree(kept, os.path.join(folder, "out"), symlinks=True)
        if subprocess.run(["rt", "lib"], cwd=folder, stdout=subprocess.DEVNULL).returncode:
            sys.exit(f"{crate} is not proved, so nothing above it was tried")
        shutil.rmtree(os.path.join(folder, "out", "incremental"), ignore_errors=True)


def own_room(room, crate, known):
    """A repository of the crate and the libraries below it, in which its text changes and no other's."""
    own = os.path.join(room, "own", crate)
    os.makedirs(own)
    shutil.copy(os.path.join(room, "HANDLES"), own)
    names = lowest_first([crate], known)
    with open(os.path.join(own, "crates.txt"), "w", encoding="utf-8") as file:
        file.writelines(line + "\n" for line in read(room, "crates.txt").splitlines()
                        if re.match(r"\w*", line)[0] in names)
    for name in names:
        # what is written in the place of a link is another file's
        how = {"copy_function": shutil.copy2 if name == crate else os.link, "symlinks": True}
        leave = shutil.ignore_patterns("out" if name == crate else "incremental")
        shutil.copytree(os.path.join(room, "crates", name), os.path.join(own, "crates", name), ignore=leave, **how)
    kept = os.path.join(TOP, "crates", crate, "out", "incremental")
    if os.path.isdir(kept):
        shutil.copytree(kept, os.path.join(own, "crates", crate, "out", "incremental"))
    subprocess.run(["git", "init", "-q", own], check=True)
    return own


class Results:
    """What became of each edit, as (name, kind), printed and added to a file: there behind a sum of edit and text."""

    def __init__(self, path, chosen):
        self.path, self.rows, self.lock = path, [], threading.Lock()
        self.sums = {f"{crate}/{name}": sum_of(crate, {name: edit})
                     for crate, edits in chosen.items() for name, edit in edits.items()}
        # the first line of each file and its edits, as they are before any is tried
        self.files = {crate: (parted(read(file_of(crate)))[0], edits_in(crate, "wrong.edits")) for crate in chosen}
        found = re.findall(r"(?m)^(\w+) (\w+/\w+): ([^:\n]*): ", read(path)) if path and os.path.isfile(path) else []
        self.had = {name: kind for sum_then, name, kind in found
                    if sum_then == self.sums.get(name) and not kind.startswith("NOT TRIED")}

    def left(self, chosen):
        """The edits that have no result yet."""
        left = {crate: {name: edit for name, edit in edits.items() if f"{crate}/{name}" not in self.had}
                for crate, edits in chosen.items()}
        return {crate: edits for crate, edits in left.items() if edits}

    def note(self, crate, name, kind, words):
        line = f"{crate}/{name}: {kind}: {' '.join(words.split())[:240]}"
        with self.lock:
            self.rows.append((f"{crate}/{name}", kind))
            print(line, flush=True)
            if self.path:
                with open(self.path, "a", encoding="utf-8") as file:
                    file.write(f"{self.sums[f'{crate}/{name}']} {line}\n")

    def mark(self, crate):
        """Writes the first line of the crate's file, as its results have it."""
        first, edits = self.files[crate]
        kinds = {name: kind for name, kind in [*self.had.items(), *self.rows] if name.startswith(f"{crate}/")}
        refused = {name.partition("/")[2] for name, kind in kinds.items() if kind.startswith("refused")}
        has_hole = any(kind.startswith("PROVED") for kind in kinds.values())
        line = UNTRIED if has_hole else first_line(crate, first, edits, refused)
        now, rest = read(file_of(crate)).split("\n", 1)
        # what somebody wrote there since stays
        if now == first:
            with open(file_of(crate), "w", encoding="utf-8") as file:
                file.write(f"{line}\n{rest}")


def tried_alone(own, crate, edits, results):
    """Has the gate's tool try each edit, on a copy of its own."""
    folder = os.path.join(own, "crates", crate, "must-fail")
    os.mkdir(folder)
    for name, edit in edits.items():
        with open(os.path.join(folder, f"{name}.edit"), "w", encoding="utf-8") as file:
            file.write(edit)
    done = subprocess.run(["rt", "must-fail", crate], cwd=own, stdout=subprocess.PIPE, stderr=subprocess.STDOUT,
                          text=True, errors="replace")
    said, lines = {}, done.stdout.splitlines()
    for it, below in zip(map(SAID.fullmatch, lines), [*lines[1:], ""]):
        if it and it[1] == crate:
            said[it[2]] = it[3], f"{it[4]} {below if it[4].endswith('what it said:') else ''}"
    for name in edits:
        kind, words = said.get(name, ("NOT TRIED", f"rt ended with {done.returncode}: {done.stdout.strip()[-160:]}"))
        if "only because a proof file names" in words:
            kind, words = BY_NAME, words.rpartition("): ")[2]
        results.note(crate, name, KINDS.get(kind, kind), words.removeprefix(": "))


def tried(room, crate, edits, known, results, is_alone):
    """Tries the edits of the crate."""
    print(f"{crate}: trying {len(edits)} edits", flush=True)
    own = own_room(room, crate, known)
    left = edits
    if not is_alone:
        opened, said = wrong_batches.opened(crate, os.path.join(own, "crates", crate), os.path.join(own, "kept"))
        if not opened:
            for name in edits:
                results.note(crate, name, "NOT TRIED", f"the crate isn't proved as it is: {' '.join(said)[-160:]}")
            return
        note = lambda *words: results.note(crate, *words)
        names = wrong_batches.tried(opened, edits, note)
        left = {name: edits[name] for name in names}
    if left:
        tried_alone(own, crate, left, results)
    shutil.rmtree(own)
