#!/usr/bin/env python3
"""Tries bodies that the contracts allow, and that a test or a row has to refuse: on a copy of the repository, by the
toolchain's unproved run, and by a program that is built without its proofs. Some that the contracts refuse too show
that the tests of stops and faults can fail."""
import os
import re
import shutil
import subprocess
import sys
import tempfile

import mutant_drives
import mutant_hosts
import mutant_texts

TOP = os.path.dirname(os.path.dirname(os.path.abspath(__file__)))
# what the edit makes of a crate, the crate and its file, the old text and the new one (or several of each, and of files
# where they stand in several), the tests that must fail, behind their crate where two have one of that name, and the
# rows and the checks that must, by their paths
EDITS = [*mutant_drives.EDITS, *mutant_texts.EDITS, *mutant_hosts.EDITS]
STOPS = mutant_drives.STOPS


# tests that wait for what a wrong body never does, and how long each may take
SECONDS = {"test_hosts": "60", "test_library": "30", "test_serve": "60"}


def crate_of(room, name):
    """The crate in which the test of this name stands."""
    crate, _, name = name.rpartition("::")
    found = set()
    for folder, _, files in os.walk(os.path.join(room, "crates", crate)):
        for file in files:
            if file.endswith(".rt"):
                with open(os.path.join(folder, file), encoding="utf-8") as lines:
                    if re.search(rf"#\[test\]\nfn {name}\(", lines.read()):
                        found.add(os.path.relpath(folder, os.path.join(room, "crates")).split(os.sep)[0])
    if len(found) != 1:
        sys.exit(f"the test {name} stands in {len(found)} crates")
    return found.pop()


def runs_failed(room, names):
    """Those of the rows and of the checks that fail as they stand, with the program of the copy."""
    if not names:
        return set()
    built = subprocess.run([sys.executable, os.path.join(room, "checks", "unproved.py"), "--new"], cwd=room,
                           capture_output=True, text=True)
    if built.returncode:
        sys.exit(f"the program was not built\n{built.stderr}")
    missing = [name for name in names if not os.path.isfile(os.path.join(TOP, name.split()[0]))]
    if missing:
        sys.exit(f"there is no row {missing[0]}")
    program = os.path.join(room, ".unproved", "vtl")
    run = {name: [os.path.join(TOP, name.split()[0]), *name.split()[1:]] if name.startswith("checks/")
           else [os.path.join(TOP, "checks", "rows.py"), "--first", os.path.join(TOP, name)] for name in names}
    return {name for name, words in run.items()
            if subprocess.run([sys.executable, *words, "--program", program], capture_output=True).returncode}


def write_texts(room, crate, texts):
    """Writes these files of a crate."""
    for file, text in texts.items():
        with open(os.path.join(room, "crates", crate, file), "w", encoding="utf-8") as lines:
            lines.write(text)


def turned_by(room, edit):
    """The files of an edit's crate that it changes, as they stand and as it leaves them."""
    what, crate, files, old, new, _ = edit
    if isinstance(old, str):
        old, new = (old,), (new,)
    if isinstance(files, str):
        files = (files,) * len(old)
    texts, turned = {}, {}
    for file, one, other in zip(files, old, new):
        if file not in texts:
            with open(os.path.join(room, "crates", crate, file), encoding="utf-8") as lines:
                texts[file] = turned[file] = lines.read()
        if turned[file].count(one) != 1:
            sys.exit(f"{what}: its old text stands in {crate}/{file} {turned[file].count(one)} times")
        turned[file] = turned[file].replace(one, other)
    return texts, turned


def failed_in(room, edit):
    """The tests that fail with the edit, of the crates in which those stand that must, and the rows that must."""
    what, crate, names = edit[0], edit[1], edit[-1]
    texts, turned = turned_by(room, edit)
    write_texts(room, crate, turned)
    runs = [name for name in names if name.startswith(("rows/", "checks/"))]
    failed = runs_failed(room, runs)
    for tests in sorted({crate_of(room, name) for name in names if name not in runs}):
        done = subprocess.run(["rt", "try", "--test", "--seconds", SECONDS.get(tests, "600")],
                              cwd=os.path.join(room, "crates", tests), capture_output=True, text=True)
        said = re.findall(r"^test (?:\w+::)*(\w+) \.\.\. (\w+)", done.stdout, re.MULTILINE)
        if not said:
            sys.exit(f"{what}: no test ran\n{done.stdout}{done.stderr}")
        failed |= {name for name, end in said if end != "ok"}
    write_texts(room, crate, texts)
    return failed


def lint():
    """Each body has its place, and each test and row that must fail is there."""
    names = {name for edit in EDITS + STOPS for name in edit[-1]}
    for edit in EDITS + STOPS:
        turned_by(TOP, edit)
    for name in names:
        if name.startswith(("rows/", "checks/")):
            if not os.path.isfile(os.path.join(TOP, name.split()[0])):
                sys.exit(f"there is no row or check {name}")
        else:
            crate_of(TOP, name)
    print(f"mutants: {len(EDITS + STOPS)} bodies have their places, {len(names)} tests and rows are there")
    return 0


def main():
    if sys.argv[1:] == ["--lint"]:
        return lint()
    crates = set(sys.argv[1:])
    edits = [edit for edit in EDITS + STOPS if not crates or edit[1] in crates]
    wrong = 0
    with tempfile.TemporaryDirectory() as room:
        shutil.copy(os.path.join(TOP, "crates.txt"), room)
        shutil.copy(os.path.join(TOP, "HANDLES"), room)
        shutil.copytree(os.path.join(TOP, "crates"), os.path.join(room, "crates"),
                        ignore=shutil.ignore_patterns("out", "must-fail", "wrong.edits"))
        os.makedirs(os.path.join(room, "checks"))
        shutil.copy(os.path.join(TOP, "checks", "unproved.py"), os.path.join(room, "checks"))
        subprocess.run(["git", "init", "-q", room], check=True)
        for edit in edits:
            failed = failed_in(room, edit)
            missed = [name for name in edit[-1] if name.rpartition("::")[2] not in failed]
            wrong += len(missed)
            said = f"; NOT {', '.join(missed)}" if missed else ""
            print(f"{edit[0]}: {', '.join(sorted(failed)) or 'no test'} failed{said}", flush=True)
    print(f"mutants: {len(edits)} bodies tried, {wrong} tests or rows passed that must fail")
    return 1 if wrong else 0


if __name__ == "__main__":
    sys.exit(main())
