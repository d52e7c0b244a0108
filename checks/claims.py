#!/usr/bin/env python3
"""Looks whether each row of docs/CLAIMS.md has a clause with an edit, a law, a test or a row, so that none loses its
last test without something in its place; and counts the lines of the tests.

claims.py              says what is wrong; ends with 1 where something is
claims.py --selftest   gives it wrong rows, each of which it has to find

wrong.py --lint looks whether the contracts, the edits and the test functions that a row names are there. Here a row
names a contract or a test, what is said to be a law is one, and what else is named as a test is there.
"""
import os
import re
import sys

import crate_list
import wrong
from wrong_edits import TOP, crates, read

# lines of tests, without blank ones: the gate proves and runs each, which takes as long as the program's own proofs
MOST = 15_000


def laws():
    """The functions of laws, by crate: those in the files src/laws.rt and src/laws/."""
    found = {}
    for crate in crates():
        top = os.path.join(TOP, "crates", crate, "src")
        for folder, _, files in os.walk(top):
            for file in files:
                if os.path.relpath(os.path.join(folder, file), top).startswith("laws"):
                    found.setdefault(crate, set()).update(re.findall(r"\bfn (\w+)", read(folder, file)))
    return found


def named(cell):
    """The rows, checks and targets of make that a cell names; what stands in brackets is a remark."""
    bare = re.sub(r"\([^)]*\)", "", cell)
    return ([f"{name}.row" for name in re.findall(r"`(rows/[\w/-]+)`", bare)]
            + re.findall(r"`(checks/\w+\.py|make \w+)`", bare))


def faults_of(row, found, targets):
    """What a row lacks, and what it names that is not there."""
    contract, edits, tests = row
    crate, items = None, []
    for name in re.findall(r"`([^`]+)`", contract):
        crate = name if name in found else crate
        items += [] if name in found else [(crate, item) for item in re.findall(r"\w+", name)]
    has_contract = any(crate for crate, _ in items)
    is_law = edits.strip().startswith(("(a law", "(law"))
    is_tested = wrong.names_in(tests) or named(tests) or re.search(r"the tests of `|the stored run|mutants?: ", tests)
    if not has_contract and not is_tested:
        yield "names no contract and no test"
    if is_law and not any(name in found.get(crate, ()) for crate, name in items):
        yield "is said to be a law, and names none"
    if not is_law and not wrong.names_in(edits) and not is_tested:
        yield "has no edit, no test and no row"
    yield from (f"names {name}, which is not there" for name in named(tests)
                if name not in targets and not os.path.isfile(os.path.join(TOP, name)))


def lines_of_tests():
    """How many lines there are in the crates of tests; doubles and helpers are none."""
    count = 0
    for crate, words in crate_list.said():
        if crate_list.kind_of(crate, words) == crate_list.KINDS[1]:
            for folder, _, files in os.walk(os.path.join(TOP, "crates", crate, "src")):
                count += sum(bool(line.strip()) for file in files for line in read(folder, file).splitlines())
    return count


def said_of(rows, count):
    found = {crate: set() for crate in crates()} | laws()
    targets = [f"make {name}" for name in re.findall(r"^([\w-]+):", read(TOP, "Makefile"), re.MULTILINE)]
    for row in rows:
        yield from (f"docs/CLAIMS.md: the row of {row[0].strip()} {why}" for why in faults_of(row, found, targets))
    if count > MOST:
        yield f"the tests have {count} lines, and the gate has time for {MOST}: no test has to say what a clause says"


# rows, each with the beginning of what is wrong with it, if anything
CASES = [
    (("`tape_disk`: `MemDisk::crash`, `image`", "`an_edit`", ""), None),
    (("`drive_theorems`: `honest_steps`", "(a law)", ""), None),
    (("(no clause counts syncs)", "", "mutant: each write is stored at once"), None),
    (("`tape_disk`: `MemDisk`", "", "`rows/02-reading/at-a-filemark`; `make faults`"), None),
    (("`tape_disk`", "`an_edit`", ""), "names no contract"),
    (("(no clause counts syncs)", "`an_edit`", "(`a_test`)"), "names no contract"),
    (("`tape_disk`: `MemDisk::crash`, `image`", "", ""), "has no edit"),
    (("`tape_disk`: `MemDisk::crash`", "(a law)", "`a_test`"), "is said to be a law"),
    (("`tape_disk`: `MemDisk`", "`an_edit`", "`rows/02-reading/no-such-row`"), "names rows/02-reading/no-such-row.row"),
    (("`tape_disk`: `MemDisk`", "`an_edit`", "`checks/no_such.py`"), "names checks/no_such.py"),
    (("`tape_disk`: `MemDisk`", "`an_edit`", "`make nothing`"), "names make nothing"),
]


def selftest():
    said = [(list(said_of([row], MOST)), row, why) for row, why in CASES]
    missed = [row for found, row, why in said if len(found) != bool(why) or why and why not in found[0]]
    missed += ["a line too many"] if list(said_of([], MOST)) or len(list(said_of([], MOST + 1))) != 1 else []
    print("".join(f"not judged as it should be: {row}\n" for row in missed), end="")
    print(f"claims --selftest: {len(CASES) + 1} cases, {len(missed)} not judged as they should be")
    return 1 if missed else 0


def main(words):
    if words == ["--selftest"]:
        return selftest()
    if words:
        sys.exit(__doc__)
    rows = [row for row in wrong.claims() if row[0].strip() != "Clause"]
    count = lines_of_tests()
    said = list(said_of(rows, count))
    print("\n".join([*said, f"claims: {len(rows)} rows, {count} lines of tests, {len(said)} faults"]))
    return 1 if said else 0


if __name__ == "__main__":
    sys.exit(main(sys.argv[1:]))
