#!/usr/bin/env python3
"""Tries the edits of crates/*/wrong.edits, each of which the prover must refuse, on copies of the repository.

wrong.py [--alone] [--into FILE] [CRATE [EDIT..]]
                            every edit, those of a crate, or those named: for each, what refuses it, or PROVED (a hole)
wrong.py --lint             tries none, and looks at the form of each edit of must-fail/ and wrong.edits, and at
                            docs/CLAIMS.md and rows/wrong.txt; says which files are old, which is no fault
wrong.py --selftest         tries none, and looks at how edits are put together and how a check is read

Edits of different functions are tried in one check, as wrong_batches.py says; what isn't clearly refused so is tried by
the gate's tool, `rt must-fail`, which has the last word. With --alone that tool tries each. With --into each result is
added to the file as a line, and an edit that was tried there is not tried again over the same text: so a run that
broke off goes on. Once all edits of a crate were refused, its wrong.edits begins with a sum of them and of the text.
"""
import os
import re
import sys
import tempfile
from concurrent.futures import ThreadPoolExecutor

import rows_wrong
import wrong_runs
import wrong_selftest
from wrong_edits import TOP, UNTRIED, crates, edits_in, fault_in, file_of, form_faults, parted, read, sum_of

# the edits of a crate that the gate tries, at most: each costs it half a processor minute and more
MOST = 8
AT_ONCE = 2


def strange_files(crate):
    """What stands in must-fail/ and is no edit, and a folder wrong/, which nobody reads."""
    place = os.path.join(TOP, "crates", crate, "must-fail")
    files = sorted(os.listdir(place)) if os.path.isdir(place) else []
    yield from (f"crates/{crate}/must-fail/{file} is no edit" for file in files
                if not re.fullmatch(r"\w+\.edit|[\w-]+\.md", file))
    if os.path.isdir(os.path.join(TOP, "crates", crate, "wrong")):
        yield f"crates/{crate}/wrong is a folder: the edits that make wrong tries stand in wrong.edits"


def why_old(crate):
    """Why the crate's edits are to be tried again, or None."""
    edits = edits_in(crate, "wrong.edits")
    first = parted(read(file_of(crate)))[0] if edits else None
    if first == UNTRIED:
        return f"not all of its {len(edits)} edits were tried"
    is_same = not edits or first == f"tried: {sum_of(crate, edits)}"
    return None if is_same else f"since its {len(edits)} edits were tried, they or the text below them have changed"


def claims():
    """The rows of the table in docs/CLAIMS.md: the columns of contract, edits and tests."""
    lines = read(TOP, "docs", "CLAIMS.md").splitlines()
    rows = [re.split(r"(?<!\\)\|", line) for line in lines if line.startswith("| ")]
    return [row[2:5] for row in rows if len(row) == 6 and row[1].strip() != "Claim"]


def names_in(cell):
    """The names of a cell; what stands in brackets is a remark."""
    return re.findall(r"`(\w+)`", re.sub(r"\([^)]*\)", "", cell))


def text_of(crate):
    """What stands in the crate's sources and specifications."""
    found = []
    for part in ("src", "specs"):
        for folder, _, files in os.walk(os.path.join(TOP, "crates", crate, part)):
            found += [read(folder, file) for file in sorted(files)]
    return "\n".join(found)


def edits_of(row):
    """The edits that a row of docs/CLAIMS.md names, each with the crates whose contracts it names."""
    contract, edits, _ = row
    return [({*re.findall(r"`(\w+)`", contract)}, name) for name in names_in(edits)]


def false_claims(rows, edits):
    """What docs/CLAIMS.md names that is not there: a contract, an edit of a crate of its row, a test."""
    texts = {crate: text_of(crate) for crate in crates()}
    every = "\n".join(texts.values())
    for row in rows:
        contract, _, tests = row
        crate = None
        for name in re.findall(r"`([\w:]+)`", contract):
            if name in texts:
                crate = name
            elif crate is None or not re.search(rf"\b{name.split('::')[-1]}\b", texts[crate]):
                yield f"docs/CLAIMS.md names a contract {name}, which does not stand in {crate}"
        for named, name in edits_of(row):
            if not any((crate, name) in edits for crate in named):
                yield f"docs/CLAIMS.md names {name}, which is no edit of a crate of its row"
        if len(edits_of(row)) > 1:
            yield f"docs/CLAIMS.md names {edits_of(row)[1][1]} beside another edit: make definitions lists them all"
        for name in names_in(tests):
            if name not in texts and not re.search(rf"#\[test\]\n(?:#.*\n)*fn {name}\b", every):
                yield f"docs/CLAIMS.md names {name}, which is no test"


def lint():
    said, every, guarded, old = [], set(), set(), {}
    for crate in crates():
        first, second = edits_in(crate, "must-fail"), edits_in(crate, "wrong.edits")
        every |= {(crate, name) for name in [*first, *second]}
        guarded |= {(crate, name) for name in first}
        if len(first) > MOST:
            said.append(f"crates/{crate}/must-fail has {len(first)} edits, and the gate has time for {MOST} of a "
                        "crate: move others to wrong.edits")
        said += strange_files(crate)
        said += [f"crates/{crate}: {name} stands in must-fail/ and in wrong.edits" for name in first if name in second]
        if os.path.isfile(file_of(crate)):
            said += [f"crates/{crate}/wrong.edits: {why}" for why in form_faults(read(file_of(crate)))]
        for folder, edits in (("must-fail", first), ("wrong.edits", second)):
            for name, edit in edits.items():
                why = fault_in(crate, edit)
                said += [f"crates/{crate}/{folder}: {name}: {why}"] if why else []
        old[crate] = why_old(crate)
    rows = claims()
    claimed = {(crate, name) for row in rows for named, name in edits_of(row) for crate in named}
    said += [f"docs/CLAIMS.md names no claim for the edit {crate}/{name}" for crate, name in sorted(guarded - claimed)]
    said += [f"docs/CLAIMS.md has {name} in bold, or not, and the gate does otherwise" for row in rows
             for named, name in edits_of(row)
             if (f"**`{name}`**" in row[1]) != any((crate, name) in guarded for crate in named)]
    said += false_claims(rows, every)
    said += [f"rows/wrong.txt: there is no edit {name}" for name in rows_wrong.listed()
             if tuple(name.split("/")) not in every]
    old = [f"crates/{crate}/wrong.edits is old: {why}" for crate, why in old.items() if why]
    print("\n".join([*old, *said, f"edits: {len(every)} looked at, {len(said)} faults; {len(old)} files are old"]))
    return 1 if said else 0


def asked(words, known):
    """The edits that the command line names, by crate."""
    if words and (words[0] not in known or any(it.startswith("-") for it in words)):
        sys.exit(f"{words[0]} is no crate of crates.txt\n\n{__doc__}")
    chosen = {crate: edits_in(crate, "wrong.edits") for crate in (words[:1] or known)}
    for name in words[1:]:
        if name not in chosen[words[0]]:
            sys.exit(f"crates/{words[0]}/wrong.edits has no edit {name}")
    if words[1:]:
        chosen[words[0]] = {name: chosen[words[0]][name] for name in words[1:]}
    for crate in words[:1]:
        if not chosen[crate]:
            print(f"crates/{crate}/wrong.edits has no edits")
    chosen = {crate: edits for crate, edits in chosen.items() if edits}
    faults = {(crate, name): fault_in(crate, edit) for crate, edits in chosen.items() for name, edit in edits.items()}
    bad = [f"{crate}/{name}: {why}" for (crate, name), why in faults.items() if why]
    if bad:
        sys.exit("\n".join([*bad, "no edit was tried"]))
    return chosen


def main(words):
    if words == ["--lint"]:
        return lint()
    if words == ["--selftest"]:
        return wrong_selftest.main()
    is_alone = words[:1] == ["--alone"]
    words = words[is_alone:]
    path = words[1] if words[:1] == ["--into"] and len(words) > 1 else None
    known = crates()
    named = asked(words[2:] if path else words, known)
    results = wrong_runs.Results(path, named)
    chosen = results.left(named)
    with tempfile.TemporaryDirectory(prefix="wrong_") as room:
        wrong_runs.copied(room, chosen, known)
        with ThreadPoolExecutor(AT_ONCE) as pool:
            runs = {crate: pool.submit(wrong_runs.tried, room, crate, edits, known, results, is_alone)
                    for crate, edits in chosen.items()}
            for crate in named:
                if crate in runs:
                    runs[crate].result()
                results.mark(crate)
    refused = [name for name, kind in results.rows if kind.startswith("refused")]
    by_name = [name for name, kind in results.rows if kind == wrong_runs.BY_NAME]
    others = [f"{name}: {kind}" for name, kind in results.rows if not kind.startswith("refused")]
    print(f"{len(results.rows)} edits: {len(refused)} refused, {len(others)} not")
    if by_name:
        print(f"of the refused, by a name in a proof file alone: {', '.join(by_name)}")
    print("\n".join(others), end="\n" if others else "")
    return 1 if others else 0


if __name__ == "__main__":
    sys.exit(main(sys.argv[1:]))
