"""Tries many edits of a crate in one check.

A batch is made of edits that lie wholly within bodies of functions, no two of them in one function. All are made, on a
copy, and `rt check` proves what is new over what earlier checks kept. An edit is refused by it where the check says of
a function that the edit changes that it isn't proved, and names a goal of that function that is open, or an answer of
its proof that has another type than its goal.

Why that is what the edit alone would meet: a function's goals are made of its own body and of the contracts, types and
definitions that it names. Nobody sees another's body, no constant is computed by a call, and of another function's
proof only the step that joins the proved goals needs to know that it was made. So a goal that is open in a batch is
open where the edit is alone. A function that isn't proved because of another one is no refusal here, nor are names
that are gone from a proof file.

What changes more than bodies is a batch of its own, in which any function's goal counts. Where a batch doesn't reach
the prover, the edits at the faulty lines are left out, else it is halved. Each edit that is not clearly refused is left
to `rt must-fail`, which has the last word: so no edit is called proved, bad, or refused by a name alone, from here."""
import os
import re
import shutil
import subprocess
import time
from dataclasses import dataclass

import wrong_bodies

FN = re.compile(r"fn (\S+): (.*)")
AT = re.compile(r"(note: )?(?:\./)?((?:src|specs|proofs)/\S+?):(\d+):\d+: ?(.*)")
ANSWERS = ("Answers.antt", "Invariants.antt", "Proof.antt")
# an answer that cites what the edit took away
BY_NAME = re.compile(r"has no field|is not in scope|has no `|was not admitted")
# the same, where a long name fills the line before
GOES_ON = re.compile(r"\s+has no (?:field|`)")
# what a function's line says beside its own goals: that others aren't proved
REMARKS = ("no proof", "not proved", "`search` did not prove ", "it calls ", "it passes the block ")
END = re.compile(r"logic=(not-)?proved\b")


@dataclass
class Crate:
    """A crate in a repository of its own, with its texts as they are without an edit."""

    name: str
    folder: str
    kept: str
    texts: dict
    names: list


def check(folder):
    """The lines of a check."""
    done = subprocess.run(["rt", "check", "--jobs", "1"], cwd=folder, stdout=subprocess.PIPE, stderr=subprocess.STDOUT,
                          text=True, errors="replace")
    return done.stdout.splitlines()


def proved(lines):
    """Whether the check said that all is proved, or that it isn't; None where it came to no verdict."""
    found = [END.match(line) for line in lines if END.match(line)]
    return found[-1][1] is None if found else None


def names_proved(lines):
    """The functions that a check proved, also those that may wait, or whose callers give what they ask."""
    return [found[1] for found in map(FN.match, lines) if found and re.match(r"proved\b", found[2])]


def opened(name, folder, kept):
    """The crate, once it is proved as it is; else what the check said."""
    lines = check(folder)
    if not proved(lines):
        return None, lines
    shutil.copytree(os.path.join(folder, "out", "incremental"), kept)
    return Crate(name, folder, kept, wrong_bodies.sources(folder), names_proved(lines)), lines


def put_back(kept, folder):
    """Makes the files of the folder those of the kept one; a file of the same size and time is the same."""
    for place, folders, files in os.walk(folder):
        there = os.path.join(kept, os.path.relpath(place, folder))
        for name in files:
            if not os.path.isfile(os.path.join(there, name)):
                os.remove(os.path.join(place, name))
        for name in [it for it in folders if not os.path.isdir(os.path.join(there, it))]:
            shutil.rmtree(os.path.join(place, name))
            folders.remove(name)
    for place, _, files in os.walk(kept):
        here = os.path.join(folder, os.path.relpath(place, kept))
        os.makedirs(here, exist_ok=True)
        for name in files:
            file, old = os.path.join(here, name), os.stat(os.path.join(place, name))
            now = os.stat(file) if os.path.isfile(file) else None
            if not now or (now.st_size, now.st_mtime_ns) != (old.st_size, old.st_mtime_ns):
                shutil.copy2(os.path.join(place, name), file)


def checked(crate, texts):
    """What a check of the crate says with these texts in the place of its own."""
    try:
        for path, text in texts.items():
            with open(os.path.join(crate.folder, path), "w", encoding="utf-8") as file:
                file.write(text)
        return check(crate.folder)
    finally:
        for path in texts:
            with open(os.path.join(crate.folder, path), "w", encoding="utf-8") as file:
                file.write(crate.texts[path])
        put_back(crate.kept, os.path.join(crate.folder, "out", "incremental"))


def without_generics(text):
    before = None
    while before != text:
        before, text = text, re.sub(r"<[^<>]*>", "", text)
    return text


def name_of(body, crate):
    """The name that a check has for the function, or None where that isn't clear."""
    ends = [it.split("::") for it in crate.names if it.endswith(f"::{body.name}") and "::fn::" not in it]
    if not body.owner:
        place = body.path.removeprefix("src/").removesuffix(".rt").split("/")
        place = [] if place in (["lib"], ["main"]) else place
        fits = [it for it in ends if it == [crate.name, *place, body.name]]
        return "::".join(fits[0]) if len(fits) == 1 else None
    # an impl of a trait is named by the type and the trait, and then by the trait's arguments
    words = re.sub(r"^(?:unsafe )?impl\b(?:<(?:[^<>]|<(?:[^<>]|<[^<>]*>)*>)*>)?", "", body.owner)
    words = re.split(r"\bwhere\b|\{", words)[0]
    trait, _, kind = words.rpartition(" for ")
    plain = lambda text: re.sub(r"\W", "", re.sub(r"^\s*(?:\w+::)+", "", text)).lower()
    start, whole = plain(without_generics(kind)) + plain(without_generics(trait)), plain(kind) + plain(trait)
    near = [it for it in ends if it[-2].lower().startswith(start) and (trait or it[-2].lower() == start)]
    exact = [it for it in near if it[-2].lower() in (start, whole)]
    fits = near if len(near) == 1 else exact
    return "::".join(fits[0]) if len(fits) == 1 else None


def bodies_of(crate, changed):
    """The names of the functions that an edit changes, or None where one has no clear name."""
    names = []
    for path, at in changed:
        names.append(name_of(wrong_bodies.parted(path, crate.texts[path])[1][at][0], crate))
    return None if None in names else names


def is_within(name, owner):
    """Whether this is the function or a closure in it."""
    parts = name.split("::")
    return name == owner or "fn" in parts and "::".join(it for it in parts if it != "fn").startswith(f"{owner}::")


def goals_left(crate, lines):
    """The goals that a check left open, with what it said, by the name of their function."""
    found, notes, last = {}, [], None
    for line in lines:
        at, fn = AT.match(line), FN.match(line)
        if last and GOES_ON.match(line):
            found[last].pop()
        last = None
        if at and at[2].startswith("proofs/") and at[2].endswith(ANSWERS) and at[4].startswith("error: "):
            goal = re.match(r"error: `([^`]*)`: ", at[4])
            if goal and not BY_NAME.search(at[4]):
                name = "::".join([crate.name, *at[2].split("/")[1:-1]])
                found.setdefault(name, []).append((goal[1], at[4][len(goal[0]):]))
                last = name
        elif at and at[1] and at[2].startswith("src/") and "is not proved" in at[4]:
            goal = re.search(r"\(`([^`]*)`\)", at[4])
            notes.append((goal[1] if goal else "a goal", at[4]))
        elif fn:
            if fn[2].startswith(("no proof", "not proved")) and all(it.startswith(REMARKS) for it in fn[2].split("; ")):
                found.setdefault(fn[1], []).extend(notes)
            else:
                found.pop(fn[1], None)
            notes = []
        elif re.match(r"(?:impl|struct|trait) \S+: ", line):
            notes = []
    return found


def refusal(names, left):
    """What refuses an edit of these functions, or None. With no names, any function's goal does."""
    for name, goals in left.items():
        if goals and (names is None or any(is_within(name, it) for it in names)):
            many = list(dict.fromkeys(goal for goal, _ in goals))
            return f"{name.partition('::')[2]}: {', '.join(f'`{it}`' for it in many[:4])}: {goals[0][1]}"
    return None


def unread(lines):
    """The places of errors in the sources or the definitions, by path and line."""
    found = [AT.match(line) for line in lines]
    return [(it[2], int(it[3])) for it in found if it and not it[1] and it[2].startswith(("src/", "specs/"))
            and it[4].startswith("error")]


def planned(edits):
    """Batches of edits: each edit is a dict whose keys no other of its batch has."""
    batches, count = [], {}
    for changed in edits.values():
        for key in changed:
            count[key] = count.get(key, 0) + 1
    batches = [{} for _ in range(max(count.values(), default=0))]
    # what changes the most, and what is changed the most, goes first
    for name in sorted(edits, key=lambda it: (-len(edits[it]), -max(count[key] for key in edits[it]))):
        fits = [it for it in batches if not any(key in other for other in it.values() for key in edits[name])]
        if not fits:
            batches.append({})
            fits = batches[-1:]
        min(fits, key=len)[name] = edits[name]
    return [it for it in batches if it]


def tried_together(crate, batch, note):
    """Tries the edits of a batch in one check, and notes what refuses each; returns those that are not refused."""
    changed = {key: lines for edit in batch.values() for key, lines in edit.items()}
    texts = wrong_bodies.made(crate.texts, changed)
    started = time.monotonic()
    lines = checked(crate, texts)
    print(f"{crate.name}: a check of {len(batch)} edits, {time.monotonic() - started:.0f} seconds", flush=True)
    faults = {(path, wrong_bodies.body_at(path, texts[path], line) if path in texts else None)
              for path, line in unread(lines)}
    bad = [name for name, edit in batch.items() if any(key in faults for key in edit)]
    if proved(lines) is None or any(key not in changed for key in faults):
        rest = [name for name in batch if name not in bad]
        if bad and rest:
            return [*bad, *tried_together(crate, {name: batch[name] for name in rest}, note)]
        if len(batch) == 1 or not rest:
            return list(batch)
        halves = rest[: len(rest) // 2], rest[len(rest) // 2:]
        return [it for half in halves for it in tried_together(crate, {name: batch[name] for name in half}, note)]
    left, unclear = goals_left(crate, lines), bad
    names = {name: bodies_of(crate, edit) for name, edit in batch.items()}
    # no function is to fail that no edit changes: then each is tried alone
    others = {name: goals for name, goals in left.items()
              if not any(is_within(name, it) for edit in names.values() for it in edit)}
    if refusal(None, others):
        print(f"{crate.name}: in a batch of {len(batch)}, and changed by none: {refusal(None, others)}", flush=True)
        return list(batch)
    for name in batch:
        why = refusal(names[name], left) if name not in bad else None
        if why:
            note(name, "refused by a goal", why)
        elif name not in bad:
            unclear.append(name)
    return unclear


def tried_alone(crate, edit, note, name):
    """Tries an edit that changes more than bodies of functions; returns it where it isn't clearly refused."""
    lines = checked(crate, wrong_bodies.edited(crate.texts, edit))
    why = None if unread(lines) or proved(lines) is None else refusal(None, goals_left(crate, lines))
    if why:
        note(name, "refused by a goal", why)
    return [] if why else [name]


def tried(crate, edits, note):
    """Tries the edits, by name, and notes each that a goal refuses, as name, kind and words; returns the others."""
    changed = {name: wrong_bodies.changes(crate.texts, edit) for name, edit in edits.items()}
    within = {name: it for name, it in changed.items() if it is not None and bodies_of(crate, it)}
    left = []
    for batch in planned(within):
        left += tried_together(crate, batch, note)
    for name in [it for it in edits if it not in within]:
        left += tried_alone(crate, edits[name], note, name)
    return [name for name in edits if name in left]
