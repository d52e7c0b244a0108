"""Tiny cases for wrong_edits.py, wrong_runs.py, wrong_bodies.py and wrong_batches.py: files of edits, what is noted of
them, edits that are put together, and checks that are read."""
import contextlib
import io
import os
import tempfile

import wrong_batches
import wrong_bodies
import wrong_edits
import wrong_runs

CODE = """//! A text.
const STEP: u32 = 1;

pub trait Shape {
    fn area(&self) -> u32
        ensures { ⊤ };

    fn twice(&self) -> u32
        ensures { ⊤ }
    {
        2
    }
}

impl<T: Shape> Shape for Boxed<T> {
    fn area(&self) -> u32
        ensures twelve { result ≡ 12 }
    {
        12
    }
}

impl Boxed<u8> {
    pub(crate) fn item(
        &self,
    ) -> u8 {
        let item = self.item;
        item
    }
}

pub fn low(x: u32) -> u32
    requires { x < 100 }
    ensures one { result ≡ x + 1 }
{
    if x == 0 {
        return 1;
    }
    x + 1
}

#[cycle(both)]
fn round(x: u32) -> u32 {
    x.min(9)
}

fn holder() -> u32 {
    fn held() -> u32 {
        3
    }
    held()
}
"""
NAMES = ["box::more::BoxedShape::area", "box::more::Boxed::item", "box::more::low", "box::low", "box::more::round"]

SAID = """rt: chose --jobs 1 for box
./proofs/more/low/Answers.antt:6:29: error: `returns`: expected type `x ≡ 1`, but this has type `x ≡ 2`
  both types are shown computed
./proofs/more/high/Answers.antt:5:15: error: `returns`: module `Goals` has no `returns` that can be named from here
./proofs/more/wide/Answers.antt:7:3: error: `returns`: record `Rattle.box.proofs.more.wide.Lts.View.In-After-self-1`
  has no field `sum` (nearest: .sum-2)
impl box::more::BoxedShape: not proved; it waits for the proof of `area`
note: src/more.rt:15:5: it is not proved that what the function ensures holds when it returns (`returns-clause-twelve`)
fn box::more::BoxedShape::area: no proof: expected answers in ./proofs/area/Answers.antt; `search` did not prove `a`
fn box::more::low: not proved; it calls `box::more::high`, which is not proved
fn box::more::high: not proved
fn box::more::wide: not proved
note: src/more.rt:40:5: a note on what is proved
fn box::more::fn::low::inner: proved
fn box::more::slow: proved, may wait
fn box::more::mid: no proof: it calls `box::more::low`, which is not proved
note: src/more.rt:50:5: it is not proved that the sum is in range (`overflow`)
fn box::more::odd: not proved; it rests on something that is not proved
logic=not-proved
"""

EDITS = """untried

one
One thing
file: src/a.rt
old: x
new: y

two
Another thing
file: src/a.rt
old: x
new:
file: src/b.rt
old: y
new: z
"""
# a change of that file, and what is said of its form
MISSHAPEN = [("untried", "tried", "its first line"), ("untried", "tried: 12", "its first line"),
             ("two\n", "one\n", "one stands there twice"), ("two\n", "two things\n", "a line that is no name"),
             ("\ntwo", "\n\ntwo", "a line that is no name"), ("One thing\n", "", "one: no line says"),
             ("Another thing", " ", "two: no line says")]


def cases_of_edits():
    pairs = "file: src/a.rt\nold: x\nnew:"
    yield "a file of edits", wrong_edits.parted(EDITS), ("untried", [
        ["one", "One thing", f"{pairs} y"], ["two", "Another thing", f"{pairs}\nfile: src/b.rt\nold: y\nnew: z"]])
    yield "its form", list(wrong_edits.form_faults(EDITS)), []
    for old, new, why in MISSHAPEN:
        said = list(wrong_edits.form_faults(EDITS.replace(old, new, 1)))
        yield f"{old!r} as {new!r}", len(said) == 1 and said[0].startswith(why), True
    sums = [wrong_edits.sum_of("vtl_base", edits) for edits in ({"a": "1"}, {"a": "2"}, {"b": "1"}, {})]
    yield "sums of edits", len({*sums, wrong_edits.sum_of("ledgers", {"a": "1"})}), 5
    with tempfile.TemporaryDirectory(prefix="wrong_") as room:
        seen = set()
        for file, text in (("src/a", "1"), ("src/a", "2"), ("src/b", "2"), ("specs/a", "1"), ("proofs/more/a", "1")):
            os.makedirs(os.path.dirname(os.path.join(room, file)), exist_ok=True)
            with open(os.path.join(room, file), "w", encoding="utf-8") as to:
                to.write(text)
            seen.add(wrong_edits.sum_of_files(room))
        yield "sums of files", len(seen), 5
        with open(os.path.join(room, "README.md"), "w", encoding="utf-8") as to:
            to.write("1")
        yield "a file of no sum", wrong_edits.sum_of_files(room) in seen, True


def cases_of_results():
    edits, tried = {"a": "1", "b": "2"}, lambda edits: f"tried: {wrong_edits.sum_of('vtl_base', edits)}"
    line = lambda first, refused: wrong_edits.first_line("vtl_base", first, edits, refused)
    yield "all were refused", line("untried", {"a", "b"}), tried(edits)
    yield "one was refused", line("untried", {"a"}), "untried"
    yield "the others were before", line(tried({"b": "2"}), {"a"}), tried(edits)
    yield "another text was before", line(tried({"b": "3"}), {"a"}), tried({"b": "3"})
    yield "none was, this time", line(tried(edits), set()), tried(edits)
    with tempfile.TemporaryDirectory(prefix="wrong_") as room, contextlib.redirect_stdout(io.StringIO()):
        path = os.path.join(room, "results")
        for name, kind in (("a", "refused alone"), ("b", "NOT TRIED")):
            wrong_runs.Results(path, {"vtl_base": edits}).note("vtl_base", name, kind, "a: word\nand more")
        yield "what is left", wrong_runs.Results(path, {"vtl_base": edits}).left({"vtl_base": edits}), {
            "vtl_base": {"b": "2"}}
        other = {"a": "3"}
        yield "another edit", wrong_runs.Results(path, {"vtl_base": other}).left({"vtl_base": other}), {
            "vtl_base": other}


def cases_of_bodies(box):
    """Each case as its name, what came, and what was to come."""
    outside, inside = wrong_bodies.parted("src/more.rt", CODE)
    names = [body.name for body, _ in inside]
    yield "bodies", names, ["twice", "area", "item", "low", "round", "holder"]
    yield "the second body", inside[1][1], ["        12"]
    yield "a text in pieces", "\n".join(line for it in zip(outside, [*(lines for _, lines in inside), []])
                                        for lines in it for line in lines), CODE
    changed = lambda *lines: wrong_bodies.changes({"src/more.rt": CODE}, "\n".join(["file: src/more.rt", *lines]))
    low = {("src/more.rt", 3): ["    if x == 0 {", "        return 1;", "    }", "    x + 2"]}
    yield "one body", changed("old:     x + 1", "new:     x + 2"), low
    yield "a contract", changed("old: x < 100", "new: x < 99"), None
    yield "a constant", changed("old: STEP: u32 = 1", "new: STEP: u32 = 2"), None
    yield "a cycle", changed("old:     x.min(9)", "new:     x.min(8)"), None
    yield "an item within", changed("old:     held()", "new:     held() + 1"), None
    both = changed("old:         12", "new:         13", "old:         item", "new:         item + 1")
    yield "two bodies", sorted(both), [("src/more.rt", 1), ("src/more.rt", 2)]
    made = wrong_bodies.made({"src/more.rt": CODE}, {**low, **both})["src/more.rt"]
    yield "three edits", made, CODE.replace("    x + 1", "    x + 2").replace("        12", "        13").replace(
        "        item\n", "        item + 1\n")
    yield "a line's function", wrong_bodies.body_at("src/more.rt", CODE, 37), 3
    yield "a line of none", wrong_bodies.body_at("src/more.rt", CODE, 2), None
    named = [wrong_batches.name_of(body, box) for body, _ in inside]
    yield "names", named, [None, NAMES[0], NAMES[1], NAMES[2], NAMES[4], None]


def cases_of_checks(box):
    lines = SAID.splitlines()
    left = wrong_batches.goals_left(box, lines)
    said = {name: [goal for goal, _ in goals] for name, goals in left.items() if goals}
    yield "goals", said, {NAMES[0]: ["returns-clause-twelve"], NAMES[2]: ["returns"]}
    refused = lambda *names: (wrong_batches.refusal(names, left) or "").split(": ")[0]
    yield "its own goal", refused(NAMES[2]), "more::low"
    yield "a name alone", refused("box::more::high"), ""
    yield "another's goal", refused("box::more::mid"), ""
    yield "any goal", bool(wrong_batches.refusal(None, left)), True
    yield "a closure", wrong_batches.is_within("box::more::fn::low::inner", "box::more::low"), True
    yield "no closure", wrong_batches.is_within("box::more::lower", "box::more::low"), False
    yield "what is proved", wrong_batches.names_proved(lines), ["box::more::fn::low::inner", "box::more::slow"]
    yield "a verdict", [wrong_batches.proved(it) for it in (lines, ["logic=proved functions=9"], lines[:-1])], [
        False, True, None]
    yield "errors", wrong_batches.unread(["src/a.rt:7:3: error[no-name]: what", "note: src/a.rt:9:1: error", *lines]), [
        ("src/a.rt", 7)]
    edits = {"one": {1: 0}, "two": {1: 0}, "both": {1: 0, 2: 0}, "other": {2: 0}, "alone": {3: 0}}
    batches = wrong_batches.planned(edits)
    yield "batches", len(batches), 3
    yield "each once", sorted(name for batch in batches for name in batch), sorted(edits)
    yield "none twice", all(len({key for it in batch.values() for key in it}) == sum(map(len, batch.values()))
                            for batch in batches), True


def cases_of_files():
    with tempfile.TemporaryDirectory(prefix="wrong_") as room:
        kept, here = os.path.join(room, "kept"), os.path.join(room, "here")
        for folder, texts in ((kept, {"a": "1", "b": "2"}), (here, {"a": "1x", "c": "3", "more/d": "4"})):
            for name, text in texts.items():
                file = os.path.join(folder, name)
                os.makedirs(os.path.dirname(file), exist_ok=True)
                with open(file, "w", encoding="utf-8") as to:
                    to.write(text)
        wrong_batches.put_back(kept, here)
        yield "files", sorted(os.listdir(here)), ["a", "b"]
        with open(os.path.join(here, "a"), encoding="utf-8") as file:
            yield "a file", file.read(), "1"


def main():
    box = wrong_batches.Crate("box", "", "", {"src/more.rt": CODE}, NAMES)
    cases = [*cases_of_edits(), *cases_of_results(), *cases_of_bodies(box), *cases_of_checks(box), *cases_of_files()]
    for name, came, wanted in cases:
        if came != wanted:
            print(f"{name}: {came!r}, and not {wanted!r}")
    faults = sum(came != wanted for _, came, wanted in cases)
    print(f"wrong edits: {len(cases)} cases, {faults} faults")
    return 1 if faults else 0
