#!/usr/bin/env python3
"""Writes docs/EDITS.md: each edit of crates/*/must-fail and crates/*/wrong.edits, under the function that it changes.
It takes no words."""
import os
import re
import sys

from definitions import crates, read
from wrong_edits import edits_in

TOP = os.path.dirname(os.path.dirname(os.path.abspath(__file__)))
DOCS = os.path.join(TOP, "docs")
HEAD = """# Edits

An index, made by `checks/edits.py` from `crates/*/must-fail` and `crates/*/wrong.edits`. Each edit makes a function
wrong, and the prover has to refuse the crate with it. The gate tries the edits of `must-fail/`, a file `NAME.edit`
each, which stand here in bold. `make wrong` tries those of `wrong.edits`; `make wrong CRATE=name EDIT=name` tries one.
An edit that changes several functions stands under each. [CLAIMS.md](CLAIMS.md) names one edit for each claim.
"""


def places_of(crate, edit):
    """Each place that an edit changes: the file and the function."""
    path, old, texts = None, None, {}
    for line in edit.splitlines():
        word, _, rest = line.partition(": ")
        if word == "file":
            path = rest
        elif word == "old":
            old = rest
            text = texts.setdefault(path, read(TOP, "crates", crate, path))
            yield path, item_at(text, old)
        else:
            # a later old text may stand in what an earlier change put there
            texts[path] = texts[path].replace(old, rest)


def bare(header):
    """The type that an `impl` is of, without its parameters."""
    words, shorter = header, re.sub(r"<[^<>]*>", "", header)
    while shorter != words:
        words, shorter = shorter, re.sub(r"<[^<>]*>", "", shorter)
    return re.split(r"\bfor\b", words.removeprefix("impl"))[-1].split("{")[0].split(" where ")[0].strip()


def item_at(text, old):
    """The function, or another item, in which the old text stands; nothing for a line that only names others."""
    if old.lstrip().startswith(("use ", "pub use ", "ghost use ")):
        return ""
    owner, name = "", ""
    for line in (text[: text.index(old)] + old).splitlines():
        named = re.match(r"(\s*)(?:pub(?:\(\w+\))? )?(?:const )?(?:fn|const|static|struct|enum|trait) (\w+)", line)
        if line.startswith("impl"):
            owner, name = bare(line), ""
        elif line.startswith("}"):
            owner, name = "", ""
        elif named:
            name = f"{owner}::{named[2]}" if owner and named[1] else named[2]
    return name or owner


def rows(crate):
    """The functions of the crate that edits change, by file, each with the names of its edits."""
    found = {}
    for folder, form in (("must-fail", "**`{}`**"), ("wrong.edits", "`{}`")):
        for name, text in sorted(edits_in(crate, folder).items()):
            places = list(places_of(crate, text))
            # a line `use` alone is no function, unless nothing else is changed
            for place in {it for it in places if it[1]} or set(places):
                found.setdefault(place, []).append(form.format(name))
    return sorted(found.items())


def whole():
    text, every = [], 0
    for crate in crates():
        gated, others = len(edits_in(crate, "must-fail")), len(edits_in(crate, "wrong.edits"))
        every += gated + others
        if gated + others:
            text.append(f"\n## {crate}\n\n{gated} in `must-fail/`, {others} in `wrong.edits`.\n\n")
            text.append("| File | Function | Edits |\n|---|---|---|\n")
            text += [f"| {path.removeprefix('src/')} | `{item}` | {', '.join(names)} |\n".replace("``", "")
                     for (path, item), names in rows(crate)]
    return "".join([HEAD, f"\nThere are {every} edits.\n", *text])


def main(words):
    if words:
        sys.exit(__doc__)
    with open(os.path.join(DOCS, "EDITS.md"), "w", encoding="utf-8") as file:
        file.write(whole())
    return 0


if __name__ == "__main__":
    sys.exit(main(sys.argv[1:]))
