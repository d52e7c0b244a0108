#!/usr/bin/env python3
"""Writes docs/HEADLINE.md: the clauses that carry the two promises, each definition that they name, in the order of
reading, and what is trusted. headline_words.py has what is written by hand, headline_names.py finds the definitions.

headline.py           writes the page
headline.py --check   says where the page differs, and what is wrong; ends with 1 where there is anything
headline.py --heavy   lists the definitions by how many lines would go if the text of each were left out
headline.py --heavy --whole   does so where no text is left out
"""
import os
import re
import sys
import textwrap

import headline_words as words
from definitions import TOP, crates, parted, read
from headline_names import WORD, call, closure, here, meant, needs, path_of, scope_of, shown

PAGE = os.path.join(TOP, "docs", "HEADLINE.md")
WIDTH = 120
CUTS = {name: parts for left_out in words.LEFT_OUT.values() for name, parts in left_out.items()}
REASONS = {name: why for why, left_out in words.LEFT_OUT.items() for name in left_out}
LAWS = ("file_disk", "raw.rt", "RawFile")


def crate_of(item):
    return os.path.relpath(item.file, os.path.join(TOP, "crates")).split(os.sep)[0]


def clauses(seed):
    """The head of a call and the clauses of it that count, as text; a trait has all that stands in it."""
    crate, file, name, labels = seed[:4]
    _, head, all_clauses = call(path_of(crate, "src", file), name)
    inside = len(head) - len(head.lstrip())
    kept = [one.text for one in all_clauses if one.kind == "requires" or one.label in labels]
    text = "\n".join([head.lstrip(), *(" " * (inside + 4) + one for one in kept)])
    return re.sub(rf"\n {{{inside}}}", "\n", text) if inside else text


def firsts():
    """The definitions that the clauses name, and those that the laws of an open file name."""
    return [item for seed in (*words.SEEDS, (*LAWS, None)) for item in meant(path_of(seed[0], "src", seed[1]),
                                                                               clauses(seed))[0]]


def before(item):
    """The definition over one in its file, of which its comment says that it is the same of something else."""
    names = list(scope_of(item.file).items) if re.match(r"the same (for|of|from) ", item.comment.lower()) else []
    return scope_of(item.file).items[names[names.index(item.name) - 1]] if names else None


def in_order(reached, cuts):
    """The definitions as they stand in their files, but each behind those that it needs."""
    order, met, names = [], set(), crates()

    def stands(item):
        return names.index(crate_of(item)), item.file, read(item.file).index(item.text.splitlines()[0])

    def visit(item):
        key = item.file, item.name
        if key not in met and key in reached:
            met.add(key)
            if before(item):
                visit(before(item))
            for other in needs(item, cuts)[0]:
                visit(other)
            order.append(item)

    for item in sorted(reached.values(), key=stands):
        visit(item)
    return order


def lines_of(items, cuts):
    return sum(len(shown(item, cuts).splitlines()) for item in items)


def given(item):
    """What the modules around a definition give it, such as `(state : D → DiskState)`."""
    heads = " ".join(re.sub(r"^module \S+ | where$", "", head) for head in item.heads)
    return f", given `{heads}`" if heads else ""


def wrapped(text):
    return textwrap.fill(text, WIDTH, break_long_words=False, break_on_hyphens=False)


def left_out(item):
    if item.name not in CUTS:
        return ""
    parts, why = CUTS[item.name], words.MARKS[REASONS[item.name]]
    return f" *Left out ({why})" + (": " + ", ".join(f"`{part}`" for part in parts) if parts else "") + ".*"


def entry(item, order):
    """A definition on the page: its name and file, its comment, and its text."""
    same = before(item) if before(item) not in order else None
    over = f" *Over it stands `{same.name}`, which is not needed:* {parted(same.comment)[0]}" if same else ""
    comment, source = parted(item.comment)
    file = os.path.relpath(item.file, TOP)
    said = comment[:1].upper() + comment[1:] + ("" if comment.endswith((".", ")")) or not comment else ".")
    source = f" ({source})" if source and source != "own" else ""
    where = f"[{os.path.basename(file)}](../{file}){given(item)}"
    text = shown(item, CUTS)
    head = wrapped(f"**`{item.name}`** ({where}). {said}{source}{over}{left_out(item)}")
    return f"{head}\n" + (f"\n```text\n{text}\n```\n" if text else "") + "\n"


def table_of_calls():
    rows = []
    for crate, file, name, labels, says, why in words.SEEDS:
        label = ", ".join(f"`{one}`" for one in labels or () if one)
        rows.append(f"| `{crate}`: `{name}`{' ' + label if label else ''} | {says} | {why} |\n")
    return "| Call and clauses | What they say | Why it is here |\n|---|---|---|\n" + "".join(rows)


def table_of_sections(page):
    rows = (f"| [{title}](#{title.lower().replace(',', '').replace(' ', '-')}) | {len(items)}"
            f" | {lines_of(items, CUTS)} |\n" for title, items in page.items() if items)
    return "| Section | Definitions | Lines |\n|---|---|---|\n" + "".join(rows)


def section_of(item):
    return next((title for title, names in words.SECTIONS.items() if crate_of(item) in names), None)


def counts(items, whole):
    some = sum(item.name in CUTS for item in items)
    calls = sum(len(clauses(seed).splitlines()) for seed in (*words.SEEDS, (*LAWS, None)))
    return wrapped(
        f"**{len(items)} definitions** stand here, with **{lines_of(items, CUTS)} lines** of text, beside {calls} lines"
        f" of calls and traits. Of {some} definitions all or some text is left out, and that is marked. With that text,"
        f" and all that it leads to, there would be {len(whole)} definitions with {lines_of(whole.values(), {})} lines."
        " Why text is left out:")


def reasons(items):
    said = []
    for why, names in words.LEFT_OUT.items():
        some = [item for item in items if item.name in names]
        gone = sum(len(item.text.splitlines()) for item in some) - lines_of(some, CUTS)
        line = f"- *{words.MARKS[why]}*: {why}. {len(some)} definitions, {gone} lines of their own."
        said.append(textwrap.fill(line, WIDTH, subsequent_indent="  ") + "\n")
    return "".join(said)


def made():
    """The page, and what is wrong."""
    faults = []
    reached, outer = closure(firsts(), CUTS)
    whole, _ = closure(firsts(), {})
    trusted, _ = closure(meant(path_of(*LAWS[:1], "src", LAWS[1]), clauses((*LAWS, None)))[0], CUTS)
    order = in_order(reached, CUTS)
    names = {item.name for item in order}
    faults += [f"headline_words.py leaves out {name}, which nothing leads to" for name in CUTS if name not in names]
    said = words.PROMISES + "".join(words.LEFT_OUT)
    faults += [f"headline_words.py speaks of {name}, which is not on the page" for name in re.findall(r"`(\w+)`", said)
               if name not in names]
    faults += [f"{item.name} names {other}, which is not on the page" for item in order
               for other in overlooked(item, names)]
    page = {title: [] for title in words.SECTIONS}
    last = []
    for item in order:
        title = section_of(item)
        if title:
            page[title].append(item)
        elif (item.file, item.name) in trusted:
            last.append(item)
        else:
            faults.append(f"no section of headline_words.py has the crate {crate_of(item)}, for {item.name}")
    placed = [item for items in page.values() for item in items] + last
    place = {item: number for number, item in enumerate(placed)}
    faults += [f"{item.name} stands before {other.name}, which it names" for item in placed
               for other in needs(item, CUTS)[0] if place[other] > place[item]]
    faults += [f"{item.file}: {item.name} has no comment over it" for item in placed if not item.comment]
    met = sorted({name for _, name in outer}, key=list(words.LIBRARY).index) if all(
        name in words.LIBRARY for _, name in outer) else []
    faults += [f"headline_words.py has no meaning of {name} ({module})" for module, name in outer
               if name not in words.LIBRARY]
    text = [words.HEAD, counts(placed, whole), "\n\n", reasons(placed), "\n", words.PROMISES,
            "## The calls\n\nThe text of these clauses stands [below](#the-clauses).\n\n", table_of_calls(), "\n",
            table_of_sections(page), "\n", words.NOTATION]
    for title, items in page.items():
        text += [f"## {title}\n\n", *(entry(item, placed) for item in items)] if items else []
    text.append("## The clauses\n\nWhat is left out of a call are clauses that the promises do not need.\n\n")
    for seed in words.SEEDS:
        file = os.path.join("crates", seed[0], "src", seed[1])
        said = call(os.path.join(TOP, file), seed[2])[0]
        head = wrapped(f"**`{seed[2]}`** ([{seed[0]}/src/{seed[1]}](../{file})): {seed[4]}. {said}")
        text.append(f"{head}\n\n```text\n{clauses(seed)}\n```\n\n")
    text += [words.TRUSTED, f"```text\n{clauses((*LAWS, None))}\n```\n\n", *(entry(item, placed) for item in last)]
    text.append("### Words of the library\n\n| Word | Meaning |\n|---|---|\n")
    for name in met:
        sign = re.sub(" +", " ", name.replace("◌", " ")).strip().replace("|", "\\|")
        text.append(f"| `{sign}` | {words.LIBRARY[name]} |\n")
    return "".join(text), faults


def overlooked(item, names):
    """Words of a definition's text that stand for definitions and are not on the page; one that is bound may be one."""
    scope = scope_of(item.file)
    text = re.sub(r"--.*", "", shown(item, CUTS)) if item.file.endswith(".antt") else ""
    firsts_of = {word.partition(".")[0] for word in WORD.findall(re.sub(r"\bpub \w+ :|\w+ =(?!=)", " ", text))}
    known = {first: here(item.file, first) for first in firsts_of if first in {*scope.items, *scope.cases, *scope.used}}
    return [other.name for other in known.values() if other and other.name not in names]


def heavy(cuts):
    """How many lines would go with each definition, if its own text were left out."""
    first = [(item.file, item.name) for item in firsts()]
    reached, _ = closure(firsts(), cuts)
    lines = {key: lines_of([item], cuts) for key, item in reached.items()}
    named = {key: [(other.file, other.name) for other in needs(item, cuts)[0]] for key, item in reached.items()}

    def left(without):
        met, behind = set(), list(first)
        while behind:
            key = behind.pop()
            if key not in met:
                met.add(key)
                behind += [] if key == without else named[key]
        return sum(lines[key] for key in met if key != without)

    total = sum(lines.values())
    rows = sorted(((total - left(key), item.name, crate_of(item)) for key, item in reached.items()), reverse=True)
    print("\n".join(f"{count} {name} ({crate})" for count, name, crate in rows))


def main(arguments):
    if arguments[:1] == ["--heavy"]:
        heavy({} if "--whole" in arguments else CUTS)
        return 0
    text, faults = made()
    if arguments == ["--check"]:
        differs = not os.path.isfile(PAGE) or read(PAGE) != text
        faults += ["docs/HEADLINE.md is not what checks/headline.py makes: run it"] if differs else []
    elif arguments:
        sys.exit(__doc__)
    else:
        with open(PAGE, "w", encoding="utf-8") as file:
            file.write(text)
    print("\n".join([*faults, f"headline: {len(faults)} faults"]))
    return 1 if faults else 0


if __name__ == "__main__":
    sys.exit(main(sys.argv[1:]))
