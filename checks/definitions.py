#!/usr/bin/env python3
"""Writes docs/DEFINITIONS.md, which the repository does not keep: the definitions in crates/*/specs, limits, layout and
laws, each by the comment over it; and crates/README.md: the crates by their kinds (crate_list.py).

definitions.py           writes the files
definitions.py --check   says where the page of crates differs, where two definitions share a name, where one has no
                         comment, and which lines of .rt, .antt, .md, .py and .c files are over 120 columns or left of a
                         merge; ends with 1 where there is any of these
definitions.py --unreached   lists definitions that no public contract or law seems to reach, by their names
"""
import difflib
import os
import re
import sys

import crate_list
from index_words import WORDS

TOP = os.path.dirname(os.path.dirname(os.path.abspath(__file__)))
WIDTH = 120
HEAD = """# Definitions

An index, made by `checks/definitions.py` from the comment over each definition; it holds no second copy. Listed are the
definitions of `crates/*/specs` that a public contract or a law reaches, the limits, and the laws. What only private
functions' contracts use stands in `crates/*/specs/Inner` and is not listed. A file is named below `crates/`. *From*
names the standard and the command or section, or *own* for a rule of this project.

One word for one thing, in code, contracts and documents: *tape* (a medium's partitions of objects), *object number*
(from 0 on), *image* (bytes that a crash may leave), *frame*, *stored*, *pending* (accepted and not stored yet),
*settle* (store all that is pending), *refusal* (changes nothing), *fault* (a call of a device failed), *conflict* (the
status RESERVATION CONFLICT), *room* (bytes left).
"""
SOURCE = re.compile(r"\s*\(([^()]*(?:\([^()]*\)[^()]*)*)\)\.?\s*$")
DEFINED = re.compile(r"( *)((?:(?:pub|abbrev|unfoldable|opaque|data|record)\s+)+)([^\s:(){},;]+)")


def read(*path):
    with open(os.path.join(*path), encoding="utf-8") as file:
        return file.read()


def crates():
    """The names of the crates, in the order of crates.txt."""
    lines = (line.partition("#")[0].partition(":")[0].split() for line in read(TOP, "crates.txt").splitlines())
    return [words[0] for words in lines if words]


def files_below(crate, part, ending):
    found = []
    for folder, folders, files in os.walk(os.path.join(TOP, "crates", crate, part)):
        folders.sort()
        found += [os.path.join(folder, file) for file in sorted(files) if file.endswith(ending)]
    return found


def below_crates(path):
    return os.path.relpath(path, os.path.join(TOP, "crates"))


def specification(crate):
    """The files of the crate's specs/ but for those that only name others and those of private functions."""
    inner = os.path.join(TOP, "crates", crate, "specs", "Inner")
    files = files_below(crate, "specs", ".antt")
    return [it for it in files
            if os.path.basename(it) not in ("Lib.antt", "Inner.antt") and not it.startswith(inner + os.sep)]


def definitions(path):
    """Each definition of a file: its name, whether it is public, the comment over it."""
    comment, indent = [], 0
    for line in read(path).splitlines():
        said, named = re.match(r"\s*-- ?(.*)", line), DEFINED.match(line)
        column = len(line) - len(line.lstrip())
        if line.lstrip().startswith("module _"):
            indent = column + 2
        elif line and not said:
            indent = min(indent, column)
        # a field of a record, or a case, is further in
        is_one = named and len(named[1]) <= indent
        if said:
            comment.append(said[1].strip())
        elif is_one and named[3] != "mod" and named[3] != "use":
            yield named[3], "pub" in named[2].split(), " ".join(comment)
            comment = []
        else:
            comment = []


def documented(path, item):
    """Each item of a .rt file that the pattern names, with the words of the /// lines over it."""
    words = []
    for line in read(path).splitlines():
        said, named = re.match(r"\s*/// ?(.*)", line), re.match(item, line)
        if said:
            words.append(said[1].strip())
        elif named:
            yield (*named.groups(), " ".join(words))
            words = []
        elif not line.strip().startswith("#["):
            words = []


def parted(comment):
    """A comment without its source, and the source."""
    source = SOURCE.search(comment)
    if source and re.search(r"\bown\b|S[SPAM][CM]|RFC", source[1]):
        return SOURCE.sub("", comment).strip(), source[1]
    return comment, ""


def limits():
    """Each limit, and each number and mark of a file: its name, words and source, value, file."""
    constant = r"pub const (\w+): [^=]+ = (.*);"
    for path in files_below("vtl_base", "src", ".rt"):
        if os.path.basename(path) in ("limits.rt", "layout.rt"):
            for name, value, words in documented(path, constant):
                yield name, words, re.sub(r"(?<=\d)_(?=\d)", ",", value), below_crates(path)


def laws():
    for crate in crates():
        for path in files_below(crate, "src", ".rt"):
            if re.search(r"/src/laws(\.rt|/.*)$", path):
                for name, words in documented(path, r"\s*pub fn (\w+)"):
                    yield name, words, below_crates(path)


def cell(words):
    return words.replace("|", "\\|")


# names that two crates have, each for its own: a drive's position at power on, and the first bytes of a side
SHARED = {"start"}


def whole():
    """The text of DEFINITIONS.md, and the faults that were met on the way."""
    faults, rows, where = [], {}, {}
    for crate in crates():
        for path in specification(crate):
            file = below_crates(path)
            for name, is_public, comment in definitions(path):
                if where.setdefault(name, file) != file and name not in SHARED:
                    faults.append(f"{name} is defined in {where[name]} and in {file}")
                if is_public and not comment:
                    faults.append(f"{file}: {name} has no comment over it")
                if is_public:
                    rows.setdefault(crate, []).append((name, *parted(comment), file))
    text = [HEAD, "\n## Words that people look for\n\n| Word | See |\n|---|---|\n"]
    listed = {name: file for row in rows.values() for name, _, _, file in row}
    listed |= {name: file for name, _, _, file in limits()} | {name: file for name, _, file in laws()}
    for word in sorted(WORDS, key=str.lower):
        names = [] if isinstance(WORDS[word], str) else WORDS[word]
        faults += [f"the word '{word}' leads to {name}, which is no definition, limit or law"
                   for name in names if name not in listed]
        see = ", ".join(f"`{name}` ({listed.get(name)})" for name in names) or WORDS[word]
        text.append(f"| {word} | {see} |\n")
    text.append("\n## Limits, and the layout of a file\n\n| Name | In words | Value | File |\n|---|---|---|---|\n")
    text += [f"| `{name}` | {cell(words)} | {value} | {file} |\n" for name, words, value, file in limits()]
    text.append("\n## Laws\n\nEach is a public function that does nothing, and its contract is the law.\n\n")
    text.append("| Name | In words | File |\n|---|---|---|\n")
    text += [f"| `{name}` | {cell(words)} | {file} |\n" for name, words, file in laws()]
    for crate, row in rows.items():
        text.append(f"\n## {crate}\n\n| Name | In words | File | From |\n|---|---|---|---|\n")
        text += [f"| `{name}` | {cell(words)} | {file} | {source} |\n" for name, words, source, file in row]
    return "".join(text), faults


def long_lines():
    for folder, folders, files in os.walk(TOP):
        folders[:] = sorted(it for it in folders if it not in (".git", "out"))
        for file in sorted(files):
            if file.endswith((".rt", ".antt", ".md", ".py", ".c")):
                path = os.path.join(folder, file)
                for number, line in enumerate(read(path).splitlines(), 1):
                    if len(line) > WIDTH and not re.match(r"\||\s*(pub )?(ghost )?use ", line):
                        yield f"{os.path.relpath(path, TOP)}:{number} has {len(line)} columns"
                    if re.match(r"<<<<<<< |>>>>>>> ", line):
                        yield f"{os.path.relpath(path, TOP)}:{number} is left of a merge"


def names_in(text):
    return set(re.findall(r"[^\s(){}\[\],;:.λ→×⊎≡]+", text))


def public_names(path):
    """The names in a file of sources, but for those in its private functions."""
    found, is_public = set(), False
    for line in read(path).splitlines():
        if re.match(r"\s*(///|//|ghost use|use )", line):
            continue
        if re.match(r"\s*(pub )?(const )?(fn|struct|enum|trait|impl)\b", line):
            is_inside = line.startswith(" ") and line.strip().startswith("fn") and "impl" in line
            is_public = not re.match(r"fn ", line) or is_inside
        if is_public:
            found |= names_in(line)
    return found


def parts_of(path):
    """Each part of a file of specs/: the name that it defines, whether it is a law, the part, and the heads of the
    modules around it."""
    # what stands in a module is read as if it stood alone
    heads, parts, part = [], [], []
    for line in read(path).splitlines():
        column = len(line) - len(line.lstrip())
        heads = [head for head in heads if not line or column > head[0]]
        if line.lstrip().startswith("module "):
            heads = [*heads, (column, line.strip())]
            part = []
            continue
        bare = line[heads[-1][0] + 2:] if heads else line
        if re.match(r"--|\S", bare):
            part = []
            parts.append((part, [head for _, head in heads]))
        part.append(bare)
    for lines, around in parts:
        text = "\n".join(lines)
        named, head = DEFINED.match(text), re.match(r"\S+", text)
        if not re.match(r"(pub )?use |--", text):
            yield named[3] if named else head[0], bool(named) and named[2].strip() == "pub", text, around


def unreached():
    """Definitions whose names no public contract, nor a definition that one names, has among its words."""
    seeds, bodies = set(), {}
    for crate in crates():
        for path in files_below(crate, "src", ".rt"):
            seeds |= public_names(path)
        for path in specification(crate):
            for name, is_law, part, _ in parts_of(path):
                bodies[name] = bodies.get(name, "") + "\n" + part
                seeds |= {name} if is_law else set()
    reached, left = set(), list(seeds & set(bodies))
    while left:
        name = left.pop()
        if name not in reached:
            reached.add(name)
            left += names_in(bodies[name]) & set(bodies)
    for crate in crates():
        for path in specification(crate):
            for name, is_public, _ in definitions(path):
                if name not in reached:
                    yield f"{below_crates(path)}: {name}"


# what is made and kept in the repository; the indexes are only made
KEPT = [os.path.join("crates", "README.md")]


def pages():
    """Each page that is made, by its path, and the faults that were met on the way."""
    (index, faults), (crate_page, others) = whole(), crate_list.text()
    made = {os.path.join("docs", "DEFINITIONS.md"): index, os.path.join("crates", "README.md"): crate_page}
    return made, faults + others


def check():
    made, faults = pages()
    differs = []
    for path in KEPT:
        text, has = made[path], read(TOP, path)
        found = list(difflib.unified_diff(has.splitlines(), text.splitlines(), path, "as it is made", n=0, lineterm=""))
        faults += [f"{path} is not what checks/definitions.py makes: run it"] if found else []
        differs += found
    faults += long_lines()
    print("\n".join([*[line[:200] for line in differs[:60]], *faults]), end="\n" if differs or faults else "")
    print(f"definitions: {len(differs)} lines differ, {len(faults)} faults")
    return 1 if differs or faults else 0


def main(words):
    if words == ["--check"]:
        return check()
    if words == ["--unreached"]:
        print("\n".join(unreached()))
        return 0
    if words:
        sys.exit(__doc__)
    made, faults = pages()
    for path, text in made.items():
        with open(os.path.join(TOP, path), "w", encoding="utf-8") as file:
            file.write(text)
    print("\n".join(faults), end="\n" if faults else "")
    return 0


if __name__ == "__main__":
    sys.exit(main(sys.argv[1:]))
