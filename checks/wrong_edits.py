"""The crates of the repository, and their edits: those of must-fail/, a file each, and those of the file wrong.edits.

wrong.edits begins with `untried`, or with `tried: ` and the sum (sum_of) of the text over which all of its edits were
refused. The edits follow, a blank line before each: a name, a line that says what is wrong, and lines `file: `, `old: `
and `new: ` as a file of must-fail/ has them."""
import functools
import hashlib
import os
import re

TOP = os.path.dirname(os.path.dirname(os.path.abspath(__file__)))
UNTRIED = "untried"
FIRST = re.compile(rf"{UNTRIED}|tried: [0-9a-f]{{16}}")


def read(*path):
    with open(os.path.join(*path), encoding="utf-8") as file:
        return file.read()


@functools.cache
def crates():
    """Each crate of crates.txt with the names behind its colon."""
    found = {}
    for line in read(TOP, "crates.txt").splitlines():
        line = line.partition("#")[0].strip()
        if line:
            name, _, below = line.partition(":")
            found[name.split()[0]] = re.split(r"[\s,]+", below.strip()) if below.strip() else []
    return found


def lowest_first(names, known):
    """These crates and all of the repository below them, each behind those that it uses."""
    found = []
    for name in names:
        below = lowest_first([it for it in known[name] if it in known], known)
        found += [it for it in [*below, name] if it not in found]
    return found


def libraries_below(names, known):
    below = {it for name in names for it in lowest_first([name], known)[:-1]}
    return [it for it in lowest_first([*names], known) if it in below]


def file_of(crate):
    """Where the edits stand that `make wrong` tries."""
    return os.path.join(TOP, "crates", crate, "wrong.edits")


def parted(text):
    """The first line of a file wrong.edits; and its edits, each as its name, what is wrong, and its pairs."""
    first, *blocks = text.removesuffix("\n").split("\n\n")
    return first, [(block.split("\n", 2) + ["", ""])[:3] for block in blocks]


def form_faults(text):
    """What is wrong with the form of a file wrong.edits; fault_in looks at the pairs."""
    first, edits = parted(text)
    if not FIRST.fullmatch(first):
        yield f"its first line is neither '{UNTRIED}' nor 'tried: ' and a sum: {first[:60]!r}"
    names = [name for name, _, _ in edits]
    for name, what, _ in edits:
        if not re.fullmatch(r"\w+", name):
            yield f"a line that is no name stands where an edit begins: {name[:60]!r}"
        elif not what.strip() or what.startswith(("file: ", "old: ", "new:")):
            yield f"{name}: no line says what is wrong"
    yield from (f"{name} stands there twice" for name in sorted({it for it in names if names.count(it) > 1}))


def edits_in(crate, folder):
    """The edits of the crate in must-fail/ or in wrong.edits: the pairs of each, by name."""
    place = os.path.join(TOP, "crates", crate, folder)
    if folder == "wrong.edits":
        return {name: pairs + "\n" for name, _, pairs in parted(read(place))[1]} if os.path.isfile(place) else {}
    files = sorted(os.listdir(place)) if os.path.isdir(place) else []
    return {file.removesuffix(".edit"): read(place, file) for file in files if file.endswith(".edit")}


def sum_of_files(folder):
    """A sum of the sources, definitions and proofs in the folder of a crate."""
    found = hashlib.sha256()
    for part in ("src", "specs", "proofs"):
        for place, folders, files in os.walk(os.path.join(folder, part)):
            folders.sort()
            for name in sorted(files):
                path = os.path.join(place, name)
                text = read(path)
                found.update(f"{os.path.relpath(path, folder)} {len(text)}\n{text}".encode())
    return found.hexdigest()


@functools.cache
def sum_below(crate):
    """A sum of the text of the crate and of all crates below it."""
    found = [f"{name} {sum_of_files(os.path.join(TOP, 'crates', name))}"
             for name in sorted(lowest_first([crate], crates()))]
    return hashlib.sha256("\n".join(found).encode()).hexdigest()


def sum_of(crate, edits):
    """A sum of these edits of the crate, and of the text that they change."""
    found = [sum_below(crate), *(f"{name}\n{pairs}" for name, pairs in sorted(edits.items()))]
    return hashlib.sha256("\n".join(found).encode()).hexdigest()[:16]


def first_line(crate, first, edits, refused):
    """What the crate's file begins with once these were refused: a sum, if all were, or all others were before."""
    others = {name: pairs for name, pairs in edits.items() if name not in refused}
    is_tried = not others or first == f"tried: {sum_of(crate, others)}"
    return f"tried: {sum_of(crate, edits)}" if is_tried else first


def fault_in(crate, edit):
    """Why the edit would not be tried as its pairs read, or None."""
    texts, path, old, pairs = {}, None, None, 0
    for line in edit.removesuffix("\n").split("\n"):
        word, _, rest = line.partition(": ")
        if word == "file" and rest and old is None:
            path = rest
            if not re.fullmatch(r"src/[\w/]+\.rt", path):
                return f"{path}: an edit is one of the code, a file src/*.rt"
            if not os.path.isfile(os.path.join(TOP, "crates", crate, path)):
                return f"there is no file {path}"
        elif word == "old" and rest and path and old is None:
            old = rest
        elif (word == "new" and rest or line == "new:") and old is not None:
            before = texts.setdefault(path, read(TOP, "crates", crate, path))
            if before.count(old) != 1:
                return f"its old text stands in {path} {before.count(old)} times, and not once: {old[:60]}"
            if rest == old:
                return "its new text is the old one"
            texts[path], old, pairs = before.replace(old, rest), None, pairs + 1
        else:
            return f"a line that is not 'file: ', 'old: ' or 'new: ' in its place is not read: {line[:60]!r}"
    if old is not None:
        return "an old text has no new one"
    return None if pairs else "it has no pair of old and new"
