"""The bodies of functions in a crate's text, which of them an edit changes, and the text with several edits made.

It goes by the layout of `rt fmt`: a body stands between a line that ends in `{`, as deep as its `fn`, and the first `}`
alone that is as deep. What stands between two bodies is the same in each text that is made here."""
import os
import re
from dataclasses import dataclass

HEAD = re.compile(r"( *)(?:pub(?:\([\w: ]+\))? )?(?:const |unsafe )*fn (\w+)")
OWNER = re.compile(r"(?:pub(?:\([\w: ]+\))? )?(?:unsafe )?(?:impl\b|trait )")
# what the lines of a signature that are as deep as its `fn` begin with
GOES_ON = (")", ">", "->", "where", "{")
# an item within a body: others may see it
ITEM = re.compile(r"\s*(?:pub(?:\([\w: ]+\))? )?"
                  r"(?:impl|struct|enum|union|trait|static|const|mod|macro_rules!|(?:unsafe )?fn) ?\b")


@dataclass(frozen=True)
class Body:
    """A function, as lines of its file from 0 on: its `fn`, its body's first and the one behind its body's last."""

    path: str
    # the line or lines of its `impl` or `trait`, or nothing
    owner: str
    name: str
    head: int
    first: int
    last: int
    # proved together with others
    in_cycle: bool


def span(lines, head, indent):
    """The lines of the body of the function that begins at this one, or None where it has none."""
    for at in range(head, len(lines)):
        line = lines[at]
        is_as_deep = line.startswith(indent) and line[len(indent):len(indent) + 1].strip() != ""
        if at > head and (line and not line.startswith(indent)
                          or is_as_deep and not line[len(indent):].startswith(GOES_ON)):
            return None
        if is_as_deep and (line == indent + "{" or line.endswith(" {")):
            last = next((it for it in range(at + 1, len(lines)) if lines[it] == indent + "}"), None)
            return None if last is None else (at + 1, last)
    return None


def is_in_cycle(lines, head):
    at = head - 1
    while at >= 0 and lines[at].strip().startswith(("#[", "//")):
        if "#[cycle(" in lines[at]:
            return True
        at -= 1
    return False


def header(lines, at):
    end = next((it for it in range(at, len(lines)) if lines[it].endswith(("{", "{}"))), at)
    return " ".join(line.strip() for line in lines[at:end + 1])


def bodies(path, lines):
    """The functions of the file that have a body, in order; one within another's body is part of that."""
    found, owner, at = [], "", 0
    while at < len(lines):
        line = lines[at]
        if OWNER.match(line):
            owner = header(lines, at)
        elif line == "}":
            owner = ""
        head = HEAD.match(line)
        lies = span(lines, at, head[1]) if head else None
        if lies:
            found.append(Body(path, owner if head[1] else "", head[2], at, *lies, is_in_cycle(lines, at)))
            at = lies[1]
        at += 1
    return found


def parted(path, text):
    """The pieces of the text outside of bodies, and each body with its lines, in turn."""
    lines, outside, inside, at = text.split("\n"), [], [], 0
    for body in bodies(path, lines):
        outside.append(lines[at:body.first])
        inside.append((body, lines[body.first:body.last]))
        at = body.last
    return [*outside, lines[at:]], inside


def edited(texts, edit):
    """The texts that the edit changes, as it leaves them, by path. (wrong.py has looked at its form.)"""
    found, path, old = {}, None, None
    for line in edit.removesuffix("\n").split("\n"):
        word, _, rest = line.partition(":")
        if word == "file":
            path = rest.removeprefix(" ")
        elif word == "old":
            old = rest.removeprefix(" ")
        else:
            before = found.get(path, texts[path])
            assert before.count(old) == 1, f"{path}: {old}"
            found[path] = before.replace(old, rest.removeprefix(" "))
    return found


def changed_in(path, old, new):
    """The bodies that differ, as the new lines by the number of the body, or None where anything else differs."""
    outside, inside = parted(path, old)
    outside_now, inside_now = parted(path, new)
    if outside != outside_now:
        return None
    found = {}
    for at, ((body, were), (_, are)) in enumerate(zip(inside, inside_now)):
        if were != are:
            if body.in_cycle or any(ITEM.match(line) for line in [*were, *are]):
                return None
            found[at] = are
    return found


def changes(texts, edit):
    """The bodies that the edit changes, as their new lines by path and number, or None where it changes more."""
    found = {}
    for path, new in edited(texts, edit).items():
        here = changed_in(path, texts[path], new)
        if here is None:
            return None
        found.update({(path, at): lines for at, lines in here.items()})
    return found or None


def made(texts, changed):
    """The texts with these bodies, by path."""
    found = {}
    for path in {path for path, _ in changed}:
        outside, inside = parted(path, texts[path])
        lines = list(outside[0])
        for at, (_, were) in enumerate(inside):
            lines += [*changed.get((path, at), were), *outside[at + 1]]
        found[path] = "\n".join(lines)
    return found


def body_at(path, text, line):
    """The number of the function to which this line of the text, from 1 on, belongs, or None."""
    found = None
    for at, body in enumerate(bodies(path, text.split("\n"))):
        if body.head < line <= body.last + 1:
            found = at
    return found


def sources(folder):
    """The texts of the crate's sources, by path."""
    found = {}
    for place, _, files in os.walk(os.path.join(folder, "src")):
        for file in files:
            if file.endswith(".rt"):
                full = os.path.join(place, file)
                with open(full, encoding="utf-8") as text:
                    found[os.path.relpath(full, folder)] = text.read()
    return found
