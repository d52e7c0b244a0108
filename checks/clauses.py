#!/usr/bin/env python3
"""Lists the clauses of calls whose text is another one than in a revision: `clauses.py REV [FOLDER ..]`, by default
of `Medium`, of `Bay`, `Held` and `move_lent`, and of `Library`. A layout alone makes no difference."""
import pathlib
import re
import subprocess
import sys

ROOT = pathlib.Path(__file__).resolve().parent.parent
FOLDERS = ["crates/volume_core/src", "crates/bay_moves/src", "crates/library/src"]
HEAD = re.compile(r"( *)pub (?:const )?fn (\w+)|( *)fn (\w+)")
OWNER = re.compile(r"(?:pub )?(?:unsafe )?(?:impl|trait) (?:\w+ for )?(\w+)")
CLAUSE = re.compile(r"\s*(requires|ensures)\b ?(\w*)")


def clauses(text):
    """The clauses of a text: by owner, function, kind and name."""
    found, owner, name = {}, "", None
    lines = [re.sub(r"//.*", "", line) for line in text.splitlines()]
    at = 0
    while at < len(lines):
        line = lines[at]
        if line and line[0] not in " }":
            while "<" in line and re.sub(r"<[^<>]*>", "", line) != line:
                line = re.sub(r"<[^<>]*>", "", line)
            owner = (OWNER.match(line) or ["", ""])[1]
            line = lines[at]
        head = HEAD.match(line)
        if head:
            name = head[2] or head[4]
        said = CLAUSE.match(line) if name else None
        if said:
            depth, parts = 0, []
            while True:
                parts.append(lines[at].strip())
                depth += lines[at].count("{") - lines[at].count("}")
                if depth <= 0:
                    break
                at += 1
            whole = " ".join(parts)
            key = (f"{owner}::{name}" if owner else name, said[1], said[2])
            found[key] = found.get(key, "") + re.sub(r"\s+", " ", whole[whole.index("{"):])
        at += 1
    return found


def at_revision(revision, folder):
    names = subprocess.run(["git", "ls-tree", "-r", "--name-only", revision, folder], cwd=ROOT, text=True,
                           capture_output=True, check=True).stdout.split()
    for name in names:
        if name.endswith(".rt"):
            yield name, subprocess.run(["git", "show", f"{revision}:{name}"], cwd=ROOT, text=True,
                                       capture_output=True, check=True).stdout


def main(revision, folders):
    count = 0
    for folder in folders:
        old, new = {}, {}
        for _, text in at_revision(revision, folder):
            old.update(clauses(text))
        for path in sorted((ROOT / folder).rglob("*.rt")):
            new.update(clauses(path.read_text()))
        for key in sorted(set(old) | set(new)):
            if old.get(key) != new.get(key):
                count += 1
                print(f"{folder}: {key[0]}: {key[1]} {key[2]}\n  old: {old.get(key)}\n  new: {new.get(key)}")
    print(f"clauses: {count} are other ones than in {revision}")


if __name__ == "__main__":
    main(sys.argv[1], sys.argv[2:] or FOLDERS)
