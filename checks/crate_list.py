"""The text of crates/README.md: each crate by its kind, with the comment over its line of crates.txt."""
import os
import re

TOP = os.path.dirname(os.path.dirname(os.path.abspath(__file__)))
HEAD = """# The crates

Made by `checks/definitions.py` from the comments of `crates.txt`. The lowest come first: a crate of the program uses
only crates in rows above its own. [CLAIMS](../docs/CLAIMS.md) and [LAYERS](../docs/LAYERS.md) say what the crates
above may use, and [CONTRIBUTING](../CONTRIBUTING.md#where-a-rule-has-its-one-place) in which file a rule stands: most
are in a crate's `specs/`. A crate's own page says how it is used, and in which order its files are read.
"""
KINDS = ("The program", "Tests", "Doubles and helpers of tests", "Programs that are timed")


def said():
    """Each crate, in the order of crates.txt, with the comment over it."""
    words = []
    with open(os.path.join(TOP, "crates.txt"), encoding="utf-8") as file:
        for line in file.read().splitlines():
            comment, named = re.match(r"# ?(.*)", line), re.match(r"(\w+)[^:]*:", line)
            if comment:
                words.append(comment[1])
            elif named:
                yield named[1], " ".join(words)
            if not comment:
                words = []


def kind_of(crate, words):
    if crate.startswith("bench_"):
        return KINDS[3]
    if crate.startswith("test_"):
        return KINDS[1] if words.startswith("the tests of ") else KINDS[2]
    return KINDS[0]


def text():
    """The page, and the faults that were met on the way."""
    rows, faults = {kind: [] for kind in KINDS}, []
    for crate, words in said():
        rows[kind_of(crate, words)].append(f"| [`{crate}`]({crate}) | {words} |\n")
        faults += [] if words else [f"crates.txt: {crate} has no comment over it"]
    parts = [f"\n## {kind}\n\n| Crate | What it has |\n|---|---|\n" + "".join(lines) for kind, lines in rows.items()]
    return HEAD + "".join(parts), faults
