#!/usr/bin/env python3
"""Counts the words of the documents that are written by hand, and finds their long sentences.

words.py               prints the words of each group, and names what is over a limit; no step of the gate
words.py --selftest    gives it texts, each of which it has to count as it should

A word is what stands between blanks and has a letter or a digit. All words of a file count, those of tables and of code
too. What a script writes into a page does not: the table of bench/gate.py in docs/GATE.md, the figures between the
marks `measured` and `end`. A sentence ends at a full stop, a question mark or an exclamation mark, at the end of its
paragraph, of its item of a list, or of its cell of a table; headings and blocks of code have none.
"""
import glob
import os
import re
import sys

TOP = os.path.dirname(os.path.dirname(os.path.abspath(__file__)))
MOST_WORDS = 75_000
MOST_IN_A_SENTENCE = 40
MOST_IN_README = 1_200
MOST_IN_A_PAGE = 500
# made by scripts: they count for nothing
MADE = {"docs/DEFINITIONS.md", "docs/EDITS.md", "docs/HEADLINE.md", "crates/README.md"}
GROUPS = {"README.md": ["README.md"], "docs": ["docs/*.md"], "crates": ["crates/*/README.md"],
          "front end, examples": ["frontends/iscsi/*.md", "examples/*.md"]}
# written into docs/GATE.md by bench/gate.py, and into pages with figures by the script that measures them
MADE_PARTS = re.compile(r"(?m)^\| Crate \| Proofs \|.*\n(\|.*\n)*|^<!-- measured: (.*\n)*?<!-- end -->$")
# by hand too, and not within the limit: a record of changes, and what those read who change the repository
BESIDE = ["CHANGELOG.md", "CONTRIBUTING.md", "rows/*.md"]


def by_hand(text):
    """The text with blank lines in the place of what a script writes into it."""
    return MADE_PARTS.sub(lambda part: "\n" * part.group().count("\n"), text)


def words_in(text):
    return [word for word in text.split() if re.search(r"[^\W_]", word)]


def paragraphs(text):
    """The paragraphs, the items of lists and the cells of tables, each with the number of its first line."""
    found, is_code = [(0, [])], False
    for number, line in enumerate(text.splitlines(), 1):
        fence = line.lstrip().startswith("```")
        is_code ^= fence
        if fence or is_code or not line.strip() or re.match(r"\s*[|#]", line):
            is_row = not is_code and re.match(r"\s*\|", line)
            found += [(number, [cell]) for cell in re.split(r"(?<!\\)\|", line)] if is_row else []
            found.append((0, []))
            continue
        item = re.match(r"\s*(?:[-*]|\d+\.) ", line)
        if item or not found[-1][1]:
            found.append((number, []))
        found[-1][1].append(line[item.end():] if item else line)
    return [(number, "\n".join(lines)) for number, lines in found if lines]


def long_sentences(text):
    """Each sentence of too many words: the number of its paragraph's first line, its words, how it begins."""
    for number, paragraph in paragraphs(text):
        plain = re.sub(r"`[^`]*`", "Code", re.sub(r"\]\([^)]*\)", "]", paragraph))
        for sentence in re.split(r"(?<=[.!?])[)*\"]*\s+(?=[^\sa-z])|(?<=[.!?])[)*\"]*$", plain):
            count = len(words_in(sentence or ""))
            if count > MOST_IN_A_SENTENCE:
                yield number, count, " ".join(sentence.split()[:8])


def files_of(patterns):
    found = sorted(path for it in patterns for path in glob.glob(os.path.join(TOP, it)))
    return [path for path in found if os.path.relpath(path, TOP) not in MADE]


def read(path):
    with open(path, encoding="utf-8") as file:
        return file.read()


def over_limits(counts):
    total = sum(sum(files.values()) for files in counts.values())
    if total > MOST_WORDS:
        yield f"over: {total} words in all, of at most {MOST_WORDS}"
    limits = [(file, count, MOST_IN_README if file == "README.md" else MOST_IN_A_PAGE)
              for group in ("README.md", "crates") for file, count in counts[group].items()]
    yield from (f"over: {file} has {count} words, of at most {most}" for file, count, most in limits if count > most)


# texts, each with its words, and the words of its long sentences
LONG = " ".join(["word"] * 41)
CASES = [("One two, three - 4.", 4, []), ("# A head\n\n| a | b |\n|---|---|\n| `c d` | |\n", 6, []),
         (f"{LONG}.", 41, [41]), (f"{LONG}. And {LONG}: {LONG}.", 124, [41, 83]),
         (f"- {LONG}\n- {LONG}\n", 82, [41, 41]),
         (f"```\n{LONG}\n```\n", 41, []), (f"`{LONG}` [stands](at/a/place.md) here.", 43, []),
         (f"| a | {LONG} |\n", 42, [41]), (f"```\n| {LONG} |\n```\n", 41, []),
         ("One.\n\n| Crate | Proofs | All |\n|---|---|---|\n| `a` | 1 | 2 |\n\nTwo.\n", 2, []),
         ("One.\n<!-- measured: speed -->\n| a | 2 |\n\n- b: 3\n<!-- end -->\nTwo.\n", 2, [])]


def selftest():
    missed = [text for text, count, long in CASES
              if len(words_in(by_hand(text))) != count or [it[1] for it in long_sentences(text)] != long]
    print("".join(f"not counted as it should be: {text!r}\n" for text in missed), end="")
    print(f"words --selftest: {len(CASES)} texts, {len(missed)} not counted as they should be")
    return 1 if missed else 0


def main(given):
    if given == ["--selftest"]:
        return selftest()
    if given:
        sys.exit(__doc__)
    texts = {group: {os.path.relpath(path, TOP): by_hand(read(path)) for path in files_of(it)}
             for group, it in GROUPS.items()}
    counts = {group: {file: len(words_in(text)) for file, text in files.items()} for group, files in texts.items()}
    said = [f"{file}:{number}: a sentence of {count} words: {begins} .." for files in texts.values()
            for file, text in files.items() for number, count, begins in long_sentences(text)]
    print("\n".join([*said, *over_limits(counts)]))
    for group, files in counts.items():
        print(f"{sum(files.values()):7} words in {len(files)} files: {group}")
    print(f"{sum(len(words_in(read(path))) for path in files_of(BESIDE)):7} words beside these: {', '.join(BESIDE)}")
    total = sum(sum(files.values()) for files in counts.values())
    print(f"words: {total} of at most {MOST_WORDS}, {len(said)} long sentences")
    return 1 if said or list(over_limits(counts)) else 0


if __name__ == "__main__":
    sys.exit(main(sys.argv[1:]))
