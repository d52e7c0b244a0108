"""The words of sense data: FORMATS.md against the definitions of the crate answer_meanings, row by row."""
import os
import re

from .tables import TOP

SPECS = os.path.join(TOP, "crates", "answer_meanings", "specs")
KEYS = {"NoSense": "0", "NotReady": "2", "MediumError": "3", "HardwareError": "4", "IllegalRequest": "5",
        "UnitAttention": "6", "BlankCheck": "8", "AbortedCommand": "Bh", "VolumeOverflow": "Dh"}


def found(name, pattern):
    with open(os.path.join(SPECS, name), encoding="utf-8") as lines:
        return re.findall(pattern, lines.read(), re.M)


def rows():
    """Each condition's sense data and words, as FORMATS.md has them."""
    words = dict(found("Words.antt", r'^words_of is\.(\w+) = codes "(.*)"$'))
    said = {}
    for name, key, code, qualifier in found("Conditions.antt", r"^row_of_condition is\.(\w+) = condition_row (\w+) "
                                            r"0x(\w\w) 0x(\w\w)$"):
        bit = "ILI, " if name == "IncorrectLength" else ""
        said[f"{bit}{KEYS[key]}, {code.upper()}/{qualifier.upper()}"] = words.pop(name, "no words")
    other = found("SenseTexts.antt", r'^words_found None = codes "(.*)"$')
    return {**said, "any other": other[0] if other else "no words", **{name: "no code" for name in words}}


def faults(tables):
    """Where the table of FORMATS.md and the definitions differ."""
    told = {fields[0]: fields[1] for fields in tables["Sense data in words"][0][1:]}
    ours = rows()
    return [f"FORMATS.md, Sense data in words: {it} is `{told.get(it)}`, and in answer_meanings `{ours.get(it)}`"
            for it in dict.fromkeys([*told, *ours]) if told.get(it) != ours.get(it)]
