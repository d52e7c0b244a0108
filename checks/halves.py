#!/usr/bin/env python3
"""Counts what makes the halves of a drive hard to read: the types for one medium, the functions that only carry parts
of a drive across, `unreachable!()`, and lines of proofs that are not blank. `--check` compares with the limits."""
import pathlib
import re
import sys

ROOT = pathlib.Path(__file__).resolve().parent.parent / "crates"
CRATES = ["tape_buffer", "waiting_changes", "split_bay", "bay_moves"]
PROVED = ["tape_buffer", "waiting_changes", "split_bay"]

# What makes a type one of a medium: a cartridge, changes that wait, or a catalog. The halves and the bay are not of a
# medium: each has one, beside an end of the ring or a drive.
HELD = r"\b(?:Cartridge<|Shelved<|Vec<Change>|Option<Change>|Option<Index>)"
NOT_OF_A_MEDIUM = {"Front", "Back", "Bay", "Parked", "NotOn", "Held", "Inventory", "Unwritten"}
# Types with parameters in the place of a medium, or of all of a drive but its medium.
BY_NAME = {"Hosts", "Rest", "Holding"}

# What is a part of a drive, where a function takes it by value.
PART = (r"(?:Front|Back|Near|Lent|Disks|Buffered|Cataloged|Sending|Receiving|Ends|Rest|Place|Joined\w*|PartedBay"
        r"|Loose)\b")

SIGNATURE = (r"\bfn (\w+)(?:<[^(]*>)?\(([^{]*?)\)\s*->\s*(.*?)\n"
             r"(?=\s*(?:requires|ensures|\{))")

LIMITS = {"types of one medium": 5, "functions that carry parts": 2, "unreachable!()": 45, "lines of proofs": 5600}


def sources(crates):
    """The texts of the sources of these crates, without comments."""
    for crate in crates:
        for path in sorted((ROOT / crate / "src").rglob("*.rt")):
            lines = path.read_text().splitlines()
            yield crate, "\n".join(line for line in lines if not line.lstrip().startswith("//"))


def declared(text):
    """The structs and enums of a text, with their bodies."""
    for found in re.finditer(r"^(?:pub(?:\(crate\))? )?(?:struct|enum) (\w+)[^{;]*\{(.*?)^\}", text, re.M | re.S):
        yield found.group(1), found.group(2)


def types_of_a_medium():
    bodies = {}
    for crate, text in sources(CRATES + ["drive_commands"]):
        bodies.update((name, body) for name, body in declared(text) if crate in CRATES or name in BY_NAME)
    known = {name for name in bodies if name in BY_NAME}
    known |= {name for name, body in bodies.items() if re.search(HELD, body)}
    while True:
        more = {
            name
            for name, body in bodies.items()
            if any(re.search(rf"\b{one}\b", body) for one in known) and name not in known
        } - NOT_OF_A_MEDIUM
        if not more:
            return sorted(known - NOT_OF_A_MEDIUM)
        known |= more


def carrying():
    """The functions that take a part of a drive by value, and return one."""
    found = []
    for crate, text in sources(["split_bay", "drive_commands"]):
        for one in re.finditer(SIGNATURE, text, re.S):
            name, given, back = one.groups()
            takes = re.search(rf"(?:^|[\s(])(?:mut )?self\s*[,)]?|:\s*(?:Option<)?{PART}", given)
            by_value = re.search(rf":\s*(?:Option<)?{PART}", given) or (
                re.search(r"(?:^|[\s(])(?:mut )?self\b", given) and "&" not in given.split("self")[0]
            )
            if takes and by_value and re.search(PART, back):
                found.append(f"{crate}::{name}")
    return found


def count(crates, folder, pattern):
    return sum(
        len(re.findall(pattern, path.read_text(), re.M))
        for crate in crates
        for path in sorted((ROOT / crate / folder).rglob("*.*t"))
    )


def main():
    types, functions = types_of_a_medium(), carrying()
    numbers = {
        "types of one medium": len(types),
        "functions that carry parts": len(functions),
        "unreachable!()": count(CRATES, "src", r"unreachable!\(\)"),
        "lines of proofs": count(PROVED, "proofs", r"^.*\S.*$"),
    }
    for name, number in numbers.items():
        print(f"{name}: {number}, at most {LIMITS[name]}")
    print("types:", ", ".join(types))
    print("functions:", ", ".join(functions))
    if "--check" in sys.argv[1:]:
        return 1 if any(number > LIMITS[name] for name, number in numbers.items()) else 0
    return 0


if __name__ == "__main__":
    sys.exit(main())
