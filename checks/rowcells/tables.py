"""The tables of docs/FORMATS.md, and the names of its commands."""
import os
import re

TOP = os.path.dirname(os.path.dirname(os.path.dirname(os.path.abspath(__file__))))
FORMATS = os.path.join(TOP, "docs", "FORMATS.md")
NAMES = {0x00: "TEST UNIT READY", 0x01: "REWIND", 0x03: "REQUEST SENSE", 0x05: "READ BLOCK LIMITS", 0x08: "READ",
         0x0A: "WRITE", 0x10: "WRITE FILEMARKS", 0x11: "SPACE", 0x12: "INQUIRY", 0x15: "MODE SELECT", 0x19: "ERASE",
         0x1A: "MODE SENSE", 0x1B: "LOAD UNLOAD", 0x2B: "LOCATE", 0x34: "READ POSITION",
         0x5E: "PERSISTENT RESERVE IN", 0x5F: "PERSISTENT RESERVE OUT"}
LENGTHS = {code: 6 if code < 0x20 else 10 for code in NAMES}
TYPES = {1: "write exclusive", 3: "exclusive access", 5: "write exclusive, registrants only",
         6: "exclusive access, registrants only", 7: "write exclusive, all registrants",
         8: "exclusive access, all registrants"}
# commands that a reservation stops; that need a cartridge; that skip checks 2 to 5
FENCED = {0x01, 0x08, 0x0A, 0x10, 0x11, 0x15, 0x19, 0x1B, 0x2B}
NEEDS_MEDIUM = {0x00, 0x01, 0x08, 0x0A, 0x10, 0x11, 0x19, 0x2B, 0x34}
ALWAYS = {0x03, 0x12}
LINK = re.compile(r"\[([^]]*)\]\([^)]*\)")


def plain(text):
    """The text without the marks of its links, code and emphasis."""
    return LINK.sub(r"\1", text).replace("`", "").replace("*", "").replace("  ", " ").strip()


def read():
    """By heading, the rows of each table below it: lists of plain fields, the heading row first."""
    found, heading, table = {}, "", None
    with open(FORMATS, encoding="utf-8") as lines:
        for line in lines:
            if line.startswith("#"):
                heading, table = plain(line.lstrip("#")), None
            elif line.startswith("|"):
                fields = [plain(field) for field in re.split(r"(?<!\\)\|", line.strip())[1:-1]]
                if table is None:
                    table = []
                    found.setdefault(heading, []).append(table)
                if not all(re.fullmatch(r":?-+:?", field) for field in fields):
                    table.append(fields)
            else:
                table = None
    return found


def flushing():
    """The list of the commands that flush."""
    with open(FORMATS, encoding="utf-8") as lines:
        part = lines.read().partition("### The commands that flush\n")[2].partition("\n#")[0]
    return [plain(line[2:]) for line in part.split("\n") if line.startswith("- ")]


def check_names(tables):
    """What the table of command blocks says otherwise than the names and lengths above."""
    said = []
    for fields in tables["Command blocks"][0][1:]:
        code, name = int(fields[0].rstrip("h"), 16), re.sub(r"(\(\d+\))? \(S.C-4\)$", "", fields[1])
        if NAMES.get(code) != name or LENGTHS.get(code) != int(fields[2]):
            said.append(f"Command blocks: {fields[0]} {fields[1]}, {fields[2]} bytes, is not known here")
    if len(tables["Command blocks"][0]) - 1 != len(NAMES):
        said.append("Command blocks: not as many commands as are known here")
    return said
