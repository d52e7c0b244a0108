"""What the list of cells was written for: how many lines each table of FORMATS.md has, and the limits of README."""
import os
import re

from . import explained
from .tables import TOP

# by heading, the lines of its tables; a table that has more needs its cells in listing.py, and then its number here
LINES = {
    "Command blocks": [17, 3], "What each command does": [40],
    "The bytes of READ POSITION and of INQUIRY": [4], "When a partition or a file is full": [6],
    "Memory and device faults": [9, 5], "Persistent reservations": [6, 3], "Actions of PERSISTENT RESERVE OUT": [18],
    "The cases of PREEMPT": [5], "When 2A/04 is established": [3], "READ KEYS and READ RESERVATION": [3],
    "Mode lists": [6, 3, 2], "Sense data": [6], "Unit attention conditions": [6],
    "Sense data in words": [28, 5], "Moves": [4, 5, 3],
    "When a move puts the cartridge back": [2], "Scripts": [3, 5], "Frames": [8, 5, 9], "The command line": [9, 5],
    "What created and kept mean": [2], "Exit status": [12], "The exit status at a damaged cartridge": [5],
    "The header": [9], "Which file counts": [2, 12, 8], "What a reclaim does": [5], "A cartridge's file": [6, 3],
    "A reservation store's file": [6, 5],
    "The lines of an explanation": [4], "The lines of a check of a configuration": [4],
    "The lines of vtl check": [5, 4], "The lines of vtl reclaim": [3], "What an opening writes": [6],
}
NO_CELLS = {"Formats", "The standards' terms", "Our terms"}
# by limit of README, cells of both sides, or of the limit where one side has no line
LIMITS = {
    "hosts 1 to 64": ["line | host 1", "line | host 64", "bad line | host 0", "bad line | host 65"],
    "drives 1 to 16": ["line | drive 1", "line | drive 16", "bad line | drive 0", "bad line | drive 17",
                       "configuration | number 16", "configuration | refused: number 17"],
    "slots 1001 to 1256": ["moves | 1001 is an address", "moves | 1256 is an address", "moves | TO 1000 is no address",
                           "moves | TO 1257 is no address", "configuration | refused: home 1257"],
    "1 to 1,048,576 bytes": ["limits | a block of 1 byte is written", "limits | a block of 1,048,576 bytes is written",
                             "fields | WRITE | length 100001h"],
    "4,096 to 1,099,511,627,776 bytes": ["configuration | a capacity of 4,096",
                                         "configuration | refused: a capacity of 4,095",
                                         "configuration | a capacity of 1,099,511,627,776",
                                         "configuration | refused: a capacity of 1,099,511,627,777",
                                         "limits | a partition of 4,096 bytes is filled"],
    "16,000,000 objects": ["full | WRITE FILEMARKS | 16,000,000 objects", "full | WRITE FILEMARKS | 16,000,001 objects",
                           "full | WRITE | object 16,000,001"],
    "1 to 4 on a cartridge": ["configuration | 1 capacities", "configuration | 4 capacities",
                              "configuration | refused: 0 capacities", "configuration | refused: 5 capacities"],
    "1,099,511,627,776 bytes": ["full file | WRITE", "does | ERASE | the file is full"],
    "256 changes, 4,194,304 bytes of blocks": ["buffer | 256 changes, 4,194,304 bytes of blocks"],
    "2,147,483,648 bytes": ["limits | a script of 2,147,483,648 bytes, and one of a byte more"],
    "4,294,967,296 reads": ["limits | a script of 4,294,967,296 reads, and one more"],
    "lines of 2,200,000 bytes": ["line | 2,200,000 bytes, a command", "bad line | 2,200,001 bytes, a command"],
    "1,100,000 bytes of data": ["frame, byte | 4 to 7"],
    "drive 1": ["words | run", "words | run --memory"],
    "loaded with 16,777,216 bytes in memory": ["limits | a partition of 16,777,216 bytes is filled"],
}


def readme_limits():
    """The limits of README that have a number."""
    with open(os.path.join(TOP, "README.md"), encoding="utf-8") as lines:
        part = lines.read().partition("## Limits\n")[2].partition("\n## ")[0]
    fields = [line.split("|")[2].strip() for line in part.split("\n") if line.startswith("| ")]
    return [limit for field in fields for limit in re.split(r"; |, (?=\D)|(?<=\d bytes), |(?<=\d reads), ", field)
            if re.search(r"\d(?!\))", limit) and "(" not in limit]


def faults(tables, cells):
    """What FORMATS.md or README has otherwise than the list of cells."""
    found = {heading: [len(table) - 1 for table in those] for heading, those in tables.items()
             if heading not in NO_CELLS}
    said = [f"FORMATS.md: the tables of {heading} have {found.get(heading)} lines, and the cells are of "
            f"{LINES.get(heading)}" for heading in dict.fromkeys([*LINES, *found])
            if found.get(heading) != LINES.get(heading)]
    for limit in readme_limits():
        if not any(limit.startswith(known) or known.startswith(limit) for known in LIMITS):
            said.append(f"README.md: the limit `{limit}` has no cells")
    said += explained.faults(tables)
    return said + [f"the limit {limit}: `{cell}` is no cell" for limit, those in LIMITS.items() for cell in those
                   if cell not in cells]
