#!/usr/bin/env python3
"""The cells of docs/FORMATS.md, and the rows that show each.

A cell is a line of one of its tables, a field that is refused, a side of a limit. Which cells a row shows is worked out
from its commands and answers, by a plain model (rowcells/), never from its title; where the model answers otherwise
than a row, one of them is wrong, and it is said. --table prints each cell and its rows. --check fails for a cell
without a row. What no script reaches is named with its tests, in rowcells/elsewhere.py."""
import argparse
import os
import sys

import rows
from rowcells import elsewhere, listing, tables, walk

TOP = os.path.dirname(os.path.dirname(os.path.abspath(__file__)))


def shown(found):
    """By cell, where it is shown; and what is not as the model has it."""
    places, said = {}, []
    for row in found:
        walked = walk.Walk(row).all()
        said += walked.said
        for cell, number in walked.cells.items():
            places.setdefault(cell, []).append(f"{row.path}:{number}")
    return places, said


def main():
    parser = argparse.ArgumentParser()
    parser.add_argument("names", nargs="*", default=[os.path.join(TOP, "rows")])
    for flag in ("--table", "--check"):
        parser.add_argument(flag, action="store_true")
    given = parser.parse_args()
    found, said = rows.read_all(given.names)
    said += tables.check_names(tables.read()) + elsewhere.missing()
    owed, others = listing.required(tables.read())
    said += others
    places, differ = shown(found)
    said += differ
    other = [cell for cell in places if listing.is_of_table(cell) and cell not in owed]
    said += [f"{places[cell][0]}: shows `{cell}`, which no table of FORMATS.md has" for cell in other]
    without = [cell for cell in owed if cell not in places]
    if given.table:
        for cell in owed:
            print(f"{cell}: {', '.join(places.get(cell, ['NO ROW']))}")
    else:
        said += [f"no row shows: {cell}" for cell in without]
    print("\n".join(said), end="\n" if said else "")
    print(f"cells: {len(owed)} cells, {len(without)} without a row, {len(elsewhere.CELLS)} in tests; "
          f"{len(said) - (0 if given.table else len(without))} faults in {len(found)} rows")
    return 1 if said else 0


if __name__ == "__main__":
    sys.exit(main())
