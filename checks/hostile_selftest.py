"""The tests of hostile.py itself: the plain reader against the rows of rows/ and the table of pairs_selftest.py, which
were worked out by hand, and programs that stand here. One is right; each other one is wrong in one way, which must be
found. They are asked of single files, and, as programs that know second ones, of pairs."""
import os
import signal
import stat
import sys
import tempfile
import time

import cartridge_files
import hostile
import pair_maker
import pairs_selftest
import plain_sides
import rowfile
import side_maker

TOP = os.path.dirname(os.path.dirname(os.path.abspath(__file__)))
FILES, PAIRS = 45, 52
# the ways of a program that stands here, and what is said of it
WAYS = {"right": None, "counts": "in the place of", "stops": "in the place of", "good": "in the place of",
        "says": "in the place of", "writes": "a file has changed", "takes": "bytes of memory",
        "lasts": "none in time"}
# those of a program that knows second files
PAIR_WAYS = {"right": None, "older": "in the place of", "alone": "in the place of", "lacks": "in the place of",
             "gates": "in the place of", "equal": "in the place of", "heads": "in the place of",
             "makes": "a file has changed", "second": "a file has changed"}


def chosen(way, first, second):
    """Which side counts, and its header, in this way."""
    found = plain_sides.counting(first, second)
    if way in ("gates", "equal") and found is None and second[9:10]:
        # the second pair gate is not looked at, or of equal epochs the first one counts
        if way == "gates":
            return plain_sides.counting(first, second[:9] + b"\0" + second[10:])
        return plain_sides.counting(first, b"\0" + second[1:]) if first[9:10] == b"\xa5" else None
    if not found:
        return None
    if way == "alone" and plain_sides.Header(first).kind:
        return 0, plain_sides.Header(first)
    both = [plain_sides.Header(side) for side in (first, second)]
    if way == "older" and first[9] == 0xA5 and all(header.kind for header in both):
        return 1 - found[0], both[1 - found[0]]
    return found


def read_in(way, first, second):
    """The lines and the status of a pair, in this way."""
    found = chosen(way, first, second or b"")
    if way == "heads" and not found and first[9:10] == b"\xa5":
        # an open side without a header is passed over
        for at, files in enumerate(((first, b"\0" + (second or b"")[1:]), (b"\0" + first[1:], second or b""))):
            found = found or (plain_sides.counting(*files) and (at, plain_sides.counting(*files)[1]))
    if not found:
        return plain_sides.checked_pair(first, second)
    which, header = found
    header.base *= way != "lacks"
    return plain_sides.read_side(header, (first, second)[which])


def stand_in_of_pairs(way, path):
    """Answers as the plain reader does for both files, but for this way."""
    first, second = cartridge_files.pair(path)
    lines, status = read_in(way, first, second)
    if way == "makes" and second is None or way == "second" and len(second or b"") % 7 == 3:
        with open(path + cartridge_files.SECOND, "ab") as file:
            file.write(b"\0")
    sys.stdout.write(lines)
    return status


def stand_in(way, path):
    """Answers as the plain reader does, but for this way."""
    data = hostile.read(path)
    lines, status = plain_sides.checked(data)
    is_chosen = len(data) % 7 == 3
    if way == "counts" and len(data) > len(hostile.NEW[0]):
        lines = lines.replace("objects ", "objects 1", 1)
    if way == "stops" and lines.startswith("damaged"):
        os.kill(os.getpid(), signal.SIGSEGV)
    if way == "good" and lines.startswith("bad record"):
        status = 0
    if way == "says" and is_chosen:
        sys.stderr.write("a remark\n")
    if way == "writes" and is_chosen:
        with open(path, "ab") as file:
            file.write(b"\0")
    if way == "takes" and len(data) > len(hostile.NEW[0]):
        bytearray(8_388_608)
    if way == "lasts" and data[:1] != b"\xa5":
        time.sleep(20)
    sys.stdout.write(lines)
    return status


def rows_differ():
    """How many rows a plain reader can be asked, and those that it answers otherwise."""
    count, differ = 0, []
    for path in rowfile.paths([os.path.join(TOP, "rows")]):
        files, has_run = {}, False
        for step in rowfile.read(path).steps:
            if isinstance(step, rowfile.Run) and step.words[:1] == [b"check"] and not has_run:
                if len(step.words) == 2 and step.words[1] in files:
                    name = step.words[1]
                    lines, status = plain_sides.checked_pair(files[name], files.get(name + b".2"))
                    owed = b"".join(line + b"\n" for _, line in step.output)
                    count += 1
                    if (lines.encode(), status) != (owed, step.status):
                        differ.append(f"{path}:{step.number}: {lines!r} in the place of {owed!r}")
            elif isinstance(step, rowfile.Run):
                has_run = True
            elif step.kind == "file":
                files[step.name] = step.content
            elif step.kind == "remove":
                files.pop(step.name, None)
    return count, differ


def program_of(way, folder, kind="sides"):
    """A program that stands here."""
    path = os.path.join(folder, f"{kind}-{way}")
    with open(path, "w", encoding="utf-8") as file:
        file.write(f'#!/bin/sh\nexec {sys.executable} -S {os.path.abspath(__file__)} {kind} {way} "$@"\n')
    os.chmod(path, os.stat(path).st_mode | stat.S_IXUSR)
    return path


def found_in(way, base, folder, is_paired):
    """What is said of the program of this way, which is limited behind so many bytes of memory."""
    program = program_of(way, folder, "pairs" if is_paired else "sides")
    if way == "lasts":
        hostile.SECONDS = 2
    numbers = range(3) if way == "lasts" else range(1, 2 * PAIRS, 2) if is_paired else range(FILES)
    _, _, wrong = hostile.batch(program, base, is_paired, 1, numbers)
    return wrong


def main():
    count, said = rows_differ()
    if count < 500:
        said.append(f"{count} rows alone are of checked files")
    whole = side_maker.made(3, 7) == side_maker.made(3, 7) != side_maker.made(4, 7)
    if not whole:
        said.append("a file is not that of its seed and number")
    numbers = range(0, 100_000, hostile.LIMITED)
    limited = {side_maker.kind_of(at) for at in numbers}
    both = {kind_of(at // 2) for at in numbers for kind_of in [(side_maker.kind_of, pair_maker.pair_kind_of)[at % 2]]}
    kinds = (*side_maker.KINDS, side_maker.Maker.long)
    said += [f"no file of the kind {kind.__name__} is limited in memory" for kind in kinds if kind not in limited]
    said += [f"no pair, or file beside pairs, of the kind {kind.__name__} is limited in memory"
             for kind in (*kinds, *pair_maker.PAIR_KINDS) if kind not in both]
    with tempfile.TemporaryDirectory(prefix="vtl-hostile-") as folder:
        base = hostile.least_memory(program_of("right", folder))
        if base is None:
            said.append("no limit of memory was found")
        for is_paired, ways in ((True, PAIR_WAYS), (False, WAYS)):
            for way, wanted in ways.items():
                wrong = found_in(way, base, folder, is_paired)
                if bool(wrong) != bool(wanted) or not all(wanted in line for line in wrong[:1]):
                    said.append(f"of a program that {way}: {wrong[:1]}")
    print("\n".join(said), end="\n" if said else "")
    ways = len(WAYS) + len(PAIR_WAYS)
    print(f"hostile: {count} rows and {ways} programs that stand here, {len(said)} other than expected")
    return 1 if pairs_selftest.main() or said else 0


if __name__ == "__main__":
    stands = {"sides": stand_in, "pairs": stand_in_of_pairs}[sys.argv[1]]
    sys.exit(stands(sys.argv[2], sys.argv[4]))
