"""How many frames `vtl check` reports of a cartridge behind a run: at least as many as are owed, since a flusher may
store a part of what waits before all of it is."""
import re

CARTRIDGE = re.compile(rb"(cartridge [A-Z0-9]+ partitions [1-4] frames )([0-9]+)")


def line_as_owed(found, owed):
    """The line that is owed where this one is the same but for more frames, and else this one."""
    have, want = CARTRIDGE.fullmatch(found), CARTRIDGE.fullmatch(owed)
    if have and want and have[1] == want[1] and int(have[2]) >= int(want[2]) > 0:
        return owed
    return found


def as_owed(found, owed):
    """The same for texts of several lines."""
    lines = [line_as_owed(*pair) for pair in zip(found.split(b"\n"), owed.split(b"\n"))]
    return b"\n".join(lines + found.split(b"\n")[len(lines):])
