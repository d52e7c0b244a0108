"""Whether a program has `vtl reclaim`, and with it a second file of each cartridge, the first one's name with `.2`."""
import functools
import os
import subprocess

import plain_sides

SECOND = ".2"


@functools.cache
def reclaims(program):
    said = subprocess.run([program, "--help"], stdout=subprocess.PIPE, stderr=subprocess.DEVNULL, check=False).stdout
    return b"\n  reclaim " in said


def content(path):
    """The bytes of a file, None where it is missing."""
    if not os.path.exists(path):
        return None
    with open(path, "rb") as file:
        return file.read()


def pair(path):
    """The bytes of a cartridge's two files."""
    return content(path), content(path + SECOND)


def side_that_counts(path):
    """The bytes of the file that counts, the place of its first gate, its epoch and its base."""
    first, second = pair(path)
    which, header = plain_sides.counting(first, second or b"") or (0, plain_sides.Header(first))
    return (first, second)[which], header.end, header.epoch, header.base
