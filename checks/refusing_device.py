"""A device for mended_faults.py: a file of a FUSE file system, under which a loop device is put. While a file with the
name `refuses` stands in its room, it refuses writes to sectors that were never written, as a thin pool that is full
does. It is run by a Python that has fusepy (Debian's python3-fusepy): refusing_device.py ROOM BYTES [LET]; blocks with
the bytes LET, in hexadecimal, at place 32 are let through, as Btrfs marks the blocks of its trees."""
import errno
import os
import stat
import sys

try:
    from fusepy import FUSE, FuseOSError, Operations
except ImportError:
    from fuse import FUSE, FuseOSError, Operations

SECTOR, TREE_BLOCK = 512, 4096


class Device(Operations):
    """One file, `/disk`, whose bytes stand in a sparse file of the room."""

    def __init__(self, room, size, let):
        self.refuses, self.size, self.let = os.path.join(room, "refuses"), size, let
        self.file = os.open(os.path.join(room, "bytes"), os.O_RDWR | os.O_CREAT, 0o600)
        os.ftruncate(self.file, size)
        self.known = bytearray(size // SECTOR)

    def getattr(self, path, handle=None):
        if path == "/":
            return {"st_mode": stat.S_IFDIR | 0o700, "st_nlink": 2}
        if path != "/disk":
            raise FuseOSError(errno.ENOENT)
        return {"st_mode": stat.S_IFREG | 0o600, "st_nlink": 1, "st_size": self.size}

    def readdir(self, path, handle):
        return [".", "..", "disk"]

    def read(self, path, size, offset, handle):
        return os.pread(self.file, size, offset)

    def is_let(self, data, at):
        """Whether the sector at this place of the data stands in a block that is let through."""
        block = at - at % TREE_BLOCK
        return bool(self.let) and data[block + 32:block + 32 + len(self.let)] == self.let

    def write(self, path, data, offset, handle):
        refuses, refused = os.path.exists(self.refuses), False
        for at in range(0, len(data), SECTOR):
            number = (offset + at) // SECTOR
            if refuses and not self.known[number] and not self.is_let(data, at):
                refused = True
                continue
            os.pwrite(self.file, data[at:at + SECTOR], offset + at)
            self.known[number] = 1
        if refused:
            raise FuseOSError(errno.EIO)
        return len(data)

    def fsync(self, path, only_data, handle):
        return 0


def main(words):
    # direct_io: each request comes whole. A loop device takes it for written where only its first part was.
    room, size, let = words[0], int(words[1]), bytes.fromhex(words[2]) if len(words) > 2 else b""
    FUSE(Device(room, size, let), os.path.join(room, "device"), foreground=True, nothreads=True, big_writes=True,
         direct_io=True)


if __name__ == "__main__":
    main(sys.argv[1:])
