"""The files of a row, as the model has them while its steps are gone through, and the cells that were seen."""
import os

from . import sides
from .work import Cartridge

FOLDER = "a folder"


class Link:
    """A link, and the name to which it leads."""

    def __init__(self, to):
        self.to = os.path.normpath(to)


class Differs(Exception):
    """A row is not as the model has it."""

    def __init__(self, number, said):
        super().__init__(said)
        self.number = number


class Folder:
    """One row: `cells` are what it shows, each with the line that shows it first."""

    def __init__(self, row):
        self.row, self.folder, self.cells, self.number, self.said = row, {}, {}, 1, []

    def see(self, cell):
        self.cells.setdefault(cell, self.number)

    def step(self, step):
        name = os.path.normpath(step.name)
        if step.kind in ("config", "file"):
            self.folder[name] = step.content
        elif step.kind == "folder":
            self.folder[name] = FOLDER
        elif step.kind == "link":
            self.folder[name] = Link(step.content)
        elif step.kind == "remove":
            self.folder.pop(name, None)
        elif step.kind == "gone" and name in self.folder:
            raise Differs(step.number, "the name is there")
        elif step.kind == "bytes":
            self.bytes(step, name)

    def bytes(self, step, name):
        entry = self.folder.get(name)
        if isinstance(entry, bytes):
            if entry != step.content:
                raise Differs(step.number, "the file has its old bytes")
            self.see("files | a file that stays as it was")
        elif isinstance(entry, sides.Side):
            found, _ = sides.read(step.content)
            if (found.lines(0), found.is_paired, found.epoch) != (entry.lines(0), entry.is_paired, entry.epoch):
                raise Differs(step.number, f"{found.lines(0)} in the place of {entry.lines(0)}")
            self.see(f"files | a {found.kind} with {'no frame' if not found.frames else 'frames'}, by its bytes")
        else:
            raise Differs(step.number, "there is no such file")

    def find(self, name):
        """What has this name of a configuration; the empty name is nobody's."""
        return self.folder.get(self.led_to(os.path.normpath(os.fsencode(name)))) if is_possible(name) else None

    def led_to(self, name):
        """The name to which a name leads, where it is a link's; else that name."""
        entry = self.folder.get(name)
        return entry.to if isinstance(entry, Link) else name

    def second(self, name):
        """What has this name with `.2` added. A link that leads nowhere is no regular file there, as a folder is."""
        found, at = self.find(name + ".2"), os.path.normpath(os.fsencode(name + ".2"))
        return FOLDER if found is None and isinstance(self.folder.get(at), Link) else found

    def pair(self, name):
        """What has this name, and the same with `.2`."""
        return self.find(name), self.second(name)

    def open(self, what, name, names):
        """The side in a file, without a name where it is damaged; or why it ends the run."""
        entry, at = self.find(name), os.path.normpath(os.fsencode(name))
        if entry is None or entry is FOLDER:
            return None, "a folder" if entry is FOLDER else "missing"
        if at in names:
            return None, "a second name of one file"
        names[at] = True
        second = self.second(name) if what == "cartridge" else None
        if second is FOLDER:
            return None, "a folder"
        if what == "cartridge" and second is None and is_paired(entry):
            self.see("run | a second file behind an open pair gate is missing")
            second = b""
        elif what == "cartridge" and second is None:
            self.see("run | a second file is made")
            self.folder[at + b".2"] = second = b""
        is_second = False
        if isinstance(entry, bytes) or second:
            try:
                entry, _, is_second = sides.read_pair(entry, second)
            except sides.Refused as why:
                if what == "drive":
                    return None, why.line.partition(" at ")[0]
                self.see(f"damaged | run | {why.line.partition(' at ')[0]}")
                return sides.Side("cartridge", None, Cartridge([4_096], damaged=True)), None
        kind = "cartridge" if what == "cartridge" else "store"
        if entry.kind != kind:
            if what == "drive":
                return None, "not a side"
            self.see("damaged | run | a store's header")
            return sides.Side("cartridge", None, Cartridge([4_096], damaged=True)), None
        if kind == "store":
            entry.content.see = self.see
            entry.content.lose_power()
        entry.is_second = bool(is_second)
        return entry, None

    def copy(self, name, side, which):
        """The other file is a copy, and the first one's pair gate is open."""
        copy, first = sides.copied(side), self.folder[name]
        if which:
            self.folder[name] = copy[:9] + b"\xa5" + copy[10:]
            return
        self.folder[self.led_to(name + b".2")] = copy
        if isinstance(first, bytes):
            self.folder[name] = first[:9] + b"\xa5" + first[10:]
        else:
            first.is_paired = True


def is_paired(entry):
    """Whether the first file of a cartridge has an open pair gate."""
    return entry.is_paired if isinstance(entry, sides.Side) else entry[9:10] == b"\xa5"


def is_possible(name):
    """Whether a file may have this name: it is not empty, and no part of it is too long for a file system."""
    return bool(name) and all(len(os.fsencode(part)) <= 255 for part in name.split("/"))
