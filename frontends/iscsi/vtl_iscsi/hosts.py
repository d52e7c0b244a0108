"""Which initiator has which host number of the library, 1 to 64, kept in a file.

An initiator port is a name with an ISID (RFC 7143, 4.2.7). Its number stays, so that a reservation that fences a host
off hits the same one after every restart. An ISID of the random format (RFC 7143, 11.12.5) comes once: where no number
is left, the oldest such one is given anew, if no session has it and it may hold no key at a drive. A name has eight
numbers at most."""
import os
from dataclasses import dataclass

from .folder import Folder

KEPT = "hosts.json"
MOST = 64
# of one name, so that one host cannot take them all
_MOST_OF_NAME = 8
_FORMAT, _RANDOM = 0xC0, 0x80


@dataclass
class Host:
    number: int
    name: str
    isid: bytes
    # how many other hosts had come before its last login
    turn: int
    # the drives at which it may hold a key
    drives: set[int]

    def label(self) -> str:
        return f"host {self.number} {self.name} {self.isid.hex()}"


class Hosts:
    def __init__(self, folder: Folder) -> None:
        self._folder = folder
        kept = folder.read(KEPT) or {"library": os.urandom(4).hex().upper(), "hosts": []}
        # part of every unit's serial number
        self.library: str = kept["library"]
        self._hosts = {it[0]: Host(it[0], it[1], bytes.fromhex(it[2]), it[3], set(it[4])) for it in kept["hosts"]}
        self._keep()

    def all(self) -> list[Host]:
        return sorted(self._hosts.values(), key=lambda it: it.number)

    def get(self, number: int) -> Host | None:
        return self._hosts.get(number)

    def of(self, name: str, isid: bytes, busy: set[int]) -> Host | None:
        """The port's host, a new one where it is not known; None where no number is left. `busy` have a session."""
        host = next((it for it in self._hosts.values() if (it.name, it.isid) == (name, isid)), None)
        number = host.number if host else self._free(name, busy)
        if not number:
            return None
        turn = max((it.turn for it in self._hosts.values()), default=0) + 1
        if not host or host.turn + 1 < turn:
            before = dict(self._hosts)
            self._hosts[number] = Host(number, name, isid, turn, host.drives if host else set())
            try:
                self._keep()
            except OSError:
                self._hosts = before
                return None
        return self._hosts[number]

    def registers(self, number: int, drive: int) -> None:
        """Before a command that may register a key goes to a drive."""
        if drive not in self._hosts[number].drives:
            self._hosts[number].drives.add(drive)
            self._keep()

    def is_unregistered(self, drive: int, number: int | None = None) -> None:
        """That host holds no key at the drive, or none does."""
        found = [it for it in self._hosts.values() if drive in it.drives and number in (None, it.number)]
        for it in found:
            it.drives.discard(drive)
        if found:
            self._keep()

    def free(self, number: int) -> None:
        del self._hosts[number]
        self._keep()

    def _free(self, name: str, busy: set[int]) -> int:
        """A number to give; 0 where there is none."""
        unused = [number for number in range(1, MOST + 1) if number not in self._hosts]
        has_many = sum(it.name == name for it in self._hosts.values()) >= _MOST_OF_NAME
        if unused and not has_many:
            return unused[0]
        passing = [it for it in self._hosts.values() if it.isid[0] & _FORMAT == _RANDOM and it.number not in busy
                   and not it.drives and (it.name == name or not has_many)]
        return min(passing, key=lambda it: it.turn).number if passing else 0

    def _keep(self) -> None:
        self._folder.keep(KEPT, {"library": self.library, "hosts": [
            [it.number, it.name, it.isid.hex(), it.turn, sorted(it.drives)] for it in self.all()]})
