"""Keeps a `vtl serve` running: starts it, unloads its drives, admits hosts, and starts it again after a crash.

Hosts live on over a crash, and may append where a tape then stands. So every cartridge is unloaded before a host is
admitted, after each start: nobody writes at the beginning of a tape that has not loaded it."""
from collections.abc import Callable

from . import frames, operating
from .attentions import Attentions
from .hosts import MOST
from .library import Library
from .log import Log
from .loop import Loop
from .sense import GOOD, LOST, RESERVATION_CONFLICT, UNIT_IS_BUSY, Reply, code_of, is_owed
from .served import Piece, Served, Then

UNLOAD = bytes.fromhex("1b0000000000")
_NO_CARTRIDGE, _TRIES = 0x2, 4
# before it is started again, twice as long after each start that admitted nobody
_FIRST_PAUSE, _LONGEST_PAUSE = 0.1, 30.0


class Supervisor:
    def __init__(self, loop: Loop, log: Log, program: str, library: Library, attentions: Attentions) -> None:
        self._loop, self._log, self._program, self._library = loop, log, program, library
        self._attentions = attentions
        self._served: Served | None = None
        self.is_up = self.is_ending = False
        self._pause = _FIRST_PAUSE
        self.starts = 0
        self._sent = [0] * (MOST + 1)
        # set by who uses it
        self.on_up: Callable[[], None] = lambda: None
        self.on_lost: Callable[[], None] = lambda: None
        self.on_end: Callable[[int], None] = lambda status: None

    @property
    def pid(self) -> int:
        return self._served.pid if self._served else 0

    def waiting(self) -> int:
        return self._served.waiting() if self._served else 0

    def sent_of(self, number: int) -> int:
        """Commands of a host that are with the library and not answered."""
        return self._sent[number]

    def start(self) -> None:
        if self.is_ending:
            return
        self._attentions.power_on()
        self._library.loaded.clear()
        self.starts += 1
        words = operating.words(self._program, self._library.write())
        served = self._served = Served(self._loop, words, self._library.folder.lock, self._ended,
                                       lambda line: self._log.say(f"vtl: {line}"))
        operating.places(served, lambda reply: self._placed(reply))

    def command(self, number: int, drive: int, block: bytes, data: Piece, then: Then) -> None:
        if not self.is_up or not self._served:
            then(self._not_up())
            return
        self._sent[number] += 1
        self._served.command(number, drive, block, data, lambda reply: self._answered(number, drive, reply, then))

    def move(self, number: int, source: int, destination: int, then: Then) -> None:
        if not self.is_up or not self._served:
            then(self._not_up())
            return
        self._sent[number] += 1
        operating.move(self._served, number, source, destination,
                       lambda reply: self._answered(number, 0, reply, then))

    def _not_up(self) -> Reply:
        """While it starts, a host may ask again; before that it is as if the command had been with it."""
        return UNIT_IS_BUSY if self._served else LOST

    def end(self) -> None:
        """No new command: what was sent is answered, what waits is stored, and `on_end` has the status."""
        self.is_ending, self.is_up = True, False
        if self._served:
            self._served.close()
        else:
            self._loop.after(0, lambda: self.on_end(0))

    def kill(self) -> None:
        if self._served:
            self._served.kill()

    def _answered(self, number: int, drive: int, reply: Reply, then: Then) -> None:
        self._sent[number] -= 1
        if drive and not reply.is_lost:
            self._attentions.reported(number, drive, reply)
        then(reply)

    # A start.

    def _placed(self, reply: Reply) -> None:
        if reply.is_lost:
            return
        found = frames.entries(reply)
        for cartridge in self._library.cartridges.values():
            if found.get(cartridge.at) != cartridge.barcode:
                self._log.fault(f"{cartridge.barcode} is not at {cartridge.at} after a start")
        drives = [it for it in self._library.drives if it in found] if operating.STARTS_LOADED else []
        self._unload(drives, 1, _TRIES)

    def _unload(self, drives: list[int], number: int, tries: int) -> None:
        """The first of these drives is unloaded in the name of a host, then the others.

        Whoever a reservation lets through may unload. What is reported to that host in the place of the command is
        owed to it."""
        if not drives:
            self._admit()
            return
        assert self._served
        self._served.command(number, drives[0], UNLOAD, b"",
                             lambda reply: self._unloaded(drives, number, tries, reply))

    def _unloaded(self, drives: list[int], number: int, tries: int, reply: Reply) -> None:
        if reply.is_lost:
            return
        if is_owed(reply):
            self._attentions.owe(number, drives[0], reply.sense)
            self._unload(drives, number, tries)
        elif reply.status == GOOD or code_of(reply)[0] == _NO_CARTRIDGE:
            self._unload(drives[1:], 1, _TRIES)
        elif reply.status == RESERVATION_CONFLICT and number < MOST:
            self._unload(drives, number + 1, tries)
        elif tries:
            # a device fault; the medium has failed then, and is given up by the next one
            self._unload(drives, number, tries - 1)
        else:
            self._log.fault(f"drive {drives[0]} cannot be unloaded: no host is admitted")
            self.on_end(2)

    def _admit(self) -> None:
        self.is_up = True
        self._log.say(f"ready: {len(self._library.drives)} drives, {len(self._library.cartridges)} cartridges")
        self._pause = _FIRST_PAUSE
        self.on_up()

    # An end.

    def _ended(self, status: int) -> None:
        was_admitted, self.is_up, self._served = self.is_up, False, None
        if self.is_ending or self.starts == 1 and not was_admitted:
            self._loop.after(0, lambda: self.on_end(status if status >= 0 else 2))
            return
        self._log.fault(f"vtl ended with status {status}; it is started again")
        self.on_lost()
        self._loop.after(self._pause, self.start)
        self._pause = min(self._pause * 2, _LONGEST_PAUSE)
