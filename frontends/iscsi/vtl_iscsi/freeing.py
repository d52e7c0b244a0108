"""Which hosts hold a key at a drive, and forgetting a host that holds none.

READ KEYS gives keys and no hosts. REGISTER with the key 0 and the service action key 0 says it: a host that is
registered is answered RESERVATION CONFLICT, another one GOOD, and neither changes anything (docs/FORMATS.md, Actions of
PERSISTENT RESERVE OUT). What is reported to that host in the place of the command is owed to it."""
from __future__ import annotations

from collections.abc import Callable
from typing import TYPE_CHECKING, Any

from .loop import Loop
from .sense import GOOD, RESERVATION_CONFLICT, Reply, is_owed
from .session import SENT
from .supervisor import Supervisor

if TYPE_CHECKING:
    from .target import Target
    from .units import Units

_REGISTER = bytes.fromhex("5f000000000000001800")
_NO_KEYS = bytes(24)
_PAUSE = 0.05
Keys = dict[int, list[int]]


class Freeing:
    def __init__(self, loop: Loop, target: Target, units: Units, supervisor: Supervisor) -> None:
        self._loop, self._target, self._units, self._supervisor = loop, target, units, supervisor
        self._is_looking = False

    def keys(self, then: Callable[[Keys], None], only: int = 0) -> None:
        """The drives at which each host holds a key; -1 in the place of one that gave no answer."""
        numbers = [only] if only else [it.number for it in self._target.hosts.all()]
        asked = [(number, drive) for number in numbers for drive in self._units.library.drives]
        found: Keys = {number: [] for number in numbers}
        self._look(asked, found, then)

    def look_anew(self) -> None:
        """Whether hosts that may hold a key hold one: what a start, or PREEMPT, took from them they have no more."""
        if self._is_looking:
            return
        self._is_looking = True
        asked = [(it.number, drive) for it in self._target.hosts.all() for drive in sorted(it.drives)]
        self._look(asked, {number: [] for number, _ in asked}, self._looked)

    def _looked(self, _: Keys) -> None:
        self._is_looking = False

    def _look(self, asked: list[tuple[int, int]], found: Keys, then: Callable[[Keys], None]) -> None:
        if not asked:
            then(found)
            return
        number, drive = asked[0]
        if self._supervisor.sent_of(number) >= SENT:
            # a third command of a host would hold up all hosts
            self._loop.after(_PAUSE, lambda: self._look(asked, found, then))
            return

        def looked(reply: Reply) -> None:
            if is_owed(reply):
                self._units.attentions.owe(number, drive, reply.sense)
                self._look(asked, found, then)
                return
            if reply.status == GOOD:
                self._target.hosts.is_unregistered(drive, number)
            else:
                found[number].append(drive if reply.status == RESERVATION_CONFLICT else -1)
            self._look(asked[1:], found, then)

        self._supervisor.command(number, drive, _REGISTER, _NO_KEYS, looked)

    def free(self, number: int, then: Callable[[dict[str, Any]], None]) -> None:
        if not self._target.hosts.get(number):
            then({"freed": False, "why": f"there is no host {number}"})
        elif self._target.session_of(number):
            then({"freed": False, "why": f"host {number} has a session"})
        else:
            self.keys(lambda keys: self._judge(number, keys[number], then), number)

    def _judge(self, number: int, drives: list[int], then: Callable[[dict[str, Any]], None]) -> None:
        if drives or self._target.session_of(number):
            where = ", ".join(map(str, drives)) or "none, but it has a session"
            then({"freed": False, "why": f"host {number} holds a key at drive {where}"})
            return
        self._target.hosts.free(number)
        then({"freed": True, "why": ""})
