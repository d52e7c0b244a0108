"""The logical units of the target: LUN 0 the changer, LUN d the drive d; others are not there."""
from __future__ import annotations

from collections.abc import Callable
from typing import TYPE_CHECKING, Any

from . import vital
from .attentions import CHANGER, Attentions
from .changer import Changer
from .drives import Drive
from .hosts import Hosts
from .library import Library
from .log import Log
from .sense import CHECK_CONDITION, NO_SENSE, NO_SUCH_UNIT, Reply, good
from .supervisor import Supervisor
from .tasks import Task

if TYPE_CHECKING:
    from .session import Session

REQUEST_SENSE, INQUIRY, REPORT_LUNS = 0x03, 0x12, 0xA0
_DESC = 0x01
Done = Callable[[Reply], None]


class Units:
    def __init__(self, library: Library, hosts: Hosts, supervisor: Supervisor, attentions: Attentions, log: Log,
                 fixed: int) -> None:
        self.library, self.hosts, self.attentions, self.log = library, hosts, attentions, log
        self._supervisor = supervisor
        # hosts that prevent removal at a unit
        self.prevents: set[tuple[int, int]] = set()
        self._drives = {number: Drive(self, number, fixed) for number in library.drives}
        self._changer = Changer(self)
        self._waits: list[tuple[set[Task], Callable[[], None]]] = []
        # set by who has the sessions: one of a host may go on
        self.go_on_of: Callable[[int], None] = lambda number: None

    def numbers(self) -> list[int]:
        return [CHANGER, *self._drives]

    def sent_of(self, number: int) -> int:
        return self._supervisor.sent_of(number)

    def data_out_length(self, task: Task) -> int:
        """What the command block asks for."""
        drive = self._drives.get(task.unit) if task.unit is not None else None
        return drive.data_out_length(task) if drive else 0

    def start(self, task: Task, done: Done) -> None:
        code, unit = task.block[0], task.unit
        if code == REPORT_LUNS:
            done(vital.report_luns(task.block, self.numbers()))
        elif unit == CHANGER:
            self._changer.start(task, done)
        elif unit in self._drives:
            self._drives[unit].start(task, done)
        else:
            done(self._absent(task))

    def _absent(self, task: Task) -> Reply:
        """SPC-4, 6.6 and 6.39: INQUIRY and REQUEST SENSE are answered where no unit is."""
        if task.block[0] == INQUIRY:
            return vital.inquiry(task.block, vital.NO_DEVICE, self.hosts.library, 0)
        if task.block[0] == REQUEST_SENSE:
            return good(NO_SUCH_UNIT.sense[:task.block[4]])
        return NO_SUCH_UNIT

    def owed_first(self, task: Task) -> Reply | None:
        """What is reported in the place of the command; REQUEST SENSE has it as its data."""
        is_refused = task.block[0] == REQUEST_SENSE and task.block[1] & _DESC
        if task.block[0] == INQUIRY or is_refused or task.unit is None:
            return None
        sense = self.attentions.take(task.session.number, task.unit)
        if not sense:
            return None
        return good(sense[:task.block[4]]) if task.block[0] == REQUEST_SENSE else Reply(CHECK_CONDITION, sense)

    def command(self, task: Task, block: bytes, data: bytes | memoryview, then: Done) -> None:
        self._supervisor.command(task.session.number, task.unit or 0, block, data, then)

    def move(self, task: Task, source: int, destination: int, then: Done) -> None:
        self._supervisor.move(task.session.number, source, destination, then)

    def moved(self, source: int, destination: int) -> None:
        for number in (source, destination):
            if number in self._drives:
                self._drives[number].changed()

    def is_prevented(self, unit: int) -> bool:
        return any(other == unit for _, other in self.prevents)

    def prevent(self, number: int, unit: int, is_prevented: bool) -> None:
        (self.prevents.add if is_prevented else self.prevents.discard)((number, unit))

    # What happens to hosts and units.

    def ended(self, task: Task) -> None:
        for tasks, then in list(self._waits):
            tasks.discard(task)
            if not tasks:
                self._waits.remove((tasks, then))
                then()

    def when_ended(self, tasks: list[Task], then: Callable[[], None]) -> None:
        """Calls it once none of these runs."""
        running = {it for it in tasks if it.is_running and not it.is_answered}
        if running:
            self._waits.append((running, then))
        else:
            then()

    def was_reset(self, unit: int) -> None:
        self.prevents = {it for it in self.prevents if it[1] != unit}
        self.attentions.was_reset(unit)
        if unit in self._drives:
            self._drives[unit].reset()

    def nexus_lost(self, session: Session) -> None:
        self.prevents = {it for it in self.prevents if it[0] != session.number}
        self.attentions.lost(session.number)

    def power_on(self) -> None:
        """`vtl` has ended, and every unit with it."""
        self.prevents.clear()
        for drive in self._drives.values():
            drive.reset()
            drive.changed()

    def safety(self, number: int) -> dict[str, Any]:
        return self._drives[number].safety()

    def no_sense(self, task: Task) -> Reply:
        return good(NO_SENSE[:task.block[4]])
