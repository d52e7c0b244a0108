"""A session: its commands in the order of CmdSN over its connections, and what is started next (RFC 7143, 4.2.2)."""
from __future__ import annotations

from collections import deque
from collections.abc import Callable
from functools import partial
from typing import TYPE_CHECKING

from .hosts import Host
from .keys import Parameters
from .pdu import is_before
from .sense import LOST, Reply
from .tasks import Task

if TYPE_CHECKING:
    from .full_feature import FullFeature
    from .units import Units

# Commands that a host may have here at once, and immediate ones beside them; with FirstBurstLength they bound the
# memory that a session takes. At most two of them are with the library.
WINDOW, IMMEDIATE = 6, 4
SENT = 2


class Session:
    def __init__(self, units: Units, name: str, isid: bytes, tsih: int, host: Host | None, agreed: Parameters) -> None:
        self.units, self.name, self.isid, self.tsih, self.host = units, name, isid, tsih, host
        self.agreed = agreed
        self.paths: dict[int, FullFeature] = {}
        self.expected = 1
        self._held: dict[int, Callable[[], None]] = {}
        # delivered in order and not started, and all that are not answered
        self._queue: deque[Task] = deque()
        self.tasks: dict[int, Task] = {}
        self._asked: Task | None = None
        # one that takes several frames; nothing of the session is started beside it
        self.alone: Task | None = None
        self._next_tag = self._used = 0
        # task management requests that wait for commands to end
        self.managed = 0
        self.commands = self.bytes_in = self.bytes_out = 0
        self.is_closed = False

    @property
    def number(self) -> int:
        return self.host.number if self.host else 0

    def label(self) -> str:
        return self.host.label() if self.host else f"discovery by {self.name}"

    def last(self) -> int:
        """MaxCmdSN. What was delivered and is not answered takes a place of the window."""
        return self.expected + max(WINDOW - self._used, 0) - 1 & 0xFFFFFFFF

    def new_tag(self) -> int:
        self._next_tag = (self._next_tag + 1) % 0xFFFFFFFF
        return self._next_tag

    def in_window(self, number: int) -> bool:
        """Whether a command of this number is new, and may come now."""
        is_old = is_before(number, self.expected)
        return not is_old and number not in self._held and not is_before(self.last(), number)

    def arrives(self, number: int, deliver: Callable[[], None]) -> None:
        """In the order of their numbers, whichever connection they came over."""
        self._held[number] = deliver
        while then := self._held.pop(self.expected, None):
            self.expected = self.expected + 1 & 0xFFFFFFFF
            then()

    def deliver(self, task: Task) -> None:
        if not task.is_aborted:
            task.is_delivered = True
            self._used += 1
            self._queue.append(task)
            self.go_on()

    def deliver_first(self, task: Task) -> None:
        """An immediate command."""
        self._queue.appendleft(task)
        self.go_on()

    def go_on(self) -> None:
        """Starts what may be started, and asks for the data of what comes next."""
        while self._queue and not self.is_closed:
            task = self._queue[0]
            if task.is_aborted:
                self._queue.popleft()
                continue
            if not task.is_ready() or self.alone or self._is_held_up(task):
                break
            self._queue.popleft()
            self._start(task)
        self._ask()

    def _is_held_up(self, task: Task) -> bool:
        return self.units.sent_of(self.number) >= SENT or task.path.connection.is_full()

    def _start(self, task: Task) -> None:
        task.is_running = True
        self.commands += 1
        self.bytes_in += task.received
        if task.failure:
            self.finish(task, task.failure)
            return
        try:
            self.units.start(task, partial(self.finish, task))
        except Exception as error:
            self.units.log.own_fault(f"a command of a session of {self.label()}", error)
            if not task.is_answered:
                self.finish(task, LOST)

    def _ask(self) -> None:
        """One R2T at a time, for the first task in order that needs one (MaxOutstandingR2T is 1)."""
        if not self._queue:
            self._asked = None
            return
        if self._asked and (self._asked.needs_asking() or self._asked.is_ready() or self._asked.is_aborted):
            self._asked = None
        if self._asked:
            return
        self._asked = next((it for it in self._queue if it.needs_asking() and not it.is_aborted), None)
        if self._asked:
            self._asked.ask(self.new_tag(), self.agreed.max_burst)

    def _leaves(self, task: Task) -> None:
        if self.tasks.pop(task.request.itt, None):
            self._used -= task.is_delivered

    def finish(self, task: Task, reply: Reply) -> None:
        self._leaves(task)
        self.bytes_out += len(reply.data)
        if self.alone is task:
            self.alone = None
        task.answer(reply)
        self.units.ended(task)
        self.go_on()
        if self.is_closed:
            # the next session of the host may have waited for it
            self.units.go_on_of(self.number)

    def terminate(self, task: Task, reply: Reply) -> None:
        """One that was not started is answered so at once."""
        self._leaves(task)
        task.answer(reply)
        task.is_aborted = True

    def lose(self) -> None:
        """`vtl` ended: what has not been started gets an answer that says so, and goes to no drive."""
        for task in self.tasks.values():
            task.fail(LOST)

    def abort(self, task: Task) -> None:
        """It is answered no more. What is with a drive cannot be stopped, and is waited for (`Units.when_ended`)."""
        task.is_aborted = True
        if not task.is_running:
            self._leaves(task)

    def close(self) -> None:
        self.is_closed = True
        for task in list(self.tasks.values()):
            self.abort(task)
        self._queue.clear()
        self._held.clear()
