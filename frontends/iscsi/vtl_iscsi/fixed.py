"""Fixed blocks (SSC-4, 4.2.8.2, READ(6) and WRITE(6) with FIXED 1): a frame a block, one after the other.

The drives have blocks of any length alone. With --fixed a drive here has a block length, which MODE SENSE gives and
MODE SELECT changes."""
from __future__ import annotations

from collections.abc import Callable
from typing import TYPE_CHECKING

from .frames import MOST_DATA
from .sense import GOOD, MODE_CHANGED, Reply, code_of
from .tasks import Task

if TYPE_CHECKING:
    from .units import Units

Done = Callable[[Reply], None]
READ_6, WRITE_6, MODE_SELECT_6, MODE_SENSE_6 = 0x08, 0x0A, 0x15, 0x1A
_FIXED, _SILI, _DBD = 0x01, 0x02, 0x08
_LONGEST_BLOCK, _WITH_DESCRIPTOR = 1_048_576, 12


class Fixed:
    def __init__(self, units: Units, number: int, length: int) -> None:
        self._units, self._number, self._first = units, number, length
        self._length = length

    def reset(self) -> None:
        self._length = self._first

    def length_of(self, task: Task) -> int:
        """The data that a WRITE(6) asks for. Of fixed blocks it is judged in its order, as the length then is."""
        return task.length if task.block[1] & _FIXED else int.from_bytes(task.block[2:5], "big")

    def concerns(self, task: Task) -> bool:
        code = task.block[0]
        return code in (MODE_SELECT_6, MODE_SENSE_6) or code in (READ_6, WRITE_6) and bool(task.block[1] & _FIXED)

    def start(self, task: Task, done: Done) -> None:
        if task.block[0] == MODE_SENSE_6:
            self._units.command(task, task.block[:6], b"", lambda reply: done(self._with_length(task, reply)))
        elif task.block[0] == MODE_SELECT_6:
            self._select(task, done)
        else:
            self._blocks(task, done)

    # The block length.

    def _with_length(self, task: Task, reply: Reply) -> Reply:
        """A MODE SENSE that gives a block descriptor gives the length in it, bytes 9 to 11."""
        if reply.status != GOOD or task.block[1] & _DBD or len(reply.data) <= 9:
            return reply
        data = bytearray(reply.data)
        data[9:12] = self._length.to_bytes(3, "big")[:len(data) - 9]
        return reply._replace(data=data)

    def _select(self, task: Task, done: Done) -> None:
        """The drive gets the list with block length 0, the one that it has."""
        data, length = bytearray(task.data), self._length
        if len(data) == _WITH_DESCRIPTOR and data[3] == 8:
            length = int.from_bytes(data[9:12], "big")
            if length <= _LONGEST_BLOCK:
                data[9:12] = bytes(3)

        def selected(reply: Reply) -> None:
            if reply.status == GOOD and length != self._length:
                self._length = length
                self._units.attentions.changed(self._number, MODE_CHANGED, task.session.number)
            done(reply)

        self._units.command(task, task.block[:6], data, selected)

    # Blocks.

    def _blocks(self, task: Task, done: Done) -> None:
        count, length = int.from_bytes(task.block[2:5], "big"), self._length
        is_read = task.block[0] == READ_6
        if not length or is_read and task.block[1] & _SILI or count * length > MOST_DATA or (
                not is_read and count * length != len(task.data)):
            # checked by the drive in its order: one with FIXED 1 is refused there with this answer, or for more
            self._units.command(task, task.block[:6], b"", done)
            return
        task.session.alone = task
        _Run(self._units, task, count, length, done).go_on()


class _Run:
    """The blocks of one command."""

    def __init__(self, units: Units, task: Task, count: int, length: int, done: Done) -> None:
        self._units, self._task, self._count, self._length, self._done = units, task, count, length, done
        self._is_read = task.block[0] == READ_6
        self._moved = 0
        self._got: list[bytes | bytearray | memoryview] = []

    def go_on(self) -> None:
        if self._count and self._moved == self._count:
            self._done(Reply(GOOD, b"", b"".join(self._got)))
            return
        # of no block the drive checks all but the length
        length = self._length if self._count else 0
        block = bytes((self._task.block[0], 0)) + length.to_bytes(3, "big") + bytes(1)
        at = self._moved * self._length
        data = b"" if self._is_read else self._task.data[at:at + length]
        self._units.command(self._task, block, data, self._answered)

    def _answered(self, reply: Reply) -> None:
        if reply.status == GOOD and self._count:
            self._got.append(reply.data)
            self._moved += 1
            self.go_on()
        else:
            self._done(self._ended(reply))

    def _ended(self, reply: Reply) -> Reply:
        """INFORMATION counts blocks: those that were not moved, one of another length among them."""
        sense, data = bytearray(reply.sense), b"".join(self._got)
        if len(sense) < 18 or not sense[0] & 0x80:
            return reply._replace(data=data)
        left = self._count - self._moved
        # early warning: this block was written (SSC-4, WRITE)
        if not self._is_read and code_of(reply) == (0x0, 0x00, 0x02):
            left -= 1
        sense[3:7] = left.to_bytes(4, "big")
        return reply._replace(sense=bytes(sense), data=data)
