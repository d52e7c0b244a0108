"""A SCSI command on its way: its data-out as they come, and its answer as PDUs (RFC 7143, 4.2.5, 11.3 to 11.8)."""
from __future__ import annotations

from typing import TYPE_CHECKING

from .buffers import BUFFERS
from .frames import MOST_DATA
from .pdu import (FINAL, HAS_STATUS, OVERFLOW, READS, RESERVED_TAG, UNDERFLOW, WRITES, Opcode, ProtocolError, Request,
                  header, unit_of)
from .sense import GOOD, Reply

if TYPE_CHECKING:
    from .full_feature import FullFeature
    from .session import Session

# where bytes go that nobody needs
_NOWHERE = memoryview(bytearray(262_144))
_MOST_TURNED = 0xFFFFFFFF


class Task:
    """Its life: it comes, its data come, it is started in its session's order, it is answered."""
    __slots__ = ("session", "path", "request", "unit", "block", "length", "writes", "reads", "wanted", "is_dropped",
                 "_data", "received", "is_open", "_asked_to", "_r2ts", "transfer_tag", "is_aborted", "is_delivered",
                 "is_running", "is_answered", "failure")

    def __init__(self, session: Session, path: FullFeature, request: Request) -> None:
        self.session, self.path, self.request = session, path, request
        self.unit = unit_of(request.lun)
        self.block = request.header[32:48]
        self.length = request.transfer_tag
        self.writes, self.reads = bool(request.flags & WRITES), bool(request.flags & READS)
        # bytes of data-out that the command wants of those that the host has; they may be dropped
        self.wanted = 0
        self.is_dropped = False
        self._data = memoryview(b"")
        self.received = 0
        # more data come without being asked for
        self.is_open = self.writes and not request.is_final
        self._asked_to = self._r2ts = 0
        self.transfer_tag = RESERVED_TAG
        self.is_aborted = self.is_delivered = self.is_running = self.is_answered = False
        # what it is answered whatever a drive says, once its data are there
        self.failure: Reply | None = None

    def want(self, count: int) -> None:
        """The command block asks for so many bytes of data-out. Memory is taken for what a drive can take."""
        self.wanted = min(count, self.length) if self.writes else 0
        self.is_dropped = self.wanted > MOST_DATA
        self._data = BUFFERS.take(0 if self.is_dropped else self.wanted)

    @property
    def data(self) -> memoryview:
        return self._data

    def is_ready(self) -> bool:
        """All its data are there."""
        return not self.is_open and self.received >= self.wanted

    def needs_asking(self) -> bool:
        return not self.is_open and self.transfer_tag == RESERVED_TAG and self.received < self.wanted

    def sinks(self, offset: int, length: int) -> list[memoryview]:
        """Where these bytes of its data go. They come in order (DataPDUInOrder, DataSequenceInOrder)."""
        if offset != self.received or offset + length > self.length or not self.writes:
            raise ProtocolError("data that stand elsewhere than they should")
        if self.is_aborted or self.failure or self.is_dropped:
            return nowhere(length)
        kept = max(0, min(length, self.wanted - offset))
        return [self._data[offset:offset + kept], *nowhere(length - kept)]

    def takes_unasked(self, length: int, most: int) -> None:
        """Immediate and unsolicited data are at most FirstBurstLength (13.14)."""
        if self.received + length > most:
            raise ProtocolError("more data than may come unasked")

    def has_got(self, request: Request, length: int) -> None:
        """A Data-Out of this task is there."""
        self.received += length
        if request.transfer_tag == RESERVED_TAG:
            if not self.is_open:
                raise ProtocolError("data that were not asked for")
            self.is_open = not request.is_final
            return
        if request.transfer_tag != self.transfer_tag or self.received > self._asked_to:
            raise ProtocolError("data that were not asked for")
        if request.is_final or self.received == self._asked_to:
            if self.received != self._asked_to:
                raise ProtocolError("fewer data than were asked for")
            self.transfer_tag = RESERVED_TAG

    def ask(self, tag: int, most: int) -> None:
        """An R2T (11.8) for what is next, at most a burst."""
        count = min(self.wanted - self.received, most)
        self._asked_to, self.transfer_tag = self.received + count, tag
        stat, expected, last = self.path.numbers()
        self.path.connection.send(header(Opcode.R2T, FINAL, self.request.itt, lun=self.request.lun, words=(
            tag, stat, expected, last, self._r2ts, self.received, count)))
        self._r2ts += 1

    def fail(self, reply: Reply) -> None:
        """It is answered so, once its data have come, and goes to no drive."""
        self.failure = self.failure or reply

    def answer(self, reply: Reply) -> None:
        self.is_answered = True
        if not self.is_aborted and not self.path.connection.is_closed:
            _send(self, reply)
        self._data = memoryview(b"")


def nowhere(length: int) -> list[memoryview]:
    whole, rest = divmod(length, len(_NOWHERE))
    return [_NOWHERE] * whole + [_NOWHERE[:rest]]


def _residual(task: Task, reply: Reply) -> tuple[int, int]:
    """The flag and the count of what was not carried (11.4.5), of data-in or of data-out."""
    if task.writes:
        moved, has = task.length, task.path.data_out_length(task)
    else:
        moved, has = task.length if task.reads else 0, len(reply.data)
    if has > moved:
        return OVERFLOW, min(has - moved, _MOST_TURNED)
    return (UNDERFLOW, moved - has) if has < moved else (0, 0)


def _send(task: Task, reply: Reply) -> None:
    flag, residual = _residual(task, reply)
    data = memoryview(reply.data)[:task.length] if task.reads and not task.writes else memoryview(b"")
    is_with_status = len(data) > 0 and reply.status == GOOD
    count = _send_data(task, data, (flag, residual) if is_with_status else None)
    if is_with_status:
        task.path.connection.flush()
        return
    stat, expected, last = task.path.next_numbers()
    sense = len(reply.sense).to_bytes(2, "big") + reply.sense if reply.sense else b""
    made = header(Opcode.SCSI_RESPONSE, FINAL | flag, task.request.itt, third=reply.status,
                  words=(0, stat, expected, last, count, 0, residual))
    task.path.connection.send(made, *([sense] if sense else []))


def _send_data(task: Task, data: memoryview, status: tuple[int, int] | None) -> int:
    """Data-In PDUs, no longer than the host takes, with a final one at each burst; how many. With a status the last one
    has it, as GOOD (11.7.3)."""
    burst, segment, at, number = task.session.agreed.max_burst, task.path.agreed.segment, 0, 0
    while at < len(data):
        burst_end = min(at - at % burst + burst, len(data))
        end = min(at + segment, burst_end)
        flags, residual = FINAL if end == burst_end else 0, 0
        stat, expected, last = task.path.numbers()
        if status and end == len(data):
            stat, expected, last = task.path.next_numbers()
            flags, residual = flags | HAS_STATUS | status[0], status[1]
        task.path.connection.queue(header(Opcode.DATA_IN, flags, task.request.itt, words=(
            RESERVED_TAG, stat if flags & HAS_STATUS else 0, expected, last, number, at, residual)), data[at:end])
        at, number = end, number + 1
    return number
