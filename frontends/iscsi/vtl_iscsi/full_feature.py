"""The full feature phase of a connection: what each PDU of a host does (RFC 7143, section 11)."""
from __future__ import annotations

from collections.abc import Callable
from functools import partial
from typing import TYPE_CHECKING

from . import keys, management, texts
from .connection import Connection
from .keys import Parameters
from .pdu import FINAL, RESERVED_TAG, WRITES, Opcode, ProtocolError, Reason, Request, header
from .sense import DIGEST_ERROR, INVALID_FIELD
from .session import IMMEDIATE, Session
from .tasks import Task, nowhere

if TYPE_CHECKING:
    from .target import Target

_CLOSE_SESSION, _CLOSE_CONNECTION = 0, 1


class FullFeature:
    most_ahs = 255 * 4

    def __init__(self, target: Target, connection: Connection, session: Session, cid: int, agreed: Parameters,
                 stat: int) -> None:
        self.target, self.connection, self.session, self.cid = target, connection, session, cid
        self.agreed, self._stat = agreed, stat
        self._task: Task | None = None
        self.text = b""

    def most_data(self) -> int:
        return self.agreed.own_segment

    def numbers(self) -> tuple[int, int, int]:
        """StatSN, ExpCmdSN and MaxCmdSN, of a PDU that has no status."""
        return self._stat, self.session.expected, self.session.last()

    def next_numbers(self) -> tuple[int, int, int]:
        stat = self._stat
        self._stat = stat + 1 & 0xFFFFFFFF
        return stat, self.session.expected, self.session.last()

    def data_out_length(self, task: Task) -> int:
        return self.session.units.data_out_length(task)

    def closed(self, why: str) -> None:
        self._task = None
        self.target.path_closed(self, why)

    def drained(self) -> None:
        self.session.go_on()

    # Where a PDU's data go.

    def sinks(self, request: Request) -> list[memoryview]:
        if request.opcode == Opcode.SCSI_COMMAND:
            self._task = self._task_of(request)
            return self._task.sinks(0, request.length) if self._task else nowhere(request.length)
        if request.opcode == Opcode.DATA_OUT:
            task = self._known(request)
            if not task:
                return nowhere(request.length)
            if request.transfer_tag == RESERVED_TAG:
                task.takes_unasked(request.length, self.session.agreed.first_burst)
            return task.sinks(request.buffer_offset, request.length)
        if request.opcode in (Opcode.NOP_OUT, Opcode.TEXT):
            return [memoryview(bytearray(request.length))]
        return nowhere(request.length)

    def _known(self, request: Request) -> Task | None:
        """The task that a Data-Out is of; none where it was aborted or answered meanwhile."""
        task = self.session.tasks.get(request.itt)
        return task if task and task.path is self and not task.is_running else None

    # What it does.

    def take(self, request: Request, sinks: list[memoryview], is_whole: bool) -> None:
        if not is_whole:
            self.reject(request, Reason.DATA_DIGEST_ERROR)
        if request.opcode == Opcode.SCSI_COMMAND:
            self._command(request, is_whole)
        elif request.opcode == Opcode.DATA_OUT:
            self._data(request, is_whole)
        elif request.opcode == Opcode.LOGIN:
            raise ProtocolError("a login in the full feature phase")
        elif is_whole and request.opcode in _ACTIONS:
            data = bytes(sinks[0]) if sinks else b""
            self._in_order(request, lambda: _ACTIONS[request.opcode](self, request, data))
        elif is_whole:
            self.reject(request, Reason.SNACK_REJECT if request.opcode == Opcode.SNACK else Reason.NOT_SUPPORTED)

    def _in_order(self, request: Request, act: Callable[[], None]) -> None:
        if request.is_immediate or request.opcode == Opcode.NOP_OUT and request.itt == RESERVED_TAG:
            act()
        elif self.session.in_window(request.cmdsn):
            self.session.arrives(request.cmdsn, act)

    def reject(self, request: Request, reason: Reason) -> None:
        """11.17: with the header that is rejected."""
        stat, expected, last = self.next_numbers()
        self.connection.send(header(Opcode.REJECT, FINAL, RESERVED_TAG, second=reason,
                                    words=(0, stat, expected, last, 0, 0, 0)), request.header)

    def _task_of(self, request: Request) -> Task | None:
        """A new task; None where it is ignored, as what is outside the window is (4.2.2.1), or rejected."""
        session, agreed = self.session, self.session.agreed
        writes = bool(request.flags & WRITES)
        if request.length and not (writes and agreed.immediate_data and request.length <= min(
                request.transfer_tag, agreed.first_burst)):
            raise ProtocolError("immediate data that may not be")
        if writes and not request.is_final and agreed.initial_r2t:
            raise ProtocolError("data that would come unasked")
        if not request.is_immediate and not session.in_window(request.cmdsn):
            return None
        reason = self._refusal(request)
        if reason:
            self.reject(request, reason)
            if not request.is_immediate:
                session.arrives(request.cmdsn, lambda: None)
            return None
        task = Task(session, self, request)
        task.want(session.units.data_out_length(task))
        if request.ahs or task.writes and task.reads:
            task.fail(INVALID_FIELD)  # longer command blocks and data both ways are none of these units'
        return task

    def _refusal(self, request: Request) -> Reason | None:
        session = self.session
        if not session.host or request.itt == RESERVED_TAG:
            return Reason.PROTOCOL_ERROR
        if request.itt in session.tasks:
            return Reason.TASK_IN_PROGRESS
        if request.is_immediate and sum(it.request.is_immediate for it in session.tasks.values()) >= IMMEDIATE:
            return Reason.TOO_MANY_IMMEDIATE
        return None

    def _command(self, request: Request, is_whole: bool) -> None:
        task = self._task if request.length else self._task_of(request)
        self._task = None
        if not task or not is_whole:
            return
        task.received = request.length
        self.session.tasks[request.itt] = task
        if request.is_immediate:
            self.session.deliver_first(task)
        else:
            self.session.arrives(request.cmdsn, partial(self.session.deliver, task))

    def _data(self, request: Request, is_whole: bool) -> None:
        task = self._known(request)
        if task:
            if not is_whole:
                task.fail(DIGEST_ERROR)
            task.has_got(request, request.length)
            self.session.go_on()

    def _nop(self, request: Request, data: bytes) -> None:
        """A ping is sent back (11.18); the answer to one of this side's is none."""
        if request.itt != RESERVED_TAG:
            self.connection.send(header(Opcode.NOP_IN, FINAL, request.itt, lun=request.lun, words=(
                RESERVED_TAG, *self.next_numbers(), 0, 0, 0)), data[:self.agreed.segment])

    def _text(self, request: Request, data: bytes) -> None:
        try:
            texts.answer(self, request, data)
        except keys.BadText:
            self.text = b""
            self.reject(request, Reason.PROTOCOL_ERROR)

    def _logout(self, request: Request, _: bytes) -> None:
        """11.14: 0 closes the session, 1 the connection; recovery is of a higher error recovery level."""
        reason, cid = request.flags & 0x7F, request.words[1] >> 16
        path = self if reason == _CLOSE_SESSION else self.session.paths.get(cid)
        answer = 2 if reason > _CLOSE_CONNECTION else 0 if path else 1
        stat, expected, last = self.next_numbers()
        made = header(Opcode.LOGOUT_RESPONSE, FINAL, request.itt, second=answer,
                      words=(0, stat, expected, last, 0, 0, 0))
        self.connection.queue(made)
        if answer:
            self.connection.flush()
            return
        for other in list(self.session.paths.values()):
            if other is not self and (reason == _CLOSE_SESSION or other is path):
                other.connection.close("logged out")
        if path is self:
            self.connection.close_when_sent()
        else:
            self.connection.flush()

    def _manage(self, request: Request, _: bytes) -> None:
        management.manage(self, request)


_ACTIONS: dict[int, Callable[[FullFeature, Request, bytes], None]] = {
    Opcode.NOP_OUT: FullFeature._nop, Opcode.TEXT: FullFeature._text, Opcode.LOGOUT: FullFeature._logout,
    Opcode.TASK_MANAGEMENT: FullFeature._manage}
