"""A connection whose host has not logged in yet: nothing but login requests, each of at most 8,192 bytes."""
from __future__ import annotations

from typing import TYPE_CHECKING

from . import keys
from .connection import Connection
from .login import FULL_FEATURE, Login, Refusal, Refused, response
from .log import printable
from .pdu import FINAL, ProtocolError, Request
from .session import WINDOW

if TYPE_CHECKING:
    from .full_feature import FullFeature
    from .target import Target


class LoginPhase:
    most_ahs = 0

    def __init__(self, target: Target, connection: Connection, login: Login) -> None:
        self._target, self._connection, self._login = target, connection, login
        self._stat = self._command = 0
        self._is_first = True

    def most_data(self) -> int:
        return keys.MOST_TEXT

    def sinks(self, request: Request) -> list[memoryview]:
        return [memoryview(bytearray(request.length))]

    def closed(self, why: str) -> None:
        self._target.stranger_closed(self._connection, why)

    def drained(self) -> None:
        pass

    def take(self, request: Request, sinks: list[memoryview], _: bool) -> None:
        if self._is_first:
            # RFC 7143, 11.12: the numbers go on from those of the first request
            self._is_first, self._command, self._stat = False, request.cmdsn, request.words[3]
        try:
            self._step(request, bytes(sinks[0]) if sinks else b"")
        except Refused as error:
            self._refuse(request, error.refusal)

    def _step(self, request: Request, data: bytes) -> None:
        said, current, following, leaves = self._login.step(request, data)
        path: FullFeature | None = None
        if leaves and following == FULL_FEATURE:
            path = self._target.join(self._login, self._connection, self._stat + 1 & 0xFFFFFFFF, self._command)
        flags = (FINAL if leaves else 0) | current << 2 | following
        made = response(request, flags, path.session.tsih if path else self._login.tsih, 0, self._numbers())
        text = keys.spell(said)
        if path:
            self._connection.queue(made, *([text] if text else []))
            self._connection.header_digest = path.agreed.header_digest
            self._connection.data_digest = path.agreed.data_digest
            self._connection.phase = path
            self._connection.flush()
        else:
            self._connection.send(made, *([text] if text else []))

    def _numbers(self) -> tuple[int, int, int]:
        stat = self._stat
        self._stat = stat + 1 & 0xFFFFFFFF
        return stat, self._command, self._command + WINDOW - 1 & 0xFFFFFFFF

    def _refuse(self, request: Request, refusal: Refusal) -> None:
        if self._connection.is_closed:
            raise ProtocolError("closed")
        self._target.log.refusal(f"{self._connection.peer} {printable(self._login.name) or 'without a name'}: "
                                 f"{refusal.name.lower().replace('_', ' ')}")
        self._connection.send(response(request, 0, 0, refusal, self._numbers()))
        self._connection.close_when_sent()
