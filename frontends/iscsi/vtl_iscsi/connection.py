"""A connection: PDUs are read from its socket and written to it, with their digests (RFC 7143, section 11.1).

What a PDU counts is bounded before memory is taken for it, and what waits to be sent is too: past that nothing more is
read, so a host that does not read its answers waits for itself."""
import socket
from collections import deque
from collections.abc import Callable
from typing import Protocol

from .crc32c import crc32c
from .log import Log
from .loop import END, READ, WRITE, Loop, Timer
from .pdu import BHS, ProtocolError, Request

Piece = bytes | bytearray | memoryview
_PIECES, _TURNS, _MOST_WAITING, _LAST_SECONDS = 64, 32, 2_500_000, 5.0
_PADS = (b"", b"\0\0\0", b"\0\0", b"\0")
_BUFFER, _AHEAD = 1 << 20, 4_096


class Phase(Protocol):
    """What a connection's PDUs mean, in its login and after it."""
    most_ahs: int

    def most_data(self) -> int: ...
    def sinks(self, request: Request) -> list[memoryview]: ...
    def take(self, request: Request, sinks: list[memoryview], is_whole: bool) -> None: ...
    def closed(self, why: str) -> None: ...
    def drained(self) -> None: ...


class _Nobody:
    """The phase of a connection that is closed."""
    most_ahs = 0

    def most_data(self) -> int:
        return 0

    def sinks(self, request: Request) -> list[memoryview]:
        raise ProtocolError("closed")

    def take(self, request: Request, sinks: list[memoryview], is_whole: bool) -> None:
        pass

    def closed(self, why: str) -> None:
        pass

    def drained(self) -> None:
        pass


_NOBODY = _Nobody()


def _nothing() -> None:
    pass


class Connection:
    def __init__(self, loop: Loop, log: Log, sock: socket.socket, peer: str,
                 phase: Callable[["Connection"], Phase]) -> None:
        self._loop, self._log, self._socket, self.peer = loop, log, sock, peer
        self.header_digest = self.data_digest = False
        self.is_closed = self._closes_when_sent = False
        self._deadline: Timer | None = None
        self._events = READ
        self._out: deque[Piece] = deque()
        self.waiting = 0
        self._header, self._ahead = memoryview(bytearray(BHS)), memoryview(bytearray(_AHEAD))
        self._then: Callable[[], None] = self._has_header
        self._parts: list[memoryview] = [self._header]
        self._request: Request | None = None
        self._extra = self._tail = memoryview(b"")
        self._sinks: list[memoryview] = []
        sock.setblocking(False)
        sock.setsockopt(socket.IPPROTO_TCP, socket.TCP_NODELAY, 1)
        # a host that is gone is found within minutes
        for option, value in ((socket.TCP_KEEPIDLE, 60), (socket.TCP_KEEPINTVL, 10), (socket.TCP_KEEPCNT, 6)):
            sock.setsockopt(socket.IPPROTO_TCP, option, value)
        sock.setsockopt(socket.SOL_SOCKET, socket.SO_KEEPALIVE, 1)
        sock.setsockopt(socket.SOL_SOCKET, socket.SO_SNDBUF, _BUFFER)
        self.phase = phase(self)
        loop.watch(sock.fileno(), READ, self._ready)

    @property
    def address(self) -> str:
        """This end, as a host names it (RFC 7143, 13.8)."""
        name = self._socket.getsockname()
        return f"[{name[0]}]:{name[1]}" if ":" in name[0] else f"{name[0]}:{name[1]}"

    def close(self, why: str) -> None:
        if self.is_closed:
            return
        self.is_closed = True
        self._loop.forget(self._socket.fileno())
        self._socket.close()
        self.closes_in(None, "")
        self._out.clear()
        # what was read and written last is freed at once
        self._parts, self._sinks, self._then = [], [], _nothing
        phase, self.phase = self.phase, _NOBODY
        phase.closed(why)

    def closes_in(self, seconds: float | None, why: str) -> None:
        """Unless it is called again, or closed before; None is never."""
        if self._deadline:
            self._loop.cancel(self._deadline)
        self._deadline = None if seconds is None else self._loop.after(seconds, lambda: self.close(why))

    def close_when_sent(self) -> None:
        self._closes_when_sent = True
        self.closes_in(_LAST_SECONDS, "not read to its end")
        self.flush()

    # What is sent.

    def queue(self, header: bytearray, *pieces: Piece) -> None:
        """A PDU; it goes out with the next `flush`."""
        length = sum(map(len, pieces))
        header[5:8] = length.to_bytes(3, "big")
        if self.header_digest:
            header += crc32c(header).to_bytes(4, "little")
        self._out.append(header)
        self.waiting += len(header)
        if length:
            pad = _PADS[length % 4]
            tail = pad
            if self.data_digest:
                digest = 0
                for piece in pieces:
                    digest = crc32c(piece, digest)
                tail += crc32c(pad, digest).to_bytes(4, "little")
            self._out.extend(pieces)
            if tail:
                self._out.append(tail)
            self.waiting += length + len(tail)

    def send(self, header: bytearray, *pieces: Piece) -> None:
        self.queue(header, *pieces)
        self.flush()

    def flush(self) -> None:
        """What the socket takes; the rest once it takes more."""
        if self.is_closed:
            return
        try:
            while self._out:
                out = self._out
                self._sent(self._socket.sendmsg([out[at] for at in range(min(len(out), _PIECES))]))
        except BlockingIOError:
            pass
        except OSError:
            self._loop.after(0, lambda: self.close("gone"))
            return
        if self._closes_when_sent and not self._out:
            self._loop.after(0, lambda: self.close("ended"))
        self._look()

    def _sent(self, count: int) -> None:
        self.waiting -= count
        while count:
            first = self._out[0]
            if count < len(first):
                self._out[0] = memoryview(first)[count:]
                return
            count -= len(first)
            self._out.popleft()

    def _look(self) -> None:
        """Waits for what there is to wait for."""
        events = (WRITE if self._out else 0) | (0 if self.is_full() or self._closes_when_sent else READ)
        if events != self._events:
            self._events = events
            self._loop.change(self._socket.fileno(), events)

    def is_full(self) -> bool:
        return self.waiting > _MOST_WAITING

    def take_what_came(self) -> None:
        """All that is there to be read by now, as long as there is room."""
        self._ready(READ)

    # What is read.

    def _ready(self, events: int) -> None:
        try:
            if events & WRITE:
                self.flush()
                self.phase.drained()
            if events & (READ | END) and not self.is_closed:
                self._receive()
        except ProtocolError as error:
            self.close(f"protocol error: {error}")
        except OSError:
            self.close("gone")
        except Exception as error:  # nothing that a host sends ends the others' sessions
            self._log.own_fault(f"a session of {self.peer}", error)
            self.close("a fault of the front end")

    def _receive(self) -> None:
        try:
            for _ in range(_TURNS):
                if self.is_closed or self._closes_when_sent or self.is_full():
                    return
                is_short = sum(map(len, self._parts)) <= _AHEAD
                parts = [self._ahead] if is_short else self._parts
                count = self._socket.recvmsg_into(parts)[0]
                if not count:
                    self.close("ended by the host")
                elif not is_short:
                    self._filled(count)
                else:
                    self._fed(self._ahead[:count])
                    if count < _AHEAD:
                        return  # nothing more is there
        except BlockingIOError:
            return

    def _fed(self, piece: memoryview) -> None:
        """Headers and short data come by a buffer, several at once."""
        while piece and not self.is_closed and not self._closes_when_sent:
            part = self._parts[0]
            count = min(len(part), len(piece))
            part[:count] = piece[:count]
            piece = piece[count:]
            self._filled(count)

    def _filled(self, count: int) -> None:
        """So many bytes of what is awaited are there."""
        parts = self._parts
        while parts and count >= len(parts[0]):
            count -= len(parts.pop(0))
        if parts:
            parts[0] = parts[0][count:]
        else:
            self._then()

    def _has_header(self) -> None:
        request = self._request = Request(bytes(self._header))
        if request.ahs > self.phase.most_ahs or request.length > self.phase.most_data():
            raise ProtocolError("a longer segment than was agreed on")
        extra = request.ahs + (4 if self.header_digest else 0)
        if not extra:
            self._begin_data()
            return
        self._extra = memoryview(bytearray(extra))
        self._parts, self._then = [self._extra], self._has_extra

    def _has_extra(self) -> None:
        if self.header_digest:
            found = crc32c(self._extra[:-4], crc32c(self._header)).to_bytes(4, "little")
            if found != self._extra[-4:]:
                # RFC 7143, 7.8: what follows cannot be found any more
                raise ProtocolError("a header with a wrong digest")
        self._begin_data()

    def _begin_data(self) -> None:
        request = self._request
        assert request
        if not request.length:
            self._sinks = []
            self._complete(True)
            return
        self._sinks = [it for it in self.phase.sinks(request) if len(it)]
        tail = -request.length % 4 + (4 if self.data_digest else 0)
        self._tail = memoryview(bytearray(tail))
        self._parts = [*self._sinks, self._tail] if tail else list(self._sinks)
        self._then = self._has_data

    def _has_data(self) -> None:
        is_whole = True
        if self.data_digest:
            digest = 0
            for piece in self._sinks:
                digest = crc32c(piece, digest)
            is_whole = crc32c(self._tail[:-4], digest).to_bytes(4, "little") == self._tail[-4:]
        self._complete(is_whole)

    def _complete(self, is_whole: bool) -> None:
        request, sinks = self._request, self._sinks
        assert request
        self._sinks, self._parts, self._then = [], [self._header], self._has_header
        self.phase.take(request, sinks, is_whole)
