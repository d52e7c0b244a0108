"""A running `vtl serve`: requests go to its standard input, answers come from its standard output, by their tags."""
import fcntl
import os
import subprocess
from collections import deque
from collections.abc import Callable

from . import frames
from .buffers import BUFFERS
from .frames import HEADER, Head
from .loop import END, READ, WRITE, Loop
from .sense import LOST, Reply

Then = Callable[[Reply], None]
Piece = bytes | bytearray | memoryview
_PIPE, _AHEAD, _PIECES = 1 << 20, 16_384, 64


def _widened(fd: int) -> None:
    os.set_blocking(fd, False)
    try:
        fcntl.fcntl(fd, fcntl.F_SETPIPE_SZ, _PIPE)
    except OSError:
        pass  # the system's limit; it is slower


class Served:
    """`on_end` is called once with the status, behind the last answer; what had none is answered LOST after that."""

    def __init__(self, loop: Loop, words: list[str], lock: int, on_end: Callable[[int], None],
                 on_line: Callable[[str], None]) -> None:
        self._loop, self._on_end, self._on_line = loop, on_end, on_line
        self._process = subprocess.Popen(words, stdin=subprocess.PIPE, stdout=subprocess.PIPE, stderr=subprocess.PIPE,
                                         bufsize=0, start_new_session=True, pass_fds=(lock,))
        assert self._process.stdin and self._process.stdout and self._process.stderr
        self._in, self._out, self._err = (it.fileno() for it in (
            self._process.stdin, self._process.stdout, self._process.stderr))
        for fd in (self._in, self._out, self._err):
            _widened(fd)
        self._waits: dict[int, Then] = {}
        self._tag = 0
        self._queue: deque[memoryview] = deque()
        self._is_writing = self._is_closing = self._is_closed = False
        self._head: Head | None = None
        self._ahead, self._got = b"", 0
        self._body, self._said = memoryview(b""), b""
        self._pidfd = os.pidfd_open(self._process.pid)
        loop.watch(self._in, 0, self._writable)
        loop.watch(self._out, READ, self._readable)
        loop.watch(self._err, READ, self._speaks)
        loop.watch(self._pidfd, READ, self._ended)

    @property
    def pid(self) -> int:
        return self._process.pid

    def waiting(self) -> int:
        return len(self._waits)

    def command(self, host: int, drive: int, block: bytes, data: Piece, then: Then) -> None:
        tag = self._new_tag(then)
        self._send(frames.command(host, drive, block, len(data), tag), data)

    def move(self, source: int, destination: int, then: Then) -> None:
        self._send(frames.move(source, destination, self._new_tag(then)))

    def inventory(self, then: Then) -> None:
        self._send(frames.inventory(self._new_tag(then)))

    def close(self) -> None:
        """The end of its input, behind what was sent: it stores all that waits, and ends."""
        self._is_closing = True
        self._write()

    def kill(self) -> None:
        self._process.kill()

    def _new_tag(self, then: Then) -> int:
        self._tag = (self._tag + 1) & 0xFFFFFFFF
        self._waits[self._tag] = then
        return self._tag

    def _send(self, *pieces: Piece) -> None:
        """Behind the end of its input nothing is sent: it is answered LOST as the process ends."""
        self._queue.extend(memoryview(it) for it in pieces if len(it) and not self._is_closing)
        if not self._is_writing:
            self._write()

    def _writable(self, events: int) -> None:
        self._write() if events & WRITE else self._close_input()

    def _write(self) -> None:
        """What the pipe takes; the rest once it takes more. A pipe that broke is seen by its end."""
        if self._is_closed:
            return
        try:
            while self._queue:
                self._sent(os.writev(self._in, [self._queue[at] for at in range(min(len(self._queue), _PIECES))]))
        except BlockingIOError:
            pass
        except BrokenPipeError:
            self._close_input()
            return
        if self._is_closing and not self._queue:
            self._close_input()
        elif bool(self._queue) != self._is_writing:
            self._is_writing = bool(self._queue)
            self._loop.change(self._in, WRITE if self._is_writing else 0)

    def _close_input(self) -> None:
        if not self._is_closed and self._process.stdin:
            self._is_closed = True
            self._queue.clear()
            self._loop.forget(self._in)
            self._process.stdin.close()

    def _sent(self, count: int) -> None:
        while count:
            first = self._queue[0]
            if count < len(first):
                self._queue[0] = first[count:]
                return
            count -= len(first)
            self._queue.popleft()

    def _readable(self, events: int) -> None:
        if events & READ:
            self._read()
        elif events & END:
            self._loop.forget(self._out)

    def _read(self) -> bool:
        """Takes what is there; False where nothing is, or at the end."""
        try:
            while True:
                if self._head is None:
                    piece = os.read(self._out, _AHEAD)
                    self._take(self._ahead + piece if self._ahead else piece)
                    if 0 < len(piece) < _AHEAD and self._head is None:
                        return True  # most likely nothing more is there
                else:
                    count = os.readv(self._out, [self._body[self._got:]])
                    piece, self._got = b"x" * bool(count), self._got + count
                    if self._got == len(self._body):
                        head, body, self._head, self._body = self._head, self._body, None, memoryview(b"")
                        self._answered(head, body)
                if not piece:
                    return False
        except BlockingIOError:
            return False

    def _take(self, piece: bytes) -> None:
        """Each answer that is whole in these bytes; of the last one the part that is there."""
        at = 0
        while len(piece) - at >= HEADER.size:
            head, start = Head(*HEADER.unpack_from(piece, at)), at + HEADER.size
            end = start + head.sense + head.data
            if end > len(piece):
                self._head, self._body = head, BUFFERS.take(head.sense + head.data)
                self._got = len(piece) - start
                self._body[:self._got] = piece[start:]
                self._ahead = b""
                return
            at = end
            self._answered(head, memoryview(piece)[start:end])
        self._ahead = piece[at:]

    def _answered(self, head: Head, body: memoryview) -> None:
        then = self._waits.pop(head.tag)
        then(Reply(head.status, bytes(body[:head.sense]), body[head.sense:]))

    def _speaks(self, events: int) -> None:
        try:
            piece = os.read(self._err, 4096)
        except BlockingIOError:
            return
        if not piece:
            self._loop.forget(self._err)
        self._said = (self._said + piece)[-8_192:]
        *lines, self._said = self._said.split(b"\n")
        for line in lines:
            self._on_line(line.decode("utf-8", "replace"))

    def _ended(self, _: int) -> None:
        """The process is gone: its last answers, then its end."""
        status = self._process.wait()
        while self._read():
            pass
        self._speaks(READ)
        self._close_input()
        for fd in (self._out, self._err, self._pidfd):
            self._loop.forget(fd)
        os.close(self._pidfd)
        for pipe in (self._process.stdout, self._process.stderr):
            if pipe:
                pipe.close()
        self._on_end(status)
        waits, self._waits = self._waits, {}
        for then in waits.values():
            then(LOST)
