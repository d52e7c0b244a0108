"""One thread waits for all sockets, pipes and times: what is ready is served, and each service is short."""
import heapq
import itertools
import select
import time
from collections.abc import Callable

READ, WRITE, END = select.EPOLLIN, select.EPOLLOUT, select.EPOLLHUP | select.EPOLLERR
Handler = Callable[[int], None]
_MOST_CANCELLED = 256


class Timer:
    """A call at a time, unless it was cancelled."""

    def __init__(self, call: Callable[[], None]) -> None:
        self.call: Callable[[], None] | None = call


class Loop:
    def __init__(self) -> None:
        self._epoll = select.epoll()
        self._handlers: dict[int, Handler] = {}
        self._times: list[tuple[float, int, Timer]] = []
        self._numbers = itertools.count()
        self._cancelled = 0
        self._is_ended = False
        # what is done with an exception that no handler took
        self.on_fault: Callable[[Exception], None] = lambda error: None

    def watch(self, fd: int, events: int, handler: Handler) -> None:
        self._handlers[fd] = handler
        self._epoll.register(fd, events)

    def change(self, fd: int, events: int) -> None:
        self._epoll.modify(fd, events)

    def forget(self, fd: int) -> None:
        """Before the file is closed."""
        if self._handlers.pop(fd, None):
            self._epoll.unregister(fd)

    def after(self, seconds: float, call: Callable[[], None]) -> Timer:
        timer = Timer(call)
        heapq.heappush(self._times, (time.monotonic() + seconds, next(self._numbers), timer))
        return timer

    def cancel(self, timer: Timer) -> None:
        """What was cancelled takes no more room than what is not."""
        timer.call = None
        self._cancelled += 1
        if self._cancelled > _MOST_CANCELLED and 2 * self._cancelled > len(self._times):
            self._times = [it for it in self._times if it[2].call]
            heapq.heapify(self._times)
            self._cancelled = 0

    def end(self) -> None:
        self._is_ended = True

    def run(self) -> None:
        while not self._is_ended:
            try:
                for fd, events in self._epoll.poll(self._rest()):
                    # one that was forgotten meanwhile is ready no more
                    if handler := self._handlers.get(fd):
                        handler(events)
                self._call_due()
            except Exception as error:  # one host's fault ends no other's session
                self.on_fault(error)

    def _rest(self) -> float:
        """Seconds until the next time; -1 where there is none."""
        return max(0.0, self._times[0][0] - time.monotonic()) if self._times else -1

    def _call_due(self) -> None:
        while self._times and self._times[0][0] <= time.monotonic():
            call = heapq.heappop(self._times)[2].call
            if call:
                call()
