"""The log: one line for a login, a move, a fault, a refusal, each with its time and host.

What a stranger can cause as often as it likes, a refusal, is limited, so that nobody fills a disk by it. Bytes of a
stranger are shown as printable ASCII alone."""
import sys
import time
import traceback
from collections import deque
from typing import NamedTuple, TextIO

_REFUSALS, _SECONDS, _DAY, _KEPT = 20, 10.0, 86_400.0, 200


class Fault(NamedTuple):
    time: float
    text: str


def printable(text: str, most: int = 256) -> str:
    return "".join(it if " " <= it <= "~" else "?" for it in text[:most])


class Log:
    def __init__(self, path: str | None) -> None:
        self._file: TextIO = open(path, "a", encoding="utf-8") if path else sys.stderr
        self._faults: deque[Fault] = deque(maxlen=_KEPT)
        self._since, self._count = 0.0, 0

    def say(self, text: str) -> None:
        stamp = time.strftime("%Y-%m-%dT%H:%M:%SZ", time.gmtime())
        try:
            print(stamp, printable(text, 2_000), file=self._file, flush=True)
        except OSError:
            pass  # a full disk stops no host

    def fault(self, text: str) -> None:
        """A fault of the last day is shown by the status, too."""
        self._faults.append(Fault(time.time(), printable(text)))
        self.say(f"fault: {text}")

    def refusal(self, text: str) -> None:
        now = time.monotonic()
        if now - self._since > _SECONDS:
            if self._count > _REFUSALS:
                self.say(f"refused: {self._count - _REFUSALS} more in {_SECONDS:.0f} seconds")
            self._since, self._count = now, 0
        self._count += 1
        if self._count <= _REFUSALS:
            self.say(f"refused: {text}")

    def own_fault(self, where: str, error: BaseException) -> None:
        """An exception that should not be: named by its kind and place, without a value, which may be a secret."""
        frames = traceback.extract_tb(error.__traceback__)
        place = " < ".join(f"{it.filename.rsplit('/', 1)[-1]}:{it.lineno}" for it in reversed(frames[-4:]))
        self.fault(f"{where}: {type(error).__name__} at {place}")

    def faults(self) -> list[Fault]:
        """Those of the last day, the newest first."""
        return [it for it in reversed(self._faults) if it.time > time.time() - _DAY]
