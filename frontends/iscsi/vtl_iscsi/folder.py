"""The folder of a front end's own files, beside the configuration: LIBRARY.iscsi, for its owner alone.

A file there is replaced as a whole: written under another name, synced, renamed, and the folder is synced. So a crash
leaves the old one or the new one."""
import fcntl
import json
import os
import socket
import time
from typing import Any

STATUS = "status"
_SECONDS, _PAUSE = 120.0, 0.05


class InUse(Exception):
    """Another front end has the folder."""


class Folder:
    def __init__(self, configuration: str) -> None:
        self.path = os.path.splitext(configuration)[0] + ".iscsi"
        self._lock = -1

    def of(self, name: str) -> str:
        return os.path.join(self.path, name)

    @property
    def lock(self) -> int:
        """The file that holds the lock; `vtl` inherits it, and so keeps it until it has ended."""
        return self._lock

    def take(self) -> None:
        """Makes the folder where it is missing, and locks it. A `vtl` whose front end was killed ends by itself, and
        stores what waits: it is waited for."""
        os.makedirs(self.path, mode=0o700, exist_ok=True)
        self._lock = os.open(self.of("lock"), os.O_CREAT | os.O_RDWR | os.O_CLOEXEC, 0o600)
        end = time.monotonic() + _SECONDS
        while True:
            try:
                fcntl.flock(self._lock, fcntl.LOCK_EX | fcntl.LOCK_NB)
                return
            except BlockingIOError as error:
                if self.is_answered() or time.monotonic() > end:
                    raise InUse(self.path) from error
            time.sleep(_PAUSE)

    def is_answered(self) -> bool:
        """Whether a front end runs over it."""
        with socket.socket(socket.AF_UNIX, socket.SOCK_STREAM) as sock:
            return sock.connect_ex(self.of(STATUS)) == 0

    def read(self, name: str) -> Any:
        """What was kept under this name; None where nothing was."""
        try:
            with open(self.of(name), encoding="utf-8") as file:
                return json.load(file)
        except FileNotFoundError:
            return None

    def keep(self, name: str, value: Any) -> None:
        self.write(name, json.dumps(value, indent=1, sort_keys=True) + "\n")

    def write(self, name: str, text: str) -> None:
        new = self.of(name + ".new")
        file = os.open(new, os.O_CREAT | os.O_WRONLY | os.O_TRUNC | os.O_CLOEXEC, 0o600)
        try:
            os.write(file, text.encode())
            os.fsync(file)
        finally:
            os.close(file)
        os.rename(new, self.of(name))
        folder = os.open(self.path, os.O_RDONLY | os.O_DIRECTORY | os.O_CLOEXEC)
        try:
            os.fsync(folder)
        finally:
            os.close(folder)
