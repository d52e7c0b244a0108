"""What a running front end says of itself: over a socket in its folder, for its owner alone."""
from __future__ import annotations

import json
import os
import socket
import time
from typing import Any

from .folder import STATUS, Folder
from .freeing import Freeing
from .log import Log
from .loop import END, READ, Loop
from .supervisor import Supervisor
from .target import Target
from .units import Units

_MOST_QUESTION, _MOST_WAITING, _SECONDS = 256, 16, 30.0


class Status:
    def __init__(self, loop: Loop, log: Log, folder: Folder, target: Target, units: Units,
                 supervisor: Supervisor) -> None:
        self._loop, self._log = loop, log
        self._target, self._units, self._supervisor = target, units, supervisor
        self.freeing = Freeing(loop, target, units, supervisor)
        self._since = time.time()
        path = folder.of(STATUS)
        if os.path.exists(path):
            os.unlink(path)  # the folder's lock is held here
        self._listener = socket.socket(socket.AF_UNIX, socket.SOCK_STREAM)
        before = os.umask(0o177)
        try:
            self._listener.bind(path)
        finally:
            os.umask(before)
        self._listener.listen(_MOST_WAITING)
        self._listener.setblocking(False)
        loop.watch(self._listener.fileno(), READ, lambda _: self._accept())

    def _accept(self) -> None:
        try:
            sock, _ = self._listener.accept()
        except OSError:
            return
        sock.setblocking(False)
        self._loop.watch(sock.fileno(), READ, lambda events: self._asked(sock, events))
        self._loop.after(_SECONDS, lambda: self._close(sock))

    def _asked(self, sock: socket.socket, events: int) -> None:
        """One line of the owner: status, hosts, or free NUMBER."""
        try:
            question = sock.recv(_MOST_QUESTION) if events & READ else b""
        except OSError:
            question = b""
        words = question.decode("ascii", "replace").split()
        if words[:1] == ["status"]:
            self._answer(sock, self.document())
        elif words[:1] == ["hosts"]:
            self.freeing.keys(lambda keys: self._answer(sock, self.hosts(keys)))
        elif words[:1] == ["free"] and len(words) == 2 and words[1].isdecimal():
            self.freeing.free(int(words[1]), lambda said: self._answer(sock, said))
        elif events & END or not question:
            self._close(sock)

    def _answer(self, sock: socket.socket, said: Any) -> None:
        if sock.fileno() < 0:
            return
        try:
            sock.setblocking(True)
            sock.settimeout(1.0)
            sock.sendall(json.dumps(said).encode())
        except OSError:
            pass
        self._close(sock)

    def _close(self, sock: socket.socket) -> None:
        if sock.fileno() >= 0:
            self._loop.forget(sock.fileno())
            sock.close()

    # The document.

    def hosts(self, keys: dict[int, list[int]]) -> list[dict[str, Any]]:
        return [{"number": it.number, "name": it.name, "isid": it.isid.hex(),
                 "session": self._target.session_of(it.number) is not None,
                 "keys_at_drives": keys.get(it.number, [])} for it in self._target.hosts.all()]

    def document(self) -> dict[str, Any]:
        units, library = self._units, self._units.library
        return {
            "target": self._target.name, "addresses": self._target.addresses(), "since": self._since,
            "vtl": {"pid": self._supervisor.pid, "up": self._supervisor.is_up, "starts": self._supervisor.starts,
                    "waiting": self._supervisor.waiting()},
            "sessions": [{
                "host": it.number, "name": it.name, "isid": it.isid.hex(), "commands": it.commands,
                "from": [path.connection.peer for path in it.paths.values()], "waiting": len(it.tasks),
                "bytes_in": it.bytes_in, "bytes_out": it.bytes_out} for it in self._target.sessions()],
            "drives": [{
                "number": number, "barcode": (at := library.at(number)) and at.barcode,
                "loaded": number in library.loaded, "prevented_by": sorted(
                    host for host, unit in units.prevents if unit == number)} | units.safety(number)
                for number in library.drives],
            "cartridges": [{
                "barcode": it.barcode, "at": it.at, "source": it.source, "capacities": it.capacities,
                "refused": it.refusal is not None}
                for it in sorted(library.cartridges.values(), key=lambda it: it.at)],
            "faults": [{"time": it.time, "text": it.text} for it in self._log.faults()],
        }
