"""The target: where it listens, who is logging in, and the sessions (RFC 7143, 6.3)."""
from __future__ import annotations

import ipaddress
import socket
from collections.abc import Callable

from .access import Access
from .connection import Connection
from .full_feature import FullFeature
from .hosts import MOST, Hosts
from .log import Log
from .login import Login, Refusal, Refused
from .login_phase import LoginPhase
from .loop import READ, Loop
from .session import Session
from .units import Units

# Connections that have not logged in yet; one more takes the place of the oldest. All connections.
_STRANGERS, _CONNECTIONS, _LOGIN_SECONDS, _PAUSE = 16, 160, 15.0, 1.0


def is_loopback(address: str) -> bool:
    found = ipaddress.ip_address(address.split("%")[0])
    mapped = getattr(found, "ipv4_mapped", None)
    return (mapped or found).is_loopback


class Target:
    def __init__(self, loop: Loop, log: Log, name: str, units: Units, hosts: Hosts, access: Access) -> None:
        self._loop, self.log, self.name, self.units, self.hosts = loop, log, name, units, hosts
        self.access = access
        self._listeners: list[socket.socket] = []
        self._strangers: list[Connection] = []
        self._sessions: dict[int, Session] = {}
        self._last_tsih = 0
        self._is_admitting = False
        units.go_on_of = self._go_on_of
        # set by who uses it
        self.on_full: Callable[[], None] = lambda: None

    def sessions(self) -> list[Session]:
        return list(self._sessions.values())

    def session_of(self, number: int) -> Session | None:
        return next((it for it in self._sessions.values() if it.number == number), None)

    # Who comes.

    def listen(self, address: str, port: int) -> None:
        family = socket.AF_INET6 if ":" in address else socket.AF_INET
        listener = socket.create_server((address, port), family=family, backlog=64)
        listener.setblocking(False)
        self._listeners.append(listener)

    def addresses(self) -> list[str]:
        return ["%s:%s" % it.getsockname()[:2] for it in self._listeners]

    def admit(self) -> None:
        """From now on hosts are accepted."""
        if not self._is_admitting:
            self._is_admitting = True
            for it in self._listeners:
                self._watch(it)

    def end(self) -> None:
        """Nobody is accepted any more."""
        for it in self._listeners:
            self._loop.forget(it.fileno())
            it.close()
        self._listeners.clear()

    def _accept(self, listener: socket.socket) -> None:
        try:
            sock, peer = listener.accept()
        except BlockingIOError:
            return
        except OSError as error:
            self.log.fault(f"no connection can be accepted: {error.strerror}")
            self._loop.forget(listener.fileno())
            self._loop.after(_PAUSE, lambda: self._watch(listener))
            return
        paths = sum(len(it.paths) for it in self._sessions.values())
        if paths + len(self._strangers) >= _CONNECTIONS:
            self.log.refusal(f"{peer[0]}: too many connections")
            sock.close()
            return
        if len(self._strangers) >= _STRANGERS:
            self._strangers[0].close("others wait to log in")
        where = f"{peer[0]}:{peer[1]}"
        is_local = is_loopback(peer[0])
        connection = Connection(self._loop, self.log, sock, where, lambda it: LoginPhase(self, it, Login(
            self.access, self.name, is_local)))
        self._strangers.append(connection)
        connection.closes_in(_LOGIN_SECONDS, "not logged in in time")

    def _watch(self, listener: socket.socket) -> None:
        if listener in self._listeners:
            self._loop.watch(listener.fileno(), READ, lambda _: self._accept(listener))

    def stranger_closed(self, connection: Connection, why: str) -> None:
        if connection in self._strangers:
            self._strangers.remove(connection)
            self.log.refusal(f"{connection.peer}: {why} before it had logged in")

    # Sessions.

    def join(self, login: Login, connection: Connection, stat: int, command: int) -> FullFeature:
        """The session of a login that has succeeded: a new one, or one more connection of an old one."""
        session = self._joined(login) if login.tsih else self._new_session(login)
        if not login.tsih:
            session.expected = command
        self._sessions[session.tsih] = session
        self._strangers.remove(connection)
        connection.closes_in(None, "")
        if old := session.paths.get(login.cid):
            old.connection.close("logged in anew")  # 6.3.4: the connection is reinstated
        path = FullFeature(self, connection, session, login.cid, login.agreed, stat)
        session.paths[login.cid] = path
        self.log.say(f"{session.label()}: login from {connection.peer}")
        return path

    def _joined(self, login: Login) -> Session:
        session = self._sessions.get(login.tsih)
        if not session or (session.name, session.isid) != (login.name, login.isid) or login.is_discovery:
            raise Refused(Refusal.NO_SESSION)
        if login.cid not in session.paths and len(session.paths) >= session.agreed.connections:
            raise Refused(Refusal.TOO_MANY_CONNECTIONS)
        return session

    def _new_session(self, login: Login) -> Session:
        host = None
        if not login.is_discovery:
            for old in [it for it in self.sessions() if it.host and (it.name, it.isid) == (login.name, login.isid)]:
                self._close(old, "logged in anew")  # 6.3.5: the session is reinstated
            host = self.hosts.of(login.name, login.isid, {it.number for it in self.sessions()})
            if not host:
                # whoever holds no key any more gives way to the next one
                self.on_full()
                raise Refused(Refusal.OUT_OF_RESOURCES)
        elif sum(not it.host for it in self.sessions()) >= MOST:
            raise Refused(Refusal.OUT_OF_RESOURCES)
        return Session(self.units, login.name, login.isid, self._new_tsih(), host, login.agreed)

    def _new_tsih(self) -> int:
        while True:
            self._last_tsih = self._last_tsih % 0xFFFF + 1
            if self._last_tsih not in self._sessions:
                return self._last_tsih

    def _close(self, session: Session, why: str) -> None:
        for path in list(session.paths.values()):
            path.connection.close(why)

    def close_all(self, why: str) -> None:
        for session in self.sessions():
            self._close(session, why)
        for connection in list(self._strangers):
            connection.close(why)

    def path_closed(self, path: FullFeature, why: str) -> None:
        """A connection has ended: its commands are answered no more, and with the last one the nexus is lost."""
        session = path.session
        if session.paths.get(path.cid) is path:
            del session.paths[path.cid]
        for task in [it for it in session.tasks.values() if it.path is path]:
            session.abort(task)
        if session.paths:
            session.go_on()
            return
        session.close()
        self._sessions.pop(session.tsih, None)
        self.log.say(f"{session.label()}: {why}")
        if session.host:
            self.units.nexus_lost(session)

    # The library.

    def lost(self) -> None:
        """`vtl` ended. What has come by now was sent before hosts can know of it."""
        for session in self.sessions():
            for path in list(session.paths.values()):
                path.connection.take_what_came()
        for session in self.sessions():
            session.lose()
        self.units.power_on()

    def _go_on_of(self, number: int) -> None:
        session = self.session_of(number)
        if session:
            session.go_on()

    def go_on(self) -> None:
        for session in self.sessions():
            session.go_on()
