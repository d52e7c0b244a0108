"""`vtl-iscsi`: starts the front end, or asks one that is running."""
import gc
import os
import shutil
import signal
import socket
import sys

from . import asking, options
from .access import is_name, read_access
from .attentions import Attentions
from .folder import Folder, InUse
from .hosts import Hosts
from .library import Refused, read_library
from .log import Log
from .loop import READ, Loop
from .options import Options
from .page import Page
from .status import Status
from .supervisor import Supervisor
from .target import Target, is_loopback
from .units import Units

REFUSED, FAILED = 1, 2
_LAST_SECONDS = 1.0


def _notify(state: bytes) -> None:
    """sd_notify(3), where systemd asks."""
    path = os.environ.get("NOTIFY_SOCKET", "")
    if path[:1] not in ("/", "@"):
        return
    with socket.socket(socket.AF_UNIX, socket.SOCK_DGRAM | socket.SOCK_CLOEXEC) as sock:
        try:
            sock.sendto(state, "\0" + path[1:] if path[0] == "@" else path)
        except OSError:
            pass


class FrontEnd:
    def __init__(self, given: Options) -> None:
        self._given, self._status = given, 0
        self._loop, self._log = Loop(), Log(given.log)
        self._loop.on_fault = lambda error: self._log.own_fault("the front end", error)
        folder = Folder(given.config)
        folder.take()
        access = read_access(given.access, given.is_open)
        self._judge(access.all_have_secrets())
        library, hosts, attentions = read_library(given.config, folder), Hosts(folder), Attentions()
        self._supervisor = Supervisor(self._loop, self._log, given.program, library, attentions)
        self._units = Units(library, hosts, self._supervisor, attentions, self._log, given.fixed)
        self._target = Target(self._loop, self._log, given.target, self._units, hosts, access)
        for address, port in given.listen:
            self._target.listen(address, port)
        self._state = Status(self._loop, self._log, folder, self._target, self._units, self._supervisor)
        if given.page:
            Page(self._loop, given.page, self._state)
        self._target.on_full = self._state.freeing.look_anew
        self._supervisor.on_up, self._supervisor.on_end = self._up, self._ended
        self._supervisor.on_lost = self._target.lost
        self._signals()

    def _judge(self, all_have_secrets: bool) -> None:
        if not is_name(self._given.target):
            raise Refused(f"{self._given.target} is no name of a target")
        if not all_have_secrets and not all(is_loopback(address) for address, _ in self._given.listen):
            raise Refused("it listens on loopback alone, unless each host that may log in has a secret")

    def run(self) -> int:
        self._supervisor.start()
        # what is there by now stays; what a command makes is freed as it ends
        gc.freeze()
        gc.set_threshold(10_000)
        self._loop.run()
        return self._status

    def _up(self) -> None:
        if self._supervisor.starts == 1:
            self._log.say(f"{self._target.name} listens on {', '.join(self._target.addresses())}")
            self._target.admit()
            _notify(b"READY=1")
        self._state.freeing.look_anew()
        self._target.go_on()

    def _ended(self, status: int) -> None:
        self._log.say(f"vtl ended with status {status}")
        self._status = status
        self._target.close_all("the front end ends")
        self._loop.end()

    # Signals.

    def _signals(self) -> None:
        end, woken = os.pipe2(os.O_CLOEXEC | os.O_NONBLOCK)
        signal.set_wakeup_fd(woken)
        for number in (signal.SIGTERM, signal.SIGINT, signal.SIGHUP):
            signal.signal(number, lambda *_: None)
        self._loop.watch(end, READ, lambda _: self._signalled(os.read(end, 64)))

    def _signalled(self, numbers: bytes) -> None:
        for number in numbers:
            if number == signal.SIGHUP:
                self._read_anew()
            elif number in (signal.SIGTERM, signal.SIGINT):
                self._stop()

    def _read_anew(self) -> None:
        try:
            access = read_access(self._given.access, self._given.is_open)
            self._judge(access.all_have_secrets())
        except (Refused, OSError) as error:
            self._log.fault(f"names and secrets stay as they were: {error}")
            return
        self._target.access = access
        self._log.say("names and secrets were read anew")

    def _stop(self) -> None:
        """The first time as an end of the input: no new command. The second time at once."""
        if self._supervisor.is_ending:
            self._supervisor.kill()
            os._exit(FAILED)
        _notify(b"STOPPING=1")
        self._log.say("it ends: what was sent is answered, what waits is stored")
        self._target.end()
        self._supervisor.end()


def _serve(given: Options) -> int:
    if not shutil.which(given.program):
        raise Refused(f"there is no program {given.program}")
    return FrontEnd(given).run()


def main(words: list[str]) -> int:
    given = options.read(words)
    try:
        if given.word == "serve":
            return _serve(given)
        return asking.ask(given)
    except Refused as error:
        print(f"vtl-iscsi: {error}", file=sys.stderr)
        return REFUSED
    except InUse as error:
        print(f"vtl-iscsi: {error} is in use by another one", file=sys.stderr)
    except OSError as error:
        print(f"vtl-iscsi: {error.filename or 'a socket'}: {error.strerror}", file=sys.stderr)
    return FAILED
