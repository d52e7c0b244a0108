"""A library with a front end over it, for the tests: starts, ends, and what stands in its log."""
import contextlib
import json
import os
import re
import shutil
import signal
import socket
import subprocess
import sys
import tempfile
import time
from collections.abc import Callable, Iterator
from typing import Any

from initiator import Answer, Initiator

HERE = os.path.dirname(os.path.abspath(__file__))
FRONT_END = os.path.join(os.path.dirname(HERE), "vtl-iscsi")
CONFIG = """
[[drive]]
number = 1
reservations = "drive1.pr"
[[drive]]
number = 2
reservations = "drive2.pr"
""" + "".join(f"""
[[cartridge]]
barcode = "{barcode}"
file = "{barcode}.tape"
capacities = [268_435_456]
home = {home}
""" for barcode, home in (("TAPE01L6", 1), ("TAPE02L6", 2), ("TAPE03L6", 1001), ("TAPE04L6", 1002)))
READY, LOAD, UNLOAD, REWIND = "000000000000", "1b0000000100", "1b0000000000", "010000000000"
MARK, TO_END, POSITION = "100000000100", "110300000000", "34000000000000000000"
SECONDS = 30.0


def sense(key: int, code: int, qualifier: int) -> bytes:
    """SPC-4, fixed format, current."""
    return bytes((0x70, 0, key, 0, 0, 0, 0, 10, 0, 0, 0, 0, code, qualifier, 0, 0, 0, 0))


POWER_ON, RESET, NEXUS_LOST = (sense(6, 0x29, it) for it in (0x00, 0x03, 0x07))
LOST, NO_TAPE = sense(4, 0x44, 0x00), sense(2, 0x3A, 0x00)
INVALID_FIELD, PREVENTED = sense(5, 0x24, 0x00), sense(5, 0x53, 0x02)


def equal(found: Any, expected: Any, what: str = "") -> None:
    if found != expected:
        raise AssertionError(f"{what or 'it'} is {found!r} in the place of {expected!r}")


def until(test: Callable[[], Any], what: str, seconds: float = SECONDS) -> Any:
    end = time.monotonic() + seconds
    while time.monotonic() < end:
        if found := test():
            return found
        time.sleep(0.005)
    raise AssertionError(f"not within {seconds:.0f} seconds: {what}")


class Bench:
    """A folder with a new library; `words` go to each front end, `starter` starts one in the place of vtl-iscsi."""

    def __init__(self, program: str, starter: list[str] | None = None, config: str = CONFIG) -> None:
        self.program = os.path.abspath(program)
        self.starter = starter or [sys.executable, FRONT_END]
        self.folder = tempfile.mkdtemp(prefix="vtl-iscsi-")
        self.write("library.toml", config)
        self.vtl("create", "--config", "library.toml")
        self.process: subprocess.Popen[bytes] | None = None
        self.port = 0
        self.said = ""

    def write(self, name: str, text: str, mode: int = 0o600) -> None:
        path = os.path.join(self.folder, name)
        with open(path, "w", encoding="utf-8") as file:
            file.write(text)
        os.chmod(path, mode)

    def read(self, name: str) -> str:
        with open(os.path.join(self.folder, name), encoding="utf-8") as file:
            return file.read()

    def vtl(self, *words: str) -> subprocess.CompletedProcess[bytes]:
        return subprocess.run([self.program, *words], cwd=self.folder, stdout=subprocess.PIPE, check=False)

    def start(self, *words: str) -> None:
        with open(os.path.join(self.folder, "said"), "wb") as log:
            self.process = subprocess.Popen(
                [*self.starter, "--config", "library.toml", "--listen", "127.0.0.1:0", "--program", self.program,
                 *words], cwd=self.folder, stderr=log, stdin=subprocess.DEVNULL)
        found = until(self._listens, "it listens")
        self.port = int(found[1])

    def _listens(self) -> re.Match[str] | None:
        assert self.process
        if self.process.poll() is not None:
            raise AssertionError(f"it ended with status {self.process.returncode}: {self.read('said')}")
        return re.search(r"listens on 127\.0\.0\.1:(\d+)", self.read("said"))

    def host(self, name: str = "one", **more: Any) -> Initiator:
        return Initiator(self.port, f"iqn.2000-01.example:{name}", **more)

    def ready(self, unit: int = 1, name: str = "one", load: bool = True, **more: Any) -> Initiator:
        """A host that has met what there is to meet, and has loaded the tape."""
        host = self.host(name, **more)
        host.passes(unit, READY)
        if load:
            equal(host.passes(unit, LOAD), Answer(0), "LOAD")
        return host

    def ask(self, *words: str) -> Any:
        done = subprocess.run([*self.starter, *words, "--config", "library.toml", "--json"], cwd=self.folder,
                              stdout=subprocess.PIPE, check=True)
        return json.loads(done.stdout)

    def status(self) -> Any:
        """As `vtl-iscsi status --json`, without a new process."""
        with socket.socket(socket.AF_UNIX, socket.SOCK_STREAM) as sock:
            sock.settimeout(SECONDS)
            sock.connect(os.path.join(self.folder, "library.iscsi", "status"))
            sock.sendall(b"status\n")
            return json.loads(b"".join(iter(lambda: sock.recv(65_536), b"")))

    def kill_vtl(self) -> None:
        os.kill(self.status()["vtl"]["pid"], signal.SIGKILL)

    def until_up(self, starts: int) -> None:
        until(lambda: self.read("said").count(" ready: ") >= starts, "vtl is up again")

    def memory(self) -> int:
        """Resident bytes of the front end."""
        assert self.process
        with open(f"/proc/{self.process.pid}/statm", encoding="ascii") as file:
            return int(file.read().split()[1]) * os.sysconf("SC_PAGESIZE")

    def end(self, number: int = signal.SIGTERM) -> int:
        """Its status; what it said stands in `said`."""
        assert self.process
        self.process.send_signal(number)
        status = self.process.wait(SECONDS)
        self.said, self.process = self.read("said"), None
        for line in self.said.splitlines():
            if "a session of" in line or "Traceback" in line or "Error" in line:
                raise AssertionError(f"a fault of the front end: {line}")
        return status

    def remove(self) -> None:
        if self.process and self.process.poll() is None:
            self.process.kill()
            self.process.wait()
        shutil.rmtree(self.folder, ignore_errors=True)


@contextlib.contextmanager
def bench(program: str, starter: list[str] | None, *words: str, config: str = CONFIG) -> Iterator[Bench]:
    """A front end from its start to its end, which has to be a good one."""
    made = Bench(program, starter, config)
    try:
        made.start(*(words or ("--open",)))
        yield made
        if made.process:
            equal(made.end(), 0, "the status")
    except BaseException:
        with contextlib.suppress(OSError):
            print(made.read("said")[-3_000:], file=sys.stderr)
        raise
    finally:
        made.remove()
