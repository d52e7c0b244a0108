"""Tests of ends: vtl is killed, the front end is killed, both are ended, in the middle of everything."""
import os
import random
import signal
import socket
import subprocess
import time

from harness import LOAD, LOST, MARK, NO_TAPE, POSITION, POWER_ON, READY, REWIND, Bench, equal, sense, until
from initiator import Answer, Initiator
from units_tests import elements, move

KILLS, SEED = 30, 20_261
END_OF_DATA, FILEMARK, BUSY = (8, 0x00, 0x05), (0, 0x00, 0x01), 0x08
_MARK = b"(filemark)"


def tape(host: Initiator) -> list[bytes]:
    """All blocks and filemarks, from the beginning on."""
    equal(host.passes(1, REWIND), Answer(0))
    found: list[bytes] = []
    while True:
        answer = host.command(1, "080200100000", read=4096)
        if answer.status == 0:
            found.append(answer.data)
            continue
        code = (answer.sense[2] & 15, answer.sense[12], answer.sense[13])
        if code == END_OF_DATA:
            return found
        equal(code, FILEMARK)
        found.append(_MARK)


def _written(host: Initiator, bench: Bench, number: int, chance: random.Random) -> tuple[list[bytes], int]:
    """Writes blocks with a filemark behind each few, some at once, until vtl is killed: what was sent, and how much of
    it a filemark made safe."""
    sent: list[bytes] = []
    safe, waits, end = 0, [], time.monotonic() + 30
    moment = chance.randrange(4, 60)
    while time.monotonic() < end:
        item = _MARK if chance.random() < 0.2 else b"%d %d " % (number, len(sent)) * chance.randrange(1, 200)
        block = MARK if item is _MARK else f"0a00{len(item):06x}00"
        waits.append((len(sent), item, host.submit(1, block, b"" if item is _MARK else item)))
        sent.append(item)
        if len(sent) == moment:
            bench.kill_vtl()
        if len(waits) < 5:
            continue
        at, item, itt = waits.pop(0)
        answer = host.wait(itt)
        if answer.status:
            for at, item, itt in [(at, item, 0), *waits]:
                answer = host.wait(itt) if itt else answer
                if answer.sense not in (LOST, POWER_ON, NO_TAPE) and answer.status != BUSY:
                    raise AssertionError(f"behind a crash {answer}")
            return sent, safe
        if item is _MARK:
            safe = at + 1
    raise AssertionError("vtl was not killed")


def what_a_filemark_acknowledged_is_there(bench: Bench) -> None:
    """Vtl is killed at 30 moments. Nothing of the old queue reaches the new one, and drives start unloaded."""
    chance, before = random.Random(SEED), [b""]
    host = bench.ready()
    starts = bench.read("said").count(" ready: ")
    for number in range(KILLS):
        equal(host.passes(1, LOAD), Answer(0))
        equal(host.command(1, REWIND), Answer(0))
        if number == 0:
            before = tape(host)
            host.command(1, REWIND)
        sent, safe = _written(host, bench, number, chance)
        bench.until_up(starts + number + 1)
        answer = host.command(1, READY)
        while answer.status == BUSY or answer == Answer(2, POWER_ON):
            answer = host.command(1, READY)
        equal(answer, Answer(2, NO_TAPE), "a drive behind a crash")
        equal(host.command(1, LOAD), Answer(0))
        found = tape(host)
        if found != before and not (found == sent[:len(found)] and len(found) >= safe) or safe and found == before:
            raise AssertionError(f"kill {number}: {len(found)} of {len(sent)} are there, {safe} were safe")
        before = found
        place = host.command(1, POSITION, read=20).data
        equal(host.command(1, POSITION, read=20).data, place, "nothing comes later:")
    host.close()


def what_was_answered_is_there_behind_sigterm(bench: Bench) -> None:
    host = bench.ready()
    host.command(1, REWIND)
    items = [b"%d" % at * 50 for at in range(200)]
    for item in items:
        equal(host.command(1, f"0a00{len(item):06x}00", item), Answer(0))
    equal(bench.end(), 0, "the status")
    bench.start("--open")
    equal(tape(bench.ready()), items)


def places_stay_over_every_restart(bench: Bench) -> None:
    host = bench.ready(0, load=False)
    equal(host.command(0, move(1, 1005)), Answer(0))
    equal(host.command(0, move(1001, 1)), Answer(0))
    for restart in (lambda: (bench.kill_vtl(), bench.until_up(2)), lambda: (bench.end(9), bench.start("--open")),
                    lambda: (bench.end(), bench.start("--open"))):
        restart()
        host = bench.host()
        host.passes(0, READY)
        found = host.command(0, elements(0, 1, 1), read=4096).data
        equal((found[16:28].hex(), found[28:36]), ("000109000000000000" + "8003e9", b"TAPE03L6"), "drive 1")
        found = host.command(0, elements(2, 1005, 1), read=4096).data
        equal(found[28:36], b"TAPE01L6", "slot 1005")
        equal(host.passes(1, READY), Answer(2, NO_TAPE))
        host.close()
    host = bench.host()
    host.passes(0, READY)
    equal([host.command(0, it).status for it in (move(1, 1001), move(1005, 1))], [0, 0])
    host.close()


def a_home_that_is_taken_is_refused(bench: Bench) -> None:
    """A cartridge stands where a host put it; another one's home is there now."""
    host = bench.ready(0, load=False)
    equal(host.command(0, move(1002, 1007)), Answer(0))
    bench.end()
    before = bench.read("library.toml")
    bench.write("library.toml", before + """
[[cartridge]]
barcode = "TAPE05L6"
file = "TAPE05L6.tape"
capacities = [4096]
home = 1007
""")
    bench.vtl("create", "--config", "library.toml")
    done = subprocess.run([*bench.starter, "--config", "library.toml", "--open", "--program", bench.program],
                          cwd=bench.folder, capture_output=True, check=False, timeout=Initiator.seconds)
    equal((done.returncode, b"TAPE05L6 and TAPE04L6 are both at 1007" in done.stderr), (1, True), done.stderr.decode())
    bench.write("library.toml", before)
    bench.start("--open")
    host = bench.ready(0, load=False)
    equal(host.command(0, move(1007, 1002)), Answer(0))
    host.close()


def a_second_front_end_is_refused(bench: Bench) -> None:
    done = subprocess.run([*bench.starter, "--config", "library.toml", "--open", "--program", bench.program],
                          cwd=bench.folder, capture_output=True, check=False,
                          timeout=Initiator.seconds)
    equal((done.returncode, b"is in use" in done.stderr), (2, True))


def it_listens_beyond_this_machine_with_secrets_alone(bench: Bench) -> None:
    bench.end()
    done = subprocess.run([*bench.starter, "--config", "library.toml", "--open", "--program", bench.program,
                           "--listen", "0.0.0.0:0"], cwd=bench.folder, capture_output=True, check=False,
                          timeout=Initiator.seconds)
    equal((done.returncode, b"loopback alone" in done.stderr), (1, True))
    bench.start("--open")


def a_second_sigterm_ends_it_at_once(bench: Bench) -> None:
    """Also where vtl stands still, and would not store what waits."""
    pid = bench.status()["vtl"]["pid"]
    os.kill(pid, signal.SIGSTOP)
    assert bench.process
    bench.process.send_signal(signal.SIGTERM)
    until(lambda: "it ends" in bench.read("said"), "it ends")
    equal(bench.end(), 2, "the status")
    bench.start("--open")


def systemd_hears_that_it_is_ready(bench: Bench) -> None:
    bench.end()
    with socket.socket(socket.AF_UNIX, socket.SOCK_DGRAM) as sock:
        sock.settimeout(30)
        sock.bind(f"{bench.folder}/notify")
        os.environ["NOTIFY_SOCKET"] = f"{bench.folder}/notify"
        try:
            bench.start("--open")
        finally:
            del os.environ["NOTIFY_SOCKET"]
        equal(sock.recv(100), b"READY=1")
        bench.end()
        equal(sock.recv(100), b"STOPPING=1")
    bench.start("--open")


def a_damaged_cartridge_is_an_exception(bench: Bench) -> None:
    """Its move is answered 3, 11/00, it is back in its slot, and its element has EXCEPT with that code (SMC-3)."""
    bench.end()
    with open(f"{bench.folder}/TAPE04L6.tape", "r+b") as file:
        file.seek(1)
        file.write(b"damaged!")
    bench.start("--open")
    host = bench.ready(0, load=False)
    equal(host.command(0, move(1, 1006)), Answer(0))
    equal(host.command(0, move(1002, 1)), Answer(2, sense(3, 0x11, 0)))
    found = host.command(0, elements(2, 1002, 1), read=4096).data
    equal(found[16:22].hex(), "03ea0d001100")
    equal(host.command(0, move(1006, 1)), Answer(0))
    until(lambda: "answered 02h 3, 11/00" in bench.read("said"), "the log says it")
    host.close()


TESTS = [what_a_filemark_acknowledged_is_there, what_was_answered_is_there_behind_sigterm,
         places_stay_over_every_restart, a_home_that_is_taken_is_refused, a_second_front_end_is_refused,
         a_second_sigterm_ends_it_at_once, systemd_hears_that_it_is_ready,
         it_listens_beyond_this_machine_with_secrets_alone, a_damaged_cartridge_is_an_exception]
