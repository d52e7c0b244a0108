"""Tests of what a stranger may do: 20,000 mutated PDUs, connections that never log in, a host that floods."""
import contextlib
import random
import socket
import struct

from harness import READY, Bench, equal
from initiator import COMMAND, LOGIN, TARGET, Answer, Initiator

PDUS, SEED, MOST_GROWTH = 20_000, 20_262, 16_000_000
_NAME = "iqn.2000-01.example:mutant"


def _segment(opcode: int, flags: int, lun: bytes, words: tuple[int, ...], data: bytes = b"") -> bytearray:
    return bytearray(bytes((opcode, flags, 0, 0, 0)) + len(data).to_bytes(3, "big") + lun + struct.pack(">8I", *words)
                     + data + bytes(-len(data) % 4))


def _models(number: int) -> list[bytearray]:
    """One PDU of each kind that a host sends, as they should be."""
    lun = b"\0\2" + bytes(6)
    block = (0x0A000000, 0x04000000, 0, 0)
    return [
        _segment(COMMAND, 0xA0, lun, (1, 4, number, 0, *block), b"abcd"),
        _segment(COMMAND, 0x80, lun, (2, 0, number, 0, 0, 0, 0, 0)),
        _segment(COMMAND, 0xC0, bytes(8), (3, 4096, number, 0, 0xB8100000, 0xFFFF0001, 0, 0)),
        _segment(0x40, 0x80, bytes(8), (4, 0xFFFFFFFF, number, 0, 0, 0, 0, 0), b"ping"),
        _segment(0x42, 0x81, lun, (5, 1, number, 0, 0, 0, 0, 0)),
        _segment(0x04, 0x80, bytes(8), (6, 0xFFFFFFFF, number, 0, 0, 0, 0, 0), b"SendTargets=\0"),
        _segment(0x05, 0x80, bytes(8), (1, 0xFFFFFFFF, 0, 0, 0, 0, 0, 0), b"data"),
        _segment(0x06, 0x81, bytes(8), (7, 0x10000, number, 0, 0, 0, 0, 0)),
        _segment(0x10, 0x80, bytes(8), (8, 0, 0, 0, 0, 0, 0, 0)),
    ]


def _logins() -> list[bytearray]:
    """In one step, and the steps of CHAP."""
    first = f"InitiatorName={_NAME}\0TargetName={TARGET}\0SessionType=Normal\0"
    lun, words = b"\0\2\x3d\1\1\1\0\0", (0, 0, 1, 0, 0, 0, 0, 0)
    return [_segment(0x40 | LOGIN, flags, lun, words, text.encode()) for flags, text in (
        (0x87, first + "HeaderDigest=CRC32C,None\0MaxRecvDataSegmentLength=0x40000\0FirstBurstLength=512\0"),
        (0x00, first + "AuthMethod=CHAP,None\0"), (0x00, "CHAP_A=7,5\0"),
        (0x81, "CHAP_N=user\0CHAP_R=0b" + "QUJD" * 8 + "\0CHAP_I=255\0CHAP_C=0x" + "5a" * 16 + "\0"))]


def _mutated(model: bytearray, chance: random.Random) -> bytes:
    made = bytearray(model)
    way = chance.random()
    for _ in range(chance.choice((1, 1, 2, 8))):
        if way < 0.5:
            made[chance.randrange(48)] = chance.randrange(256)
        elif way < 0.8:
            made[chance.randrange(len(made))] ^= 1 << chance.randrange(8)
        elif way < 0.9:
            del made[chance.randrange(1, len(made)):]
            break
        else:
            at = chance.randrange(len(made))
            made[at:at] = chance.randbytes(chance.randrange(1, 40))
    return bytes(made)


def _spoken(sock: socket.socket, pdus: list[bytes]) -> None:
    """Sends them, and reads what comes, without ever waiting long."""
    sock.settimeout(0.5)
    with contextlib.suppress(OSError):
        for pdu in pdus:
            sock.sendall(pdu)
        sock.shutdown(socket.SHUT_WR)
        while sock.recv(65_536):
            pass
    sock.close()


def mutated_pdus(bench: Bench) -> None:
    chance, sent = random.Random(SEED), 0
    other = bench.ready(load=False)
    memory = 0
    while sent < PDUS:
        count = chance.randrange(1, 24)
        if chance.random() < 0.4:
            sock = socket.create_connection(("127.0.0.1", bench.port))
            pdus = [_mutated(chance.choice(_logins()), chance) for _ in range(count)]
        else:
            host = Initiator(bench.port, _NAME, b"\0\2\x3d\1\1\1")
            sock = host.socket
            pdus = [_mutated(chance.choice(_models(host.cmdsn + at)), chance) for at in range(count)]
        _spoken(sock, pdus)
        sent += count
        if sent // 500 != (sent - count) // 500:
            equal(other.passes(1, READY).status in (0, 2), True)
            memory = memory or bench.memory()
    if bench.memory() - memory > MOST_GROWTH:
        raise AssertionError(f"it grew by {bench.memory() - memory} bytes")
    equal(other.ping(), b"ping", "another session")
    other.close()


def connections_that_never_log_in(bench: Bench) -> None:
    """They take no place of those who do."""
    before = bench.memory()
    idle = [socket.create_connection(("127.0.0.1", bench.port)) for _ in range(200)]
    for sock in idle[:100]:
        with contextlib.suppress(OSError):
            # a login request that says that 8,192 bytes follow, and sends none
            sock.sendall(bytes((0x43, 0x87, 0, 0, 0, 0, 0x20, 0)) + bytes(40))
    host = bench.ready(load=False)
    equal(host.passes(0, READY), Answer(0))
    if bench.memory() - before > 4_000_000:
        raise AssertionError(f"strangers took {bench.memory() - before} bytes")
    equal(len(bench.status()["sessions"]) >= 1, True)
    for sock in idle:
        sock.close()
    host.close()


def a_segment_that_is_too_long(bench: Bench) -> None:
    """What a header counts is judged before memory is taken."""
    for length in (8_193, 0xFFFFFF):
        sock = socket.create_connection(("127.0.0.1", bench.port))
        sock.settimeout(5)
        sock.sendall(bytes((0x43, 0x87, 0, 0, 0)) + length.to_bytes(3, "big") + bytes(40))
        equal(sock.recv(1), b"", "a stranger's connection")
        sock.close()
    host = bench.host()
    host.socket.sendall(bytes((0x01, 0xA0, 0, 0, 0)) + (262_145).to_bytes(3, "big") + bytes(40))
    equal(host.socket.recv(1), b"", "a host's connection")


def commands_without_end(bench: Bench) -> None:
    """A host that sends on whatever it is answered takes a bounded part of memory."""
    before, host = bench.memory(), bench.host("flood", seconds=5)
    host.passes(1, READY)
    with contextlib.suppress(OSError):
        for _ in range(300):
            host.submit(1, "0a0004000000", bytes(262_144), now=262_144)
    other = bench.ready(name="other", load=False)
    other.passes(0, READY)
    if bench.memory() - before > 8_000_000:
        raise AssertionError(f"a flood took {bench.memory() - before} bytes")
    host.close()
    other.close()


TESTS = [connections_that_never_log_in, a_segment_that_is_too_long, commands_without_end, mutated_pdus]
