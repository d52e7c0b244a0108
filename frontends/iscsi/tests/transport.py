"""Tests of the transport: login, digests, bursts, order, task management."""
import os
import struct

from harness import INVALID_FIELD, NEXUS_LOST, POSITION, READY, RESET, REWIND, Bench, equal, sense, until
from initiator import DATA_OUT, NONE, R2T, REJECT, Answer, Initiator, Refused, plain_digest

ACCESS = """
[target]
user = "library"
secret = "the target's own phrase"
[[host]]
name = "iqn.2000-01.example:one"
user = "backup"
secret = "a phrase of a host"
[[host]]
name = "iqn.2000-01.example:plain"
"""
SECRET = ("backup", "a phrase of a host")


def refused(make: object, code: int, what: str) -> None:
    try:
        make()  # type: ignore[operator]
    except Refused as error:
        equal(error.args[0], code, what)
        return
    raise AssertionError(f"{what}: it was not refused")


def digests_are_those_of_the_standard(_: Bench) -> None:
    """RFC 7143, appendix A.4 (CRC examples): the front end's, and the tests' own."""
    from vtl_iscsi.crc32c import crc32c
    for data, digest in ((bytes(32), "aa36918a"), (b"\xff" * 32, "43aba862"), (bytes(range(32)), "4e79dd46"),
                         (bytes(range(31, -1, -1)), "5cdb3f11")):
        equal(struct.pack("<I", crc32c(data)).hex(), digest)
        equal(plain_digest(data).hex(), digest)
    data = os.urandom(70_001)
    equal(struct.pack("<I", crc32c(data[9_000:], crc32c(data[:9_000]))), plain_digest(data), "of a long piece")


def discovery_names_the_target(bench: Bench) -> None:
    host = bench.host(session="Discovery")
    name, address = f"TargetName={'iqn.2026-11.local.vtl:library'}", f"TargetAddress=127.0.0.1:{bench.port},1"
    equal(host.text("SendTargets=All\0"), f"{name}\0{address}\0")
    host.send(1, 0x80, itt=9, words=(0, host.next_cmdsn(), 0, 0, 0, 0, 0))
    equal(host.receive().opcode, REJECT, "a command in a discovery session")
    equal(host.log_out(), 0)


def logins_are_refused(bench: Bench) -> None:
    refused(lambda: Initiator(bench.port, "no name"), 0x0200, "a name of no form")
    refused(lambda: bench.host(session="Other"), 0x0209, "another kind of session")
    refused(lambda: bench.host(tsih=77), 0x020A, "a session that is not there")


def chap_lets_in_who_knows_the_secret(bench: Bench) -> None:
    bench.write("access.toml", ACCESS)
    bench.end()
    bench.start("--access", "access.toml")
    for algorithm in ("7", "5", "5,7", "6,7"):
        host = bench.host(chap=(*SECRET, algorithm))
        equal(host.passes(0, READY), Answer(0))
        host.close()
    bench.host(chap=(*SECRET, "7"), mutual=("library", "the target's own phrase")).close()
    refused(lambda: bench.host(chap=("backup", "a phrase of a hosT", "7")), 0x0201, "a wrong secret")
    refused(lambda: bench.host(chap=("backuP", SECRET[1], "7")), 0x0201, "a wrong user")
    refused(lambda: bench.host(chap=(*SECRET, "6")), 0x0201, "SHA-1")
    refused(lambda: bench.host(chap=(*SECRET, "7"), mutual=("library", "reflect")), 0x0201, "its own challenge")
    refused(lambda: bench.host(), 0x0201, "a host with a secret that shows none")
    refused(lambda: bench.host("two", chap=(*SECRET, "7")), 0x0201, "a name that is not listed")
    refused(lambda: bench.host("two"), 0x0201, "the same, without CHAP")
    bench.host("plain").close()
    if SECRET[1] in bench.read("said"):
        raise AssertionError("a secret stands in the log")
    bench.write("access.toml", ACCESS.replace("example:plain", "example:two"))
    bench.process.send_signal(1)  # type: ignore[union-attr]
    until(lambda: "read anew" in bench.read("said"), "names are read anew")
    bench.host("two").close()
    refused(lambda: bench.host("plain"), 0x0201, "a name that was taken out")


def data_come_and_go_in_every_way(bench: Bench) -> None:
    """Digests, immediate and unsolicited data, R2T with short and with long bursts."""
    data, block = os.urandom(300_001), "0a" + "00" + f"{300_001:06x}" + "00"
    ways = [{}, {"HeaderDigest": "CRC32C", "DataDigest": "CRC32C"}, {"ImmediateData": "No", "InitialR2T": "Yes"},
            {"MaxBurstLength": "512", "FirstBurstLength": "512", "MaxRecvDataSegmentLength": "512"},
            {"MaxBurstLength": "16777215", "FirstBurstLength": "16777215"}, {"HeaderDigest": "CRC32C,None"}]
    for way in ways:
        host = bench.ready(keys=way)
        host.command(1, REWIND)
        equal(host.command(1, block, data), Answer(0), f"WRITE with {way}")
        host.command(1, REWIND)
        found = host.command(1, "08" + "00" + f"{300_001:06x}" + "00", read=300_001)
        equal((found.status, found.data == data, found.residual), (0, True, ("", 0)), f"READ with {way}")
        equal(host.log_out(), 0)
    host = bench.ready()
    host.command(1, REWIND)
    itt = host.submit(1, block, data, now=100_000, unasked=data[100_000:250_000])
    equal(host.wait(itt), Answer(0), "unsolicited data")
    host.command(1, REWIND)
    equal(host.command(1, "08" + "00" + f"{300_001:06x}" + "00", read=300_001).data == data, True)
    host.close()


def the_longest_transfers(bench: Bench) -> None:
    host, longest = bench.ready(), 16_777_215
    host.command(1, REWIND)
    equal(host.command(1, "0a0010000000", b"\x5a" * 1_048_576), Answer(0))
    # FORMATS: a length above 1,048,576 is 5, 24/00; 1,100,000 bytes are the most of a frame
    for length in (1_048_577, 1_100_000, 1_100_001, longest):
        equal(host.command(1, f"0a00{length:06x}00", bytes(length)), Answer(2, INVALID_FIELD), f"WRITE of {length}")
    host.command(1, REWIND)
    found = host.command(1, "0802ffffff00", read=longest)
    equal((found.status, found.data, found.residual), (0, b"\x5a" * 1_048_576, ("U", longest - 1_048_576)))
    host.close()


def residuals_are_counted(bench: Bench) -> None:
    """RFC 7143, 11.4.5: what was expected, less or more than what the block says."""
    host = bench.ready()
    host.command(1, REWIND)
    equal(host.command(1, "0a0000000300", b"abcdef"), Answer(0, residual=("U", 3)), "3 of 6 bytes written")
    equal(host.command(1, "0a0000000600", b"abc"), Answer(2, INVALID_FIELD, residual=("O", 3)), "6 of 3 bytes")
    host.command(1, REWIND)
    equal(host.command(1, "080000000300", read=2), Answer(0, data=b"ab", residual=("O", 1)), "2 of 3 bytes read")
    equal(host.command(1, "120000002400", read=96).residual, ("U", 60), "of INQUIRY")
    equal(host.command(1, READY, read=5), Answer(0, residual=("U", 5)), "of no data")
    host.close()


def a_wrong_digest_is_answered(bench: Bench) -> None:
    host = bench.ready(keys={"DataDigest": "CRC32C", "InitialR2T": "Yes", "ImmediateData": "No"})
    before = host.command(1, POSITION, read=20).data
    itt = host.submit(1, "0a0000000400", b"abcd")
    asked = host.until(itt, R2T)
    head = bytes((DATA_OUT, 0x80, 0, 0, 0, 0, 0, 4)) + bytes(8) + struct.pack(">8I", itt, asked.word(20), *[0] * 6)
    host.socket.sendall(head + b"abcd" + b"none")
    equal(host.until(NONE, REJECT).header[2], 2, "the reason")
    equal(host.wait(itt), Answer(2, sense(0xB, 0x47, 0x05)), "its command")
    equal(host.command(1, POSITION, read=20).data, before, "the position")
    host.close()
    other = bench.ready(keys={"HeaderDigest": "CRC32C"})
    other.socket.sendall(bytes(48) + b"none")
    equal(other.socket.recv(1), b"", "a header with a wrong digest ends the connection;")


def commands_are_taken_in_their_order(bench: Bench) -> None:
    host = bench.ready()
    host.command(1, REWIND)
    first, host.cmdsn = host.cmdsn, host.cmdsn + 1
    later = host.submit(1, "0a0000000100", b"2")
    host.cmdsn = first
    earlier = host.submit(1, "0a0000000100", b"1")
    equal([host.wait(it).status for it in (earlier, later)], [0, 0])
    host.cmdsn = first + 2
    host.command(1, REWIND)
    equal([host.command(1, "080000000100", read=1).data for _ in range(2)], [b"1", b"2"], "what was written")
    host.close()


def commands_outside_the_window_are_ignored(bench: Bench) -> None:
    """RFC 7143, 4.2.2.1: of a number that is past, and of one that may not come yet."""
    host = bench.ready()
    host.command(1, REWIND)
    number, ahead = host.cmdsn, host.last + 1
    for host.cmdsn in (ahead, number - 1):
        host.submit(1, "0a0000000600", b"nobody")
    host.cmdsn = number
    equal(host.ping(b"still here"), b"still here")
    for _ in range(ahead - number + 2):
        equal(host.command(1, "0a0000000100", b"1"), Answer(0))
    host.command(1, REWIND)
    for _ in range(ahead - number + 2):
        equal(host.command(1, "080000000100", read=1), Answer(0, data=b"1"), "what was written")
    host.close()


def a_session_of_two_connections(bench: Bench) -> None:
    one = bench.ready(keys={"MaxConnections": "4"})
    one.command(1, REWIND)
    two = bench.host(tsih=one.tsih, cid=1, cmdsn=one.cmdsn)
    for turn in range(6):
        host = (one, two)[turn % 2]
        host.cmdsn = max(one.cmdsn, two.cmdsn)
        equal(host.command(1, "0a0000000100", bytes((turn,))), Answer(0))
    host = two
    host.cmdsn = max(one.cmdsn, two.cmdsn)
    host.command(1, REWIND)
    equal([host.command(1, "080000000100", read=1).data[0] for _ in range(6)], list(range(6)))
    one.close()
    equal(two.passes(1, READY), Answer(0), "the other connection goes on:")
    two.close()


def task_management_answers_as_a_drive_that_cannot_be_stopped(bench: Bench) -> None:
    host, other = bench.ready(), bench.ready(load=False, name="other")
    host.command(1, REWIND)
    equal(host.manage(8), 4, "TASK REASSIGN")
    equal(host.manage(3), 5, "CLEAR ACA")
    equal(host.manage(2, unit=9), 2, "ABORT TASK SET of no unit")
    equal(host.manage(1, task=12345, number=host.cmdsn - 1), 1, "ABORT TASK of none")
    itt = host.submit(1, "0a0000000400", b"abcd", now=0)
    asked = host.until(itt, R2T)
    equal(host.manage(1, task=itt), 0, "ABORT TASK")
    host.data_out(itt, asked.word(20), 0, b"abcd")
    equal(host.command(1, POSITION, read=20).data[4:8], bytes(4), "what was aborted wrote nothing:")
    equal(host.manage(5, unit=1), 0, "LOGICAL UNIT RESET")
    for it in (host, other):
        equal(it.command(1, READY), Answer(2, RESET), "behind a reset")
        equal(it.command(1, READY), Answer(0))
    equal(host.manage(6), 0, "TARGET WARM RESET")
    equal(host.command(1, READY), Answer(2, RESET))
    other.close()
    again = bench.host("other")
    equal(again.command(1, READY).sense in (RESET, NEXUS_LOST), True, "a nexus that was lost:")
    equal(again.command(1, READY), Answer(2, NEXUS_LOST))
    again.close()
    host.close()


def what_is_none_of_the_standard_is_rejected(bench: Bench) -> None:
    host = bench.ready()
    host.send(0x10, 0x80, itt=5)
    equal(host.until(NONE, REJECT).header[2], 3, "SNACK")
    host.send(0x1D, 0x80, itt=5)
    equal(host.until(NONE, REJECT).header[2], 5, "an opcode that is none")
    one = host.submit(1, "0a0000000400", b"abcd", now=0)
    host.until(one, R2T)
    host.itt -= 1
    host.submit(1, READY)
    equal(host.until(NONE, REJECT).header[2], 7, "a task tag that is in use")
    host.close()


def many_pings_that_nobody_reads(bench: Bench) -> None:
    """What waits to be sent is bounded: the front end reads no more."""
    before, host = bench.memory(), bench.host(seconds=2.0)
    try:
        for _ in range(400):
            host.send(0, 0x80, itt=7, immediate=True, words=(NONE, host.cmdsn, 0, 0, 0, 0, 0), data=bytes(262_144))
    except OSError:
        pass
    other = bench.ready(name="other")
    equal(other.command(1, READY), Answer(0), "another host meanwhile:")
    if bench.memory() - before > 12_000_000:
        raise AssertionError(f"{bench.memory() - before} bytes for one that reads nothing")
    other.close()
    host.close()


TESTS = [digests_are_those_of_the_standard, discovery_names_the_target, logins_are_refused,
         data_come_and_go_in_every_way, the_longest_transfers, residuals_are_counted, a_wrong_digest_is_answered,
         commands_are_taken_in_their_order, commands_outside_the_window_are_ignored, a_session_of_two_connections,
         task_management_answers_as_a_drive_that_cannot_be_stopped, what_is_none_of_the_standard_is_rejected,
         many_pings_that_nobody_reads, chap_lets_in_who_knows_the_secret]
