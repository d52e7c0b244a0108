"""Tests of the units: what is answered at each, the changer, PREVENT, fences, hosts' numbers, fixed blocks."""
import os
import signal
import struct
import subprocess

from harness import (INVALID_FIELD, LOAD, MARK, NO_TAPE, POWER_ON, PREVENTED, READY, REWIND, UNLOAD, Bench, equal,
                     sense, until)
from initiator import Answer
from transport import refused

CONFLICT = Answer(0x18)
NO_ELEMENT, FULL, EMPTY = sense(5, 0x21, 0x01), sense(5, 0x3B, 0x0D), sense(5, 0x3B, 0x0E)
NO_UNIT = sense(5, 0x25, 0x00)
REGISTER, RESERVE_5, KEYS, RESERVATION = ("5f060000000000001800", "5f010500000000001800", "5e000000000000100000",
                                          "5e010000000000100000")


def move(source: int, destination: int, transport: int = 0) -> bytes:
    """SMC-3, MOVE MEDIUM."""
    return bytes((0xA5, 0)) + struct.pack(">HHH", transport, source, destination) + bytes(4)


def elements(kind: int, first: int, most: int, flags: int = 0x10, names: int = 0) -> bytes:
    """SMC-3, READ ELEMENT STATUS."""
    return bytes((0xB8, flags | kind)) + struct.pack(">HH", first, most) + bytes((names, 0x04, 0, 0, 0, 0))


def parameters(key: int, other: int, flags: int = 0) -> bytes:
    """SPC-4, the parameter list of PERSISTENT RESERVE OUT."""
    return struct.pack(">QQ4xB3x", key, other, flags)


def each_host_meets_power_on(bench: Bench) -> None:
    for name in ("one", "two"):
        host = bench.host(name)
        for unit in (0, 1, 2):
            equal(host.command(unit, "120000002400", read=36).status, 0, "INQUIRY")
            equal(host.command(unit, READY), Answer(2, POWER_ON), f"unit {unit} of host {name}")
            equal(host.command(unit, READY), Answer(0) if unit == 0 else Answer(2, NO_TAPE), f"unit {unit}, then")
        host.close()


def what_each_unit_is(bench: Bench) -> None:
    host = bench.host()
    cut = host.command(0, "a0000000000000001000", read=16).data
    equal(cut.hex(), "0000001800000000" + "00" * 8, "REPORT LUNS, cut")
    listed = host.command(7, "a0000000000000010000", read=256).data
    equal(listed.hex(), "0000001800000000" + "".join(f"00{unit:02x}000000000000" for unit in (0, 1, 2)))
    equal(host.command(0, "120000002400", read=36).data, b"\x08\x80\x06\x02\x1f\0\0\0VTLIB   CHANGER         0001")
    equal(host.command(1, "120000002400", read=36).data, b"\x01\x80\x06\x02\x1f\0\0\0VTLIB   TAPE DRIVE      0001")
    equal(host.command(9, "120000002400", read=36).data[:5], b"\x7f\0\x06\x02\x1f", "INQUIRY where no unit is")
    equal(host.command(9, READY), Answer(2, NO_UNIT))
    equal(host.command(9, "030000001200", read=18).data, NO_UNIT, "REQUEST SENSE where no unit is")
    for unit, kind in ((0, 8), (1, 1), (2, 1)):
        equal(host.command(unit, "12010000ff00", read=255).data, bytes((kind, 0, 0, 3, 0x00, 0x80, 0x83)))
        serial = host.command(unit, "12018000ff00", read=255).data
        equal(serial[:4], bytes((kind, 0x80, 0, 13)), "VPD 80h")
        names = host.command(unit, "12018300ff00", read=255).data
        equal(names[4:8], b"\x02\x01\0\x25", "a T10 designator")
        equal(names[8:45], b"VTLIB   " + (b"CHANGER         ", b"TAPE DRIVE      ")[unit > 0] + serial[4:])
        equal(names[45:50], b"\x01\x03\0\x08\x30", "an NAA designator, locally assigned")
        equal(host.command(unit, "1201b000ff00", read=255), Answer(2, INVALID_FIELD, residual=("U", 255)))
    host.close()


def pages_and_elements_of_the_changer(bench: Bench) -> None:
    host = bench.ready(0, load=False)
    assignment = "1d12" + "00000001" + "03e90100" + "00000000" + "00010002" + "0000"
    capabilities = "1f12" + "0a00" + "000a000a" + "00" * 12
    equal(host.command(0, "1a001d00ff00", read=255).data.hex(), "17000000" + assignment)
    equal(host.command(0, "1a003f00ff00", read=255).data.hex(), "2f000000" + assignment + "1e020000" + capabilities)
    equal(host.command(0, "5a001f0000000000ff00", read=255).data.hex(), "001a000000000000" + capabilities)
    equal(host.command(0, "1a001c00ff00", read=255).sense, INVALID_FIELD)
    equal(host.command(0, "1a00dd00ff00", read=255).sense, sense(5, 0x39, 0), "saved values")
    drives = host.command(0, elements(4, 0, 0xFFFF), read=4096).data
    tag = b"TAPE01L6".ljust(32) + bytes(4)
    equal(drives[:8].hex(), "0001000200000070", "two elements from 1 on, 112 bytes")
    equal(drives[8:16].hex(), "0480003400000068", "data transfer elements of 52 bytes, with volume tags")
    equal(drives[16:68], bytes.fromhex("000109000000000000000000") + tag + bytes(4), "drive 1, full")
    slots = host.command(0, elements(2, 1001, 3, flags=0), read=4096).data
    equal(slots.hex(), "03e9000300000038" + "0200001000000030" + "03e909" + "00" * 13 + "03ea09" + "00" * 13 + "03eb08"
          + "00" * 13)
    named = host.command(0, elements(4, 2, 1, flags=0, names=1), read=4096).data
    equal(named[28:32], b"\x02\x01\0\x25", "a drive's designator")
    equal(host.command(0, elements(0, 0, 0xFFFF), read=65_535).data[:8].hex(), "00000103000034b4", "259 elements")
    equal(host.command(0, elements(5, 0, 9), read=99).sense, INVALID_FIELD)
    for block in ("070000000000", "37000000000000000000", "2b000000000100000000", "2b00000003e900000000"):
        equal(host.command(0, block), Answer(0), block)
    for block in ("2b000000002000000000", "2b000001000100000000"):
        equal(host.command(0, block), Answer(2, NO_ELEMENT), block)
    equal(host.command(0, "080000000100", read=1).sense, sense(5, 0x20, 0), "READ at the changer")
    host.close()


def moves(bench: Bench) -> None:
    host, other = bench.ready(2, load=False), bench.ready(2, name="two", load=False)
    host.passes(0, READY)
    for block, said in ((move(1003, 2), EMPTY), (move(1001, 2), FULL), (move(1001, 17), NO_ELEMENT),
                        (move(1001, 1003, 5), NO_ELEMENT), (move(0, 1003), NO_ELEMENT)):
        equal(host.command(0, block), Answer(2, said), block.hex())
    equal(host.command(0, move(2, 1003)), Answer(0))
    equal(host.command(0, move(1001, 2)), Answer(0))
    for it in (host, other):
        equal(it.command(2, READY), Answer(2, sense(6, 0x28, 0)), "medium may have changed")
        equal(it.command(2, READY), Answer(0), "it is loaded:")
    drive = host.command(0, elements(4, 2, 1), read=4096).data
    equal(drive[16:28].hex(), "000209000000000000" + "8003e9", "its source is 1001")
    equal(drive[28:36], b"TAPE03L6")
    equal(host.command(0, move(2, 1001)), Answer(0))
    equal(host.command(0, move(1003, 2)), Answer(0))
    host.close()
    other.close()


def removal_is_prevented(bench: Bench) -> None:
    prevent, allow = "1e0000000100", "1e0000000000"
    host, other = bench.ready(), bench.ready(name="two", load=False)
    for it in (host, other):
        it.passes(0, READY)
    equal(host.command(1, prevent), Answer(0))
    for it in (host, other):
        equal(it.command(1, UNLOAD), Answer(2, PREVENTED), "UNLOAD")
        equal(it.command(0, move(1, 1003)), Answer(2, PREVENTED), "a move out")
    equal(host.command(1, allow), Answer(0))
    equal(other.command(1, prevent), Answer(0))
    equal(host.command(1, UNLOAD), Answer(2, PREVENTED), "of another host")
    other.log_out()
    equal(host.command(1, UNLOAD), Answer(0), "the nexus was lost:")
    equal(host.passes(1, LOAD), Answer(0))
    equal(host.command(1, prevent), Answer(0))
    equal(host.manage(5, unit=1), 0)
    equal(host.passes(1, UNLOAD), Answer(0), "behind a reset:")
    equal(host.command(1, "1e0000000200"), Answer(2, INVALID_FIELD))
    equal(host.command(0, prevent), Answer(0), "at the changer")
    host.close()


def a_fence_holds_over_every_restart(bench: Bench) -> None:
    """Of two hosts one keeps the other out; vtl is killed, then the front end, then both are ended."""
    one, two = bench.ready(name="fence"), bench.ready(name="fenced", load=False)
    equal(one.command(1, REGISTER, parameters(0, 0xA1, 1)), Answer(0), "REGISTER with APTPL")
    equal(one.command(1, RESERVE_5, parameters(0xA1, 0)), Answer(0))
    write, starts = "0a0000000100", bench.read("said").count(" ready: ")
    equal(two.command(1, write, b"x"), CONFLICT)
    bench.kill_vtl()
    bench.until_up(starts + 1)
    for restart in (lambda: None, lambda: (bench.end(9), bench.start("--open")),
                    lambda: (bench.end(), bench.start("--open"))):
        restart()
        one, two = bench.host("fence"), bench.host("fenced")
        equal(two.passes(1, write, b"x"), CONFLICT, "the fenced host")
        equal(two.passes(1, LOAD), CONFLICT, "its LOAD")
        two.passes(0, READY)
        equal(two.command(0, move(1, 1003)), CONFLICT, "its move")
        equal(one.command(1, READY), Answer(2, POWER_ON), "the other one")
        equal(one.command(1, READY), Answer(2, NO_TAPE), "no tape is loaded after a start:")
        equal(one.passes(1, LOAD), Answer(0))
        equal(one.command(1, RESERVATION, read=4096).data[4:].hex(), "00000010" + "00000000000000a1" + "00000000"
              + "00050000", "READ RESERVATION")
        one.close()
        two.close()
    one = bench.host("fence")
    equal(one.passes(1, "5f030000000000001800", parameters(0xA1, 0)), Answer(0), "CLEAR")
    one.close()


def hosts_are_listed_and_freed(bench: Bench) -> None:
    host = bench.ready(name="listed", isid=b"\x00\x02\x3d\x07\x07\x07", load=False)
    equal(host.command(1, REGISTER, parameters(0, 0xB2)), Answer(0))
    number = next(it["number"] for it in bench.ask("hosts") if it["isid"] == "00023d070707")
    equal(next(it["keys_at_drives"] for it in bench.ask("hosts") if it["number"] == number), [1])
    equal(free(bench, number), 1, "one with a session")
    host.close()
    until(lambda: not any(it["host"] == number for it in bench.ask("status")["sessions"]), "the session has ended")
    equal(free(bench, number), 1, "one with a key")
    host = bench.host("listed", isid=b"\x00\x02\x3d\x07\x07\x07")
    equal(host.passes(1, REGISTER, parameters(0, 0)), Answer(0))
    equal(host.log_out(), 0)
    until(lambda: not any(it["host"] == number for it in bench.ask("status")["sessions"]), "the session has ended")
    equal(free(bench, number), 0, "one without")
    equal([it for it in bench.ask("hosts") if it["number"] == number], [], "hosts")


def free(bench: Bench, number: int) -> int:
    return subprocess.run([*bench.starter, "hosts", "--config", "library.toml", "--free", str(number)],
                          cwd=bench.folder, capture_output=True, check=False).returncode


def hosts_keep_their_numbers(bench: Bench) -> None:
    """Over a restart, and whoever comes first behind it."""
    for name in ("first", "second"):
        bench.host(name).close()
    before = {it["name"]: it["number"] for it in bench.ask("hosts")}
    bench.end()
    bench.start("--open")
    for name in ("second", "first"):
        bench.host(name).close()
    equal({it["name"]: it["number"] for it in bench.ask("hosts")}, before, "who has which number")


def sixty_five_hosts(bench: Bench) -> None:
    """Each has a number of its own; there are 64. One of a random ISID gives way, once it is gone."""
    taken = len(bench.ask("hosts"))
    hosts = [bench.host(f"many{at}", isid=b"\x80\0\0\0\0" + bytes((at,))) for at in range(64 - taken)]
    for host in hosts:
        equal(host.passes(1, READY).sense[2] in (2,), True)
    refused(lambda: bench.host("last"), 0x0302, "the host behind the last number")
    hosts.pop().log_out()
    last = bench.host("last")
    equal(last.passes(0, READY), Answer(0))
    equal(len(bench.ask("hosts")), 64)
    for host in [*hosts, last]:
        host.close()


def one_who_logs_in_anew_ends_its_old_session(bench: Bench) -> None:
    old = bench.ready(name="again", load=False)
    new = bench.host("again")
    equal(old.socket.recv(1), b"", "the old session")
    equal(new.passes(0, READY), Answer(0))
    new.close()


def the_next_session_goes_on_behind_the_last(bench: Bench) -> None:
    """A host is gone while its commands are with a vtl that stands still, and logs in again."""
    old, pid = bench.ready(name="gone"), bench.status()["vtl"]["pid"]
    os.kill(pid, signal.SIGSTOP)
    try:
        for _ in range(2):
            old.submit(1, MARK)
        until(lambda: bench.status()["vtl"]["waiting"] == 2, "two commands are with vtl")
        old.close()
        new = bench.host("gone")
        itt = new.submit(1, READY)
    finally:
        os.kill(pid, signal.SIGCONT)
    equal(new.wait(itt), Answer(2, sense(6, 0x29, 0x07)))
    new.close()


def fixed_blocks(bench: Bench) -> None:
    bench.end()
    bench.start("--open", "--fixed", "512")
    host = bench.ready(name="fixed")
    equal(host.command(1, "1a000000ff00", read=255).data.hex(), "0b001008" + "00" * 5 + "000200")
    host.command(1, REWIND)
    data = bytes(range(256)) * 6
    equal(host.command(1, "0a0100000300", data), Answer(0), "WRITE of 3 blocks")
    equal(host.command(1, MARK), Answer(0))
    host.command(1, REWIND)
    equal(host.command(1, "080000040000", read=1024).data, data[:512], "a block is a frame of 512 bytes:")
    host.command(1, REWIND)
    equal(host.command(1, "080100000300", read=1536).data, data)
    # SSC-4, READ(6): a filemark with FIXED 1 leaves the blocks that were not read
    found = host.command(1, "080100000200", read=1024)
    equal((found.status, found.sense.hex()), (2, "f00080000000020a000000000001" + "00" * 4))
    equal(host.command(1, "150000000c00", bytes.fromhex("00001008" + "00" * 5 + "000400")), Answer(0), "MODE SELECT")
    equal(host.command(1, "1a000000ff00", read=255).data.hex(), "0b001008" + "00" * 5 + "000400")
    host.command(1, REWIND)
    # a block of 512 bytes where one of 1,024 is asked for: ILI, and nothing read
    found = host.command(1, "080100000200", read=2048)
    equal((found.sense.hex(), found.data), ("f00020000000020a" + "00" * 10, b""))
    equal(host.command(1, "0a0100000100", b"short"), Answer(2, INVALID_FIELD, residual=("", 0)))
    host.close()
    bench.end()
    bench.start("--open")


TESTS = [each_host_meets_power_on, what_each_unit_is, pages_and_elements_of_the_changer, moves, removal_is_prevented,
         a_fence_holds_over_every_restart, hosts_are_listed_and_freed, one_who_logs_in_anew_ends_its_old_session,
         hosts_keep_their_numbers, the_next_session_goes_on_behind_the_last, fixed_blocks, sixty_five_hosts]
