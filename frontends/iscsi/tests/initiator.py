"""An initiator for the tests (RFC 7143): one connection, which shares no code with the front end."""
import hashlib
import os
import socket
import struct
from typing import NamedTuple

NOP_OUT, COMMAND, MANAGEMENT, LOGIN, TEXT, DATA_OUT, LOGOUT = 0, 1, 2, 3, 4, 5, 6
NOP_IN, RESPONSE, MANAGED, LOGGED_IN, TEXT_SAID, DATA_IN, LOGGED_OUT, R2T, REJECT = (
    0x20, 0x21, 0x22, 0x23, 0x24, 0x25, 0x26, 0x31, 0x3F)
TARGET = "iqn.2026-11.local.vtl:library"
NONE = 0xFFFFFFFF


def plain_digest(data: bytes) -> bytes:
    """CRC-32C a bit at a time, by its polynomial."""
    value = 0xFFFFFFFF
    for byte in data:
        value ^= byte
        for _ in range(8):
            value = value >> 1 ^ (0x82F63B78 if value & 1 else 0)
    return struct.pack("<I", value ^ 0xFFFFFFFF)


class Pdu(NamedTuple):
    header: bytes
    data: bytes

    @property
    def opcode(self) -> int:
        return self.header[0] & 0x3F

    def word(self, at: int) -> int:
        return struct.unpack_from(">I", self.header, at)[0]


class Answer(NamedTuple):
    status: int
    sense: bytes = b""
    data: bytes = b""
    # 'O' overflow or 'U' underflow, and its count
    residual: tuple[str, int] = ("", 0)


class Refused(Exception):
    """A login was refused: class and detail."""


class Initiator:
    # the longest that it waits for a PDU
    seconds = 20.0

    def __init__(self, port: int, name: str = "iqn.2000-01.example:one", isid: bytes = b"\0\2\x3d\0\0\0", *,
                 keys: dict[str, str] | None = None, chap: tuple[str, str, str] | None = None,
                 mutual: tuple[str, str] | None = None, session: str = "Normal", tsih: int = 0, cid: int = 0,
                 cmdsn: int = 1, address: str = "127.0.0.1", seconds: float = 0) -> None:
        self.socket = socket.create_connection((address, port), timeout=seconds or Initiator.seconds)
        self.socket.setsockopt(socket.IPPROTO_TCP, socket.TCP_NODELAY, 1)
        self.name, self.isid, self.tsih, self.cid = name, isid, tsih, cid
        self.cmdsn, self.itt, self.last = cmdsn, 0, cmdsn
        self.header_digest = self.data_digest = False
        self.held: list[Pdu] = []
        self.agreed: dict[str, str] = {}
        self._data: dict[int, bytes] = {}
        self._log_in(keys or {}, chap, mutual, session)

    # PDUs.

    def send(self, opcode: int, flags: int, *, itt: int = NONE, lun: bytes = bytes(8), second: int = 0,
             words: tuple[int, ...] = (0,) * 7, data: bytes = b"", immediate: bool = False, tail: bytes = b"") -> None:
        head = bytes((opcode | (0x40 if immediate else 0), flags, second, 0, 0)) + len(data).to_bytes(3, "big") + lun
        head += struct.pack(">I", itt) + (tail or struct.pack(">7I", *words))
        if self.header_digest:
            head += plain_digest(head)
        if data:
            data += bytes(-len(data) % 4)
            if self.data_digest:
                data += plain_digest(data)
        self.socket.sendall(head + data)

    def _read(self, count: int) -> bytes:
        found = bytearray()
        while len(found) < count:
            piece = self.socket.recv(min(count - len(found), 1 << 20))
            if not piece:
                raise ConnectionError("the target closed the connection")
            found += piece
        return bytes(found)

    def receive(self) -> Pdu:
        head = self._read(48)
        if self.header_digest:
            assert self._read(4) == plain_digest(head), "a header with a wrong digest"
        length = int.from_bytes(head[5:8], "big")
        data = self._read(length + -length % 4) if length else b""
        if length and self.data_digest:
            assert self._read(4) == plain_digest(data), "data with a wrong digest"
        made = Pdu(head, data[:length])
        self.last = max(self.last, made.word(32))
        return made

    def until(self, itt: int, *opcodes: int) -> Pdu:
        """The next PDU of this task, or of any of these kinds; others are held."""
        for at, pdu in enumerate(self.held):
            if pdu.word(16) == itt and (not opcodes or pdu.opcode in opcodes):
                return self.held.pop(at)
        while True:
            pdu = self.receive()
            if pdu.word(16) == itt and (not opcodes or pdu.opcode in opcodes):
                return pdu
            self.held.append(pdu)

    def next_itt(self) -> int:
        self.itt += 1
        return self.itt

    def next_cmdsn(self) -> int:
        self.cmdsn += 1
        return self.cmdsn - 1

    # Login.

    def _login_step(self, flags: int, pairs: dict[str, str]) -> dict[str, str]:
        text = b"".join(f"{key}={value}\0".encode() for key, value in pairs.items())
        self.send(LOGIN, flags, itt=0, lun=self.isid + struct.pack(">H", self.tsih), immediate=True, data=text,
                  words=(self.cid << 16, self.cmdsn, 0, 0, 0, 0, 0))
        said = self.receive()
        assert said.opcode == LOGGED_IN, said
        if said.word(36) >> 16:
            raise Refused(said.word(36) >> 16)
        self.tsih = int.from_bytes(said.header[14:16], "big") or self.tsih
        found = dict(it.split("=", 1) for it in said.data.decode().split("\0") if it)
        self.agreed |= found
        return found

    def _log_in(self, keys: dict[str, str], chap: tuple[str, str, str] | None, mutual: tuple[str, str] | None,
                session: str) -> None:
        first = {"InitiatorName": self.name, "SessionType": session, "AuthMethod": "CHAP,None" if chap else "None"}
        if session == "Normal":
            first["TargetName"] = TARGET
        if chap:
            assert self._login_step(0x00, first)["AuthMethod"] == "CHAP"
            self._prove(chap, mutual)
        else:
            self._login_step(0x81, first)
        offered = {"HeaderDigest": "None", "DataDigest": "None", "InitialR2T": "No", "ImmediateData": "Yes",
                   "MaxRecvDataSegmentLength": "262144", "MaxBurstLength": "16777215", "FirstBurstLength": "262144"}
        self._login_step(0x87, offered | keys)
        self.header_digest = self.agreed.get("HeaderDigest") == "CRC32C"
        self.data_digest = self.agreed.get("DataDigest") == "CRC32C"

    def _prove(self, chap: tuple[str, str, str], mutual: tuple[str, str] | None) -> None:
        user, secret, algorithm = chap
        asked = self._login_step(0x00, {"CHAP_A": algorithm})
        hashed = {"5": hashlib.md5, "7": hashlib.sha256}[asked["CHAP_A"]]
        challenge = bytes.fromhex(asked["CHAP_C"][2:])
        shown = hashed(bytes((int(asked["CHAP_I"]),)) + secret.encode() + challenge).hexdigest()
        said, own = {"CHAP_N": user, "CHAP_R": "0x" + shown}, os.urandom(16)
        if mutual:
            own = challenge if mutual[1] == "reflect" else own
            said |= {"CHAP_I": "9", "CHAP_C": "0x" + own.hex()}
        answer = self._login_step(0x81, said)
        if mutual:
            assert answer["CHAP_N"] == mutual[0]
            assert answer["CHAP_R"] == "0x" + hashed(b"\x09" + mutual[1].encode() + own).hexdigest()

    # Commands.

    def submit(self, unit: int, block: str | bytes, data: bytes = b"", read: int = 0, *, now: int | None = None,
               length: int | None = None, immediate: bool = False, unasked: bytes = b"") -> int:
        """Sends a command with the first `now` bytes of its data; the rest as they are asked for."""
        block = bytes.fromhex(block) if isinstance(block, str) else block
        count = len(data) if length is None else length
        most = min(262_144, int(self.agreed.get("FirstBurstLength", 65_536)))
        ahead = (min(count, most) if now is None else now) if self.agreed["ImmediateData"] == "Yes" else 0
        itt, flags = self.next_itt(), (0x40 if read else 0) | (0x20 if count else 0) | (0 if unasked else 0x80)
        number = self.cmdsn if immediate else self.next_cmdsn()
        self.send(COMMAND, flags, itt=itt, lun=bytes((0, unit)) + bytes(6), immediate=immediate, data=data[:ahead],
                  tail=struct.pack(">III", read or count, number, 0) + block.ljust(16, b"\0"))
        self._data[itt] = data
        if unasked:
            self.data_out(itt, NONE, ahead, unasked)
        return itt

    def data_out(self, itt: int, tag: int, offset: int, data: bytes, *, final: bool = True) -> None:
        pieces = [data[at:at + 262_144] for at in range(0, len(data), 262_144)] or [b""]
        for number, piece in enumerate(pieces):
            last = final and number == len(pieces) - 1
            self.send(DATA_OUT, 0x80 if last else 0, itt=itt, words=(tag, 0, 0, 0, number, offset, 0), data=piece)
            offset += len(piece)

    def wait(self, itt: int) -> Answer:
        found = bytearray()
        while True:
            pdu = self.until(itt)
            if pdu.opcode == R2T:
                at, count = pdu.word(40), pdu.word(44)
                self.data_out(itt, pdu.word(20), at, self._data[itt][at:at + count].ljust(count, b"\0"))
                continue
            if pdu.opcode == DATA_IN:
                assert pdu.word(40) == len(found), "data-in out of order"
                found += pdu.data
                if not pdu.header[1] & 1:
                    continue
            elif pdu.opcode != RESPONSE:
                raise AssertionError(f"an answer of kind {pdu.opcode:02x}h, reason {pdu.header[2]}")
            kind = {4: "O", 2: "U", 0: ""}[pdu.header[1] & 6]
            self._data.pop(itt)
            sense = pdu.data[2:] if pdu.opcode == RESPONSE and pdu.data else b""
            return Answer(pdu.header[3], sense, bytes(found), (kind, pdu.word(44)))

    def command(self, unit: int, block: str | bytes, data: bytes = b"", read: int = 0, **more: object) -> Answer:
        return self.wait(self.submit(unit, block, data, read, **more))  # type: ignore[arg-type]

    def passes(self, unit: int, block: str | bytes, data: bytes = b"", read: int = 0) -> Answer:
        """Behind the unit attention conditions that are met first."""
        while True:
            answer = self.command(unit, block, data, read)
            if not (answer.status == 2 and answer.sense[2] & 15 == 6):
                return answer

    def manage(self, function: int, unit: int = 0, task: int = NONE, number: int = 0) -> int:
        itt = self.next_itt()
        self.send(MANAGEMENT, 0x80 | function, itt=itt, lun=bytes((0, unit)) + bytes(6), immediate=True,
                  words=(task, self.cmdsn, 0, number, 0, 0, 0))
        return self.until(itt, MANAGED).header[2]

    def ping(self, data: bytes = b"ping") -> bytes:
        itt = self.next_itt()
        self.send(NOP_OUT, 0x80, itt=itt, immediate=True, words=(NONE, self.cmdsn, 0, 0, 0, 0, 0), data=data)
        return self.until(itt, NOP_IN).data

    def text(self, pairs: str) -> str:
        itt = self.next_itt()
        self.send(TEXT, 0x80, itt=itt, words=(NONE, self.next_cmdsn(), 0, 0, 0, 0, 0), data=pairs.encode())
        return self.until(itt, TEXT_SAID, REJECT).data.decode()

    def log_out(self) -> int:
        itt = self.next_itt()
        self.send(LOGOUT, 0x80, itt=itt, words=(0, self.next_cmdsn(), 0, 0, 0, 0, 0))
        response = self.until(itt, LOGGED_OUT).header[2]
        self.close()
        return response

    def close(self) -> None:
        self.socket.close()
