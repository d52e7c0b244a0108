"""The login phase of a connection (RFC 7143, 6.3 and 11.12): who it is, and what is agreed on."""
from dataclasses import dataclass, field
from enum import IntEnum

from . import keys
from .access import Access, is_name
from .chap import Chap, Failed
from .keys import BadText, Parameters
from .pdu import CONTINUE, FINAL, Opcode, Request, header

SECURITY, OPERATIONAL, FULL_FEATURE = 0, 1, 3
_LONGEST = 10


class Refusal(IntEnum):
    """Status class and detail of a login response (11.12.5)."""
    INITIATOR_ERROR = 0x0200
    AUTHENTICATION_FAILURE = 0x0201
    AUTHORIZATION_FAILURE = 0x0202
    NOT_FOUND = 0x0203
    UNSUPPORTED_VERSION = 0x0205
    TOO_MANY_CONNECTIONS = 0x0206
    MISSING_PARAMETER = 0x0207
    CANNOT_INCLUDE = 0x0208
    SESSION_TYPE = 0x0209
    NO_SESSION = 0x020A
    INVALID_REQUEST = 0x020B
    OUT_OF_RESOURCES = 0x0302


class Refused(Exception):
    def __init__(self, refusal: Refusal) -> None:
        super().__init__(refusal.name)
        self.refusal = refusal


@dataclass
class Login:
    """What one connection's login has said so far."""
    access: Access
    target: str
    is_local: bool
    agreed: Parameters = field(default_factory=Parameters)
    name: str = ""
    is_discovery: bool = False
    stage: int = -1
    steps: int = 0
    text: bytes = b""
    isid: bytes = b""
    tsih: int = 0
    cid: int = 0
    chap: Chap | None = None
    is_authentic: bool = False
    has_declared: bool = False
    has_offered: bool = False

    def step(self, request: Request, data: bytes) -> tuple[dict[str, str], int, int, bool]:
        """The keys of the answer, the current and the next stage, and whether the stage is left."""
        self.steps += 1
        current, following = request.flags >> 2 & 3, request.flags & 3
        leaves, goes_on = bool(request.flags & FINAL), bool(request.flags & CONTINUE)
        self._judge_form(request, current, following, leaves and goes_on)
        self.text += data
        if len(self.text) > keys.MOST_TEXT:
            raise Refused(Refusal.INITIATOR_ERROR)
        if goes_on:
            return {}, current, 0, False
        text, self.text = self.text, b""
        try:
            pairs = keys.parse(text)
            if self.stage == -1:
                self._begin(pairs, current)
            said = self._secure(pairs) if current == SECURITY else self._agree(pairs)
        except (BadText, KeyError) as error:
            raise Refused(Refusal.INITIATOR_ERROR) from error
        except Failed as error:
            raise Refused(Refusal.AUTHENTICATION_FAILURE) from error
        leaves = leaves and self.is_authentic
        self.stage = following if leaves else current
        return said, current, following if leaves else 0, leaves

    def _judge_form(self, request: Request, current: int, following: int, is_both: bool) -> None:
        if request.opcode != Opcode.LOGIN or not request.is_immediate or self.steps > _LONGEST or is_both:
            raise Refused(Refusal.INVALID_REQUEST)
        if request.header[3] != 0:  # the lowest version
            raise Refused(Refusal.UNSUPPORTED_VERSION)
        if self.steps == 1:
            self.isid, self.cid = request.header[8:14], request.words[1] >> 16
            self.tsih = int.from_bytes(request.header[14:16], "big")
        if current not in (SECURITY, OPERATIONAL) or (self.stage not in (-1, current)) or request.flags & FINAL and (
                following <= current or following not in (OPERATIONAL, FULL_FEATURE)):
            raise Refused(Refusal.INVALID_REQUEST)
        if request.header[8:14] != self.isid:
            raise Refused(Refusal.INVALID_REQUEST)

    def _begin(self, pairs: dict[str, str], current: int) -> None:
        """The first request names the initiator and what it is for."""
        self.name = pairs.get("InitiatorName", "")
        kind = pairs.get("SessionType", "Normal")
        if not self.name or kind == "Normal" and "TargetName" not in pairs:
            raise Refused(Refusal.MISSING_PARAMETER)
        if not is_name(self.name):
            raise Refused(Refusal.INITIATOR_ERROR)
        if kind not in ("Normal", "Discovery"):
            raise Refused(Refusal.SESSION_TYPE)
        self.is_discovery = kind == "Discovery"
        if not self.is_discovery and pairs["TargetName"] != self.target:
            raise Refused(Refusal.NOT_FOUND)
        is_known = self.name in self.access.hosts
        host = self.access.hosts.get(self.name)
        if host or not is_known and not self.access.is_open:
            self.chap = Chap(host, self.access.target)
            if current != SECURITY:
                raise Refused(Refusal.AUTHENTICATION_FAILURE)
        elif not self.is_local:
            raise Refused(Refusal.AUTHORIZATION_FAILURE)
        else:
            self.is_authentic = True

    def _secure(self, pairs: dict[str, str]) -> dict[str, str]:
        said = {}
        if "AuthMethod" in pairs:
            offered = pairs["AuthMethod"].split(",")
            method = "CHAP" if self.chap else "None"
            if method not in offered:
                raise Failed
            said["AuthMethod"] = method
            if not self.is_discovery:
                said["TargetPortalGroupTag"] = "1"
            self.has_offered = True
        if "CHAP_A" in pairs or "CHAP_R" in pairs:
            if not self.chap or not self.has_offered or self.chap.is_done:
                raise Failed
            said |= self.chap.answer(pairs)
            self.is_authentic = self.chap.is_done
        return said | {key: "NotUnderstood" for key in pairs
                       if key not in keys.DECLARED and not key.startswith("CHAP_")}

    def _agree(self, pairs: dict[str, str]) -> dict[str, str]:
        if not self.is_authentic:
            raise Failed
        said = {}
        for key, value in pairs.items():
            if key in keys.DECLARED or value in ("NotUnderstood", "Reject", "Irrelevant"):
                continue
            answer = keys.answer(key, value, self.agreed)
            if answer is not None:
                said[key] = answer
        if not self.has_declared:
            self.has_declared, self.agreed.own_segment = True, keys.SEGMENT
            said["MaxRecvDataSegmentLength"] = str(keys.SEGMENT)
            if not self.has_offered and not self.is_discovery:
                said["TargetPortalGroupTag"] = "1"
        self.agreed.first_burst = min(self.agreed.first_burst, self.agreed.max_burst)
        return said


def response(request: Request, flags: int, tsih: int, status: int, sequence: tuple[int, int, int]) -> bytearray:
    made = header(Opcode.LOGIN_RESPONSE, flags, request.itt,
                  words=(0, *sequence, status << 16, 0, 0), lun=request.header[8:14] + tsih.to_bytes(2, "big"))
    return made
