"""CHAP, both directions (RFC 7143, 12.1.3; RFC 1994): SHA-256 and MD5."""
import base64
import binascii
import hashlib
import hmac
import os

from .access import Credentials
from .keys import BadText, number

# The numbers of the algorithms (IANA, PPP authentication algorithms): 7 SHA-256, 5 MD5.
_ALGORITHMS = {"7": "sha256", "5": "md5"}
_CHALLENGE, _MOST_BYTES = 32, 1_024


def _binary(value: str) -> bytes:
    """A binary value (6.1): hexadecimal behind 0x, base64 behind 0b."""
    if len(value) > 2 * _MOST_BYTES + 2:
        raise BadText
    try:
        if value[:2] in ("0x", "0X"):
            return bytes.fromhex("0" * (len(value) % 2) + value[2:])
        if value[:2] in ("0b", "0B"):
            return base64.b64decode(value[2:], validate=True)
    except (ValueError, binascii.Error):
        pass
    raise BadText


def response(algorithm: str, identifier: int, secret: bytes, challenge: bytes) -> bytes:
    return hashlib.new(_ALGORITHMS[algorithm], bytes((identifier,)) + secret + challenge,
                       usedforsecurity=False).digest()


class Failed(Exception):
    """The initiator has not shown that it knows the secret."""


class Chap:
    """One exchange. A name that is not known is asked for a secret that nobody has."""

    def __init__(self, host: Credentials | None, target: Credentials | None) -> None:
        self._host = host or Credentials("", os.urandom(_CHALLENGE))
        self._target = target
        self._algorithm = ""
        self._identifier, self._challenge = os.urandom(1)[0], os.urandom(_CHALLENGE)
        self.is_done = False

    def answer(self, pairs: dict[str, str]) -> dict[str, str]:
        """The next step; `pairs` are the keys of CHAP that came."""
        if not self._algorithm:
            return self._offer(pairs["CHAP_A"])
        return self._judge(pairs)

    def _offer(self, offered: str) -> dict[str, str]:
        self._algorithm = next((it for it in offered.split(",") if it in _ALGORITHMS), "")
        if not self._algorithm:
            raise Failed
        return {"CHAP_A": self._algorithm, "CHAP_I": str(self._identifier), "CHAP_C": "0x" + self._challenge.hex()}

    def _judge(self, pairs: dict[str, str]) -> dict[str, str]:
        expected = response(self._algorithm, self._identifier, self._host.secret, self._challenge)
        is_right = hmac.compare_digest(_binary(pairs["CHAP_R"]), expected)
        if not hmac.compare_digest(pairs["CHAP_N"].encode(), self._host.user.encode()) or not is_right:
            raise Failed
        self.is_done = True
        if "CHAP_I" not in pairs:
            return {}
        return self._prove(number(pairs["CHAP_I"], 0, 255), _binary(pairs["CHAP_C"]))

    def _prove(self, identifier: int, challenge: bytes) -> dict[str, str]:
        """The initiator asks in turn. Its challenge may not be this target's own, given back (RFC 7143, 9.2.1)."""
        is_reflected = hmac.compare_digest(challenge, self._challenge)
        if not self._target or is_reflected or not 1 <= len(challenge) <= _MOST_BYTES:
            raise Failed
        made = response(self._algorithm, identifier, self._target.secret, challenge)
        return {"CHAP_N": self._target.user, "CHAP_R": "0x" + made.hex()}
