"""Text requests in the full feature phase (RFC 7143, 11.10; SendTargets: appendix C)."""
from __future__ import annotations

from typing import TYPE_CHECKING

from . import keys
from .pdu import CONTINUE, FINAL, RESERVED_TAG, Opcode, Request, header

if TYPE_CHECKING:
    from .full_feature import FullFeature

_MORE = 1


def answer(path: FullFeature, request: Request, data: bytes) -> None:
    if request.transfer_tag == RESERVED_TAG:
        path.text = b""
    path.text += data
    if len(path.text) > keys.MOST_TEXT:
        raise keys.BadText
    if request.flags & CONTINUE or not request.is_final:
        _respond(path, request, 0, _MORE, b"")
        return
    text, path.text = path.text, b""
    said = b"".join(_of_pair(path, key, value) for key, value in keys.parse(text).items())
    _respond(path, request, FINAL, RESERVED_TAG, said[:path.agreed.segment])


def _respond(path: FullFeature, request: Request, flags: int, tag: int, data: bytes) -> None:
    made = header(Opcode.TEXT_RESPONSE, flags, request.itt, lun=request.lun,
                  words=(tag, *path.next_numbers(), 0, 0, 0))
    path.connection.send(made, *([data] if data else []))


def _of_pair(path: FullFeature, key: str, value: str) -> bytes:
    if key == "SendTargets":
        return _targets(path, value)
    if key == "MaxRecvDataSegmentLength":
        keys.answer(key, value, path.agreed)
        return b""
    # what is agreed on in a login alone
    return keys.spell({key: "Reject" if keys.is_known(key) else "NotUnderstood"})


def _targets(path: FullFeature, value: str) -> bytes:
    """All is for discovery; a normal session may ask for the target that it is with."""
    name, is_discovery = path.target.name, path.session.host is None
    if value == "All" and not is_discovery:
        return keys.spell({"SendTargets": "Reject"})
    if value not in ("All", "", name):
        return b""
    return keys.spell({"TargetName": name}) + keys.spell({"TargetAddress": f"{path.connection.address},1"})
