"""The words that ask a running front end: hosts, status."""
import json
import socket
import sys
import time
from typing import Any

from .folder import STATUS, Folder
from .options import Options

_SECONDS = 30.0


def _asked(given: Options, question: str) -> Any:
    with socket.socket(socket.AF_UNIX, socket.SOCK_STREAM) as sock:
        sock.settimeout(_SECONDS)
        try:
            sock.connect(Folder(given.config).of(STATUS))
        except OSError:
            sys.exit("vtl-iscsi: no front end runs over this configuration")
        sock.sendall(question.encode() + b"\n")
        said = b""
        while piece := sock.recv(65_536):
            said += piece
    if not said:
        sys.exit("vtl-iscsi: the front end gave no answer in time")
    return json.loads(said)


def ask(given: Options) -> int:
    if given.free:
        said = _asked(given, f"free {given.free}")
        print(f"host {given.free} is freed" if said["freed"] else f"vtl-iscsi: {said['why']}",
              file=sys.stdout if said["freed"] else sys.stderr)
        return 0 if said["freed"] else 1
    document = _asked(given, given.word)
    if given.is_json:
        print(json.dumps(document, indent=1))
    else:
        print("\n".join(_hosts(document) if given.word == "hosts" else _status(document)))
    return 0


def _hosts(document: list[dict[str, Any]]) -> list[str]:
    return [f"{it['number']:2} {it['name']} {it['isid']}{' logged in' * it['session']}"
            + (f" key at drive {', '.join(map(str, it['keys_at_drives']))}" if it["keys_at_drives"] else "")
            for it in document]


def _status(it: dict[str, Any]) -> list[str]:
    vtl = it["vtl"]
    lines = [f"{it['target']} on {', '.join(it['addresses'])}",
             f"vtl: {'up' if vtl['up'] else 'down'}, started {vtl['starts']} times, {vtl['waiting']} commands with it"]
    lines += [f"drive {drive['number']}: {drive['barcode'] or 'empty'}"
              + (" loaded" if drive["loaded"] else " unloaded" if drive["barcode"] else "")
              + (f", removal prevented by host {', '.join(map(str, drive['prevented_by']))}"
                 if drive["prevented_by"] else "") for drive in it["drives"]]
    lines += [f"slot {one['at']}: {one['barcode']}" + " refused at its last load" * one["refused"]
              for one in it["cartridges"] if one["at"] > 1000]
    lines += [f"host {one['host']}: {one['name']} from {', '.join(one['from'])}, {one['commands']} commands, "
              f"{one['bytes_in']} bytes in, {one['bytes_out']} out, {one['waiting']} waiting"
              for one in it["sessions"]]
    return lines + [f"{time.strftime('%Y-%m-%dT%H:%M:%SZ', time.gmtime(one['time']))} {one['text']}"
                    for one in it["faults"]]
