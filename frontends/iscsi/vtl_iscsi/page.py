"""One page on loopback that shows the library. It has no script, takes no input, and is refused under a name that is
not this machine's, so that no site in a browser reads it."""
import html
import socket
import time
from typing import Any

from .loop import END, READ, Loop
from .status import Status

_MOST_REQUEST, _MOST_WAITING, _SECONDS, _REFRESH = 4_096, 16, 5.0, 5
_NAMES = ("127.0.0.1", "localhost")
_STYLE = """body{font:14px sans-serif;margin:1.5em;max-width:70em;color:#222}h1{font-size:1.3em}
.row{display:flex;flex-wrap:wrap;gap:.5em;margin:.5em 0 1em}.box{border:1px solid #888;border-radius:4px;padding:.5em;
min-width:8em}.drive{min-width:16em}.empty{color:#888;border-style:dashed}.bad{border-color:#b00;color:#b00}
.strip{display:flex;height:.8em;margin:.4em 0;background:#eee}.safe{background:#393}.rest{background:#d90}
small{color:#555}table{border-collapse:collapse}td,th{padding:.2em .8em .2em 0;text-align:left}"""
_HEAD = ("HTTP/1.0 {status}\r\nContent-Type: text/html; charset=utf-8\r\nContent-Length: {length}\r\n"
         "Content-Security-Policy: default-src 'none'; style-src 'unsafe-inline'; frame-ancestors 'none'\r\n"
         "Cache-Control: no-store\r\nX-Content-Type-Options: nosniff\r\nConnection: close\r\n\r\n")


class Page:
    def __init__(self, loop: Loop, port: int, status: Status) -> None:
        self._loop, self._status = loop, status
        self._listener = socket.create_server(("127.0.0.1", port), backlog=_MOST_WAITING)
        self._listener.setblocking(False)
        self._waiting: dict[socket.socket, bytes] = {}
        loop.watch(self._listener.fileno(), READ, lambda _: self._accept())

    def _accept(self) -> None:
        try:
            sock, _ = self._listener.accept()
        except OSError:
            return
        if len(self._waiting) >= _MOST_WAITING:
            sock.close()
            return
        sock.setblocking(False)
        self._waiting[sock] = b""
        self._loop.watch(sock.fileno(), READ, lambda events: self._asked(sock, events))
        self._loop.after(_SECONDS, lambda: self._close(sock))

    def _asked(self, sock: socket.socket, events: int) -> None:
        try:
            piece = sock.recv(_MOST_REQUEST) if events & READ else b""
        except BlockingIOError:
            return
        except OSError:
            piece = b""
        self._waiting[sock] += piece
        asked = self._waiting[sock]
        if b"\r\n\r\n" in asked:
            self._answer(sock, asked)
        elif not piece or events & END or len(asked) > _MOST_REQUEST:
            self._close(sock)

    def _answer(self, sock: socket.socket, asked: bytes) -> None:
        lines = asked.decode("latin-1").split("\r\n")
        hosts = [line[5:].strip() for line in lines[1:] if line.lower().startswith("host:")]
        known = len(hosts) == 1 and hosts[0].rpartition(":")[0] in _NAMES or hosts in ([it] for it in _NAMES)
        if known and lines[0].split(" ")[:2] == ["GET", "/"]:
            status, body = "200 OK", drawn(self._status.document())
        else:
            status, body = "404 Not Found", "<p>there is one page, /</p>"
        made = body.encode()
        try:
            # the page fits what a socket of this machine takes at once, or is cut off
            sock.send(_HEAD.format(status=status, length=len(made)).encode() + made)
        except OSError:
            pass
        self._close(sock)

    def _close(self, sock: socket.socket) -> None:
        if self._waiting.pop(sock, None) is not None:
            self._loop.forget(sock.fileno())
            sock.close()


def _box(kind: str, title: str, *lines: str) -> str:
    shown = "".join(f"<br>{it}" for it in lines if it)
    return f'<div class="box {kind}"><b>{html.escape(title)}</b>{shown}</div>'


def _drive(drive: dict[str, Any]) -> str:
    accepted, safe = drive["accepted"], drive["safe"]
    part = 100 if not accepted else 100 * safe // accepted
    strip = (f'<div class="strip"><div class="safe" style="width:{part}%"></div>'
             f'<div class="rest" style="width:{100 - part}%"></div></div>'
             f"<small>{safe:,} bytes that a filemark made safe, {accepted - safe:,} accepted behind it</small>")
    state = "loaded" if drive["loaded"] else "unloaded" if drive["barcode"] else ""
    locked = "removal is prevented" if drive["prevented_by"] else ""
    return _box("drive" if drive["barcode"] else "drive empty", f"drive {drive['number']}",
                html.escape(drive["barcode"] or "empty"), state, locked, html.escape(drive["moving"]), strip)


def drawn(it: dict[str, Any]) -> str:
    slots = [_box("bad" if one["refused"] else "", one["barcode"], f"slot {one['at']}",
                  "refused at its last load" if one["refused"] else "", f"{sum(one['capacities']):,} bytes")
             for one in it["cartridges"] if one["at"] > 1000]
    hosts = "".join(
        f"<tr><td>{one['host'] or ''}<td>{html.escape(one['name'])}<td>{html.escape(', '.join(one['from']))}"
        f"<td>{one['commands']:,}<td>{one['bytes_in']:,}<td>{one['bytes_out']:,}" for one in it["sessions"])
    faults = "".join(f"<tr><td>{time.strftime('%F %T', time.gmtime(one['time']))}<td>{html.escape(one['text'])}"
                     for one in it["faults"][:20])
    up = "vtl is up" if it["vtl"]["up"] else "vtl is down, and is started again"
    return (f'<!doctype html><meta charset="utf-8"><meta http-equiv="refresh" content="{_REFRESH}">'
            f"<title>vtl-iscsi</title><style>{_STYLE}</style><h1>{html.escape(it['target'])}</h1>"
            f"<p>{up}; started {it['vtl']['starts']} times; {it['vtl']['waiting']} commands with it</p>"
            f'<h2>Drives</h2><div class="row">{"".join(map(_drive, it["drives"]))}</div>'
            f'<h2>Slots</h2><div class="row">{"".join(slots)}</div>'
            "<p><small>How full a cartridge is this page does not know: no frame of vtl serve says it.</small></p>"
            f"<h2>Hosts</h2><table><tr><th><th>name<th>from<th>commands<th>bytes in<th>bytes out{hosts}</table>"
            f"<h2>Faults of the last day</h2><table>{faults or '<tr><td>none'}</table>")
