"""The words of the command line."""
import argparse
import ipaddress
from dataclasses import dataclass

DEFAULT_TARGET, DEFAULT_LISTEN = "iqn.2026-11.local.vtl:library", "127.0.0.1:3260"


@dataclass
class Options:
    word: str
    config: str
    listen: list[tuple[str, int]]
    target: str
    access: str | None
    is_open: bool
    fixed: int
    program: str
    log: str | None
    page: int
    is_json: bool
    free: int


def _address(text: str) -> tuple[str, int]:
    host, colon, port = text.rpartition(":")
    try:
        address = str(ipaddress.ip_address(host.strip("[]")))
    except ValueError:
        address = ""
    if not address or not colon or not port.isdecimal() or not 0 <= int(port) <= 65_535:
        raise argparse.ArgumentTypeError(f"{text} is no ADDRESS:PORT; an address is digits")
    return address, int(port)


def _block(text: str) -> int:
    if not text.isdecimal() or not 1 <= int(text) <= 1_048_576:
        raise argparse.ArgumentTypeError("a block has 1 to 1048576 bytes")
    return int(text)


def parser() -> argparse.ArgumentParser:
    made = argparse.ArgumentParser(prog="vtl-iscsi", allow_abbrev=False, description=(
        "Serves the library of a configuration to hosts over iSCSI: LUN 0 is a medium changer, LUN d the drive d."))
    made.add_argument("word", nargs="?", choices=("serve", "hosts", "status"), default="serve",
                      help="serve, which is the default; or ask the one that is running: hosts, status")
    made.add_argument("--config", required=True, metavar="FILE", help="the library's configuration")
    made.add_argument("--listen", action="append", type=_address, metavar="ADDRESS:PORT",
                      help=f"where hosts connect to, {DEFAULT_LISTEN} by default; may be given several times")
    made.add_argument("--target", default=DEFAULT_TARGET, metavar="NAME", help="the target's name, " + DEFAULT_TARGET)
    made.add_argument("--access", metavar="FILE", help="the file of hosts' names and secrets")
    made.add_argument("--open", action="store_true", help="hosts of this machine that are not listed may log in")
    made.add_argument("--fixed", type=_block, default=0, metavar="BYTES", help="drives take fixed blocks, of so many "
                      "bytes until a host sets another length")
    made.add_argument("--program", default="vtl", metavar="PATH", help="the program vtl")
    made.add_argument("--log", metavar="FILE", help="the log, in the place of standard error")
    made.add_argument("--page", type=int, default=0, metavar="PORT", help="a page that shows the library, on loopback")
    made.add_argument("--json", action="store_true", help="status as one document")
    made.add_argument("--free", type=int, default=0, metavar="NUMBER", help="hosts: forgets that host, which has no "
                      "session and holds no key")
    return made


def read(words: list[str]) -> Options:
    given = parser().parse_args(words)
    return Options(given.word, given.config, given.listen or [_address(DEFAULT_LISTEN)], given.target, given.access,
                   given.open, given.fixed, given.program, given.log, given.page, given.json, given.free)
