"""Who may log in: the file of names and secrets.

    [target]                      # how this target answers a challenge of a host
    user = "library"
    secret = "another secret phrase"

    [[host]]
    name = "iqn.1993-08.org.debian:01:5f3a"
    user = "backup1"              # without user and secret the host needs no CHAP, and has to be on this machine
    secret = "at least twelve bytes"
"""
import os
import re
import stat
import tomllib
from dataclasses import dataclass, field
from typing import Any

from .library import Refused

# RFC 7143, 4.2.7.1: a name has at most 223 bytes. RFC 7143, 9.2.1: a secret of less than 96 bits is weak.
NAME = re.compile(r"iqn\.[0-9]{4}-[0-9]{2}\.[a-z0-9.\-]+(:[a-z0-9.:\-]+)?"
                  r"|eui\.[0-9A-Fa-f]{16}|naa\.[0-9A-Fa-f]{16,32}")
_MOST_NAME, _LEAST_SECRET, _MOST_SECRET = 223, 12, 255


def is_name(text: str) -> bool:
    return len(text) <= _MOST_NAME and NAME.fullmatch(text) is not None


@dataclass(repr=False)
class Credentials:
    user: str
    secret: bytes


@dataclass
class Access:
    hosts: dict[str, Credentials | None] = field(default_factory=dict)
    # this target's own
    target: Credentials | None = None
    # names that are not listed may log in, without CHAP
    is_open: bool = False

    def all_have_secrets(self) -> bool:
        return bool(self.hosts) and not self.is_open and None not in self.hosts.values()


def _credentials(entry: dict[str, Any], where: str) -> Credentials | None:
    user, secret = entry.get("user"), entry.get("secret")
    if user is None and secret is None:
        return None
    if not isinstance(user, str) or not isinstance(secret, str) or not user:
        raise Refused(f"{where}: user and secret are two texts")
    if not _LEAST_SECRET <= len(secret.encode()) <= _MOST_SECRET:
        raise Refused(f"{where}: a secret has {_LEAST_SECRET} to {_MOST_SECRET} bytes")
    return Credentials(user, secret.encode())


def read_access(path: str | None, is_open: bool) -> Access:
    if path is None:
        return Access({}, None, is_open)
    with open(path, "rb") as file:
        if stat.S_IMODE(os.fstat(file.fileno()).st_mode) & 0o077:
            raise Refused(f"{path} has secrets, and others may read or write it: chmod 600")
        try:
            document = tomllib.load(file)
        except (tomllib.TOMLDecodeError, UnicodeDecodeError):
            # the parser's text would show a line of it
            raise Refused(f"{path} is no TOML document") from None
    target, hosts = document.get("target"), document.get("host", [])
    if set(document) - {"target", "host"} or not isinstance(hosts, list):
        raise Refused(f"{path}: only [target] and [[host]] may stand there")
    access = Access({}, _credentials(target, "target") if isinstance(target, dict) else None, is_open)
    for at, entry in enumerate(hosts, 1):
        name = entry.get("name") if isinstance(entry, dict) else None
        if not isinstance(name, str) or not is_name(name) or set(entry) - {"name", "user", "secret"}:
            raise Refused(f"{path}: host {at} needs a name, of an initiator, and may have user and secret")
        access.hosts[name] = _credentials(entry, f"{path}: host {at}")
    secrets = [it.secret for it in access.hosts.values() if it]
    if access.target and access.target.secret in secrets:
        raise Refused(f"{path}: the target's secret has to be another than each host's")
    return access
