"""The medium changer, LUN 0 (SMC-3): one transport element, the slots as storage elements, the drives."""
from __future__ import annotations

from collections.abc import Callable
from typing import TYPE_CHECKING

from . import elements, vital
from .attentions import CHANGER
from .sense import (GOOD, INVALID_FIELD, INVALID_OPERATION_CODE, NO_SUCH_ELEMENT, REMOVAL_PREVENTED,
                    NOT_KEPT, SAVING_NOT_SUPPORTED, Reply, code_of, good)
from .tasks import Task

if TYPE_CHECKING:
    from .units import Units

Done = Callable[[Reply], None]
_INVERT, _DESC = 0x01, 0x01
_ALL_PAGES, _SAVED = 0x3F, 3


class Changer:
    def __init__(self, units: Units) -> None:
        self._units, self._library = units, units.library
        self._now: dict[int, Callable[[Task], Reply]] = {
            0x00: lambda task: good(),  # TEST UNIT READY
            0x03: self._request_sense,
            0x07: lambda task: good(),  # INITIALIZE ELEMENT STATUS
            0x12: self._inquiry,
            0x1A: self._mode_sense_6,
            0x1E: self._prevent,
            0x2B: self._position,
            0x37: lambda task: good(),  # INITIALIZE ELEMENT STATUS WITH RANGE
            0x5A: self._mode_sense_10,
            0xB8: self._status,
        }

    def start(self, task: Task, done: Done) -> None:
        code = task.block[0]
        if code not in self._now and code != 0xA5:
            done(INVALID_OPERATION_CODE)
        elif owed := self._units.owed_first(task):
            done(owed)
        elif code == 0xA5:
            self._move(task, done)
        else:
            done(self._now[code](task))

    def _inquiry(self, task: Task) -> Reply:
        return vital.inquiry(task.block, vital.CHANGER, self._units.hosts.library, CHANGER)

    def _request_sense(self, task: Task) -> Reply:
        return INVALID_FIELD if task.block[1] & _DESC else self._units.no_sense(task)

    def _prevent(self, task: Task) -> Reply:
        """It is kept, and stops nothing: there is no import and export element."""
        if task.block[4] & 0x02:
            return INVALID_FIELD
        self._units.prevent(task.session.number, CHANGER, bool(task.block[4] & 0x01))
        return good()

    def _position(self, task: Task) -> Reply:
        transport, destination = (int.from_bytes(task.block[at:at + 2], "big") for at in (2, 4))
        if task.block[8] & _INVERT:
            return INVALID_FIELD
        known = transport == elements.TRANSPORT and (
            destination == elements.TRANSPORT or self._library.is_element(destination))
        return good() if known else NO_SUCH_ELEMENT

    def _status(self, task: Task) -> Reply:
        return elements.status(task.block, self._library, self._units.hosts.library)

    # Mode pages (SMC-3, 7.3; SPC-4, 6.11 and 6.12).

    def _mode_sense_6(self, task: Task) -> Reply:
        pages = self._pages(task)
        if isinstance(pages, Reply):
            return pages
        return good((bytes((3 + len(pages), 0, 0, 0)) + pages)[:task.block[4]])

    def _mode_sense_10(self, task: Task) -> Reply:
        pages = self._pages(task)
        if isinstance(pages, Reply):
            return pages
        made = (6 + len(pages)).to_bytes(2, "big") + bytes(6) + pages
        return good(made[:int.from_bytes(task.block[7:9], "big")])

    def _pages(self, task: Task) -> bytes | Reply:
        control, code, subpage = task.block[2] >> 6, task.block[2] & 0x3F, task.block[3]
        pages = elements.mode_pages(self._library)
        if code != _ALL_PAGES and code not in pages or subpage not in (
                (0x00, 0xFF) if code == _ALL_PAGES else (0x00,)):
            return INVALID_FIELD
        if control == _SAVED:
            return SAVING_NOT_SUPPORTED
        chosen = [it for number, it in sorted(pages.items()) if code in (number, _ALL_PAGES)]
        # nothing in them can be changed
        return b"".join(it[:2] + bytes(len(it) - 2) if control == 1 else it for it in chosen)

    # MOVE MEDIUM (SMC-3, 6.5).

    def _move(self, task: Task, done: Done) -> None:
        transport, source, destination = (int.from_bytes(task.block[at:at + 2], "big") for at in (2, 4, 6))
        library = self._library
        if task.block[10] & _INVERT:
            done(INVALID_FIELD)
        elif transport != elements.TRANSPORT or not library.is_element(source) or not library.is_element(destination):
            done(NO_SUCH_ELEMENT)
        elif source in library.drives and library.at(source) and self._units.is_prevented(source):
            done(REMOVAL_PREVENTED)
        else:
            task.session.alone = task
            self._units.move(task, source, destination,
                             lambda reply: self._moved(task, source, destination, reply, done))

    def _moved(self, task: Task, source: int, destination: int, reply: Reply, done: Done) -> None:
        cartridge, key = self._library.at(source), code_of(reply)
        label = task.session.label()
        if reply.status == GOOD and cartridge:
            self._units.log.say(f"{label}: {cartridge.barcode} moved from {source} to {destination}")
            self._units.moved(source, destination)
            try:
                self._library.moved(source, destination)
            except OSError as error:
                # it is there, but a restart would look for it where it was
                self._units.log.fault(f"the place of {cartridge.barcode} cannot be kept: {error.strerror}")
                reply = NOT_KEPT
        else:
            if key == (0x3, 0x11, 0x00) and cartridge:
                cartridge.refusal = key[1:]
                self._library.loaded.discard(source)
            self._units.log.say(f"{label}: move from {source} to {destination} answered {reply.status:02x}h"
                                f" {key[0]:X}, {key[1]:02X}/{key[2]:02X}")
        done(reply)
