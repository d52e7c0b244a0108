"""A tape drive, LUN d: command blocks go to drive d of the library, and its answers come back as they are."""
from __future__ import annotations

import time
from collections.abc import Callable
from typing import TYPE_CHECKING, Any

from . import vital
from .fixed import Fixed
from .sense import CHECK_CONDITION, GOOD, INVALID_FIELD, REMOVAL_PREVENTED, Reply, code_of, good, is_owed
from .tasks import Task

if TYPE_CHECKING:
    from .units import Units

Done = Callable[[Reply], None]
WRITE_6, INQUIRY, MODE_SELECT_6, LOAD_UNLOAD, PREVENT_ALLOW, RESERVE_OUT = 0x0A, 0x12, 0x15, 0x1B, 0x1E, 0x5F
READ_6, WRITE_FILEMARKS_6 = 0x08, 0x10
_EARLY_WARNING, _MOVING_SECONDS = (0x0, 0x00, 0x02), 5.0
# REWIND, READ(6), LOCATE(10), READ POSITION
_FLUSHES = (0x01, READ_6, 0x2B, 0x34)
# actions of PERSISTENT RESERVE OUT: REGISTER, REGISTER AND IGNORE EXISTING KEY; CLEAR
_REGISTERS, _CLEAR = (0x00, 0x06), 0x03
# a command block's length by its group code (SPC-4, 4.3.2); 16 where it says none
_LENGTHS = (6, 10, 10, 16, 16, 12, 16, 16)
# SPACE over no block: it meets an attention and a reservation in their order, and does nothing
_PROBE, _READY = bytes.fromhex("110000000000"), bytes(6)


class Drive:
    def __init__(self, units: Units, number: int, fixed: int) -> None:
        self._units, self.number = units, number
        self._fixed = Fixed(units, number, fixed) if fixed else None
        # bytes of blocks accepted since the cartridge was loaded, and how many of them a command made safe
        self._accepted = self._safe = 0
        self._last, self._when = "", 0.0

    def safety(self) -> dict[str, Any]:
        """What is known of answers; of what was accepted behind, the flusher stores more than is known here."""
        is_moving = time.monotonic() - self._when < _MOVING_SECONDS
        return {"accepted": self._accepted, "safe": self._safe, "moving": self._last if is_moving else ""}

    def changed(self) -> None:
        """Another cartridge, or none."""
        self._accepted = self._safe = 0

    def reset(self) -> None:
        if self._fixed:
            self._fixed.reset()

    def data_out_length(self, task: Task) -> int:
        block, code = task.block, task.block[0]
        if code == WRITE_6:
            return self._fixed.length_of(task) if self._fixed else int.from_bytes(block[2:5], "big")
        return {MODE_SELECT_6: block[4], RESERVE_OUT: int.from_bytes(block[5:9], "big")}.get(code, 0)

    def start(self, task: Task, done: Done) -> None:
        owed = self._units.owed_first(task)
        code = task.block[0]
        if owed:
            done(owed)
        elif code == INQUIRY and task.block[1] & 0x03:
            done(vital.inquiry(task.block, vital.TAPE, self._units.hosts.library, self.number))
        elif code == PREVENT_ALLOW:
            self._prevent(task, done)
        elif code == LOAD_UNLOAD and not task.block[4] & 0x01 and self._units.is_prevented(self.number):
            self._behind_checks(task, _PROBE, lambda: done(REMOVAL_PREVENTED), done)
        elif self._fixed and self._fixed.concerns(task):
            self._fixed.start(task, done)
        else:
            self._send(task, done)

    def _send(self, task: Task, done: Done) -> None:
        block = task.block[:_LENGTHS[task.block[0] >> 5]]
        if block[0] == RESERVE_OUT and block[1] & 0x1F in _REGISTERS and any(task.data[8:16]):
            self._units.hosts.registers(task.session.number, self.number)
        if block[0] == LOAD_UNLOAD:
            is_load = bool(block[4] & 0x01)
            self._units.command(task, block, b"", lambda reply: self._loaded(task, is_load, reply, done))
        else:
            self._units.command(task, block, task.data, lambda reply: self._answered(task, block, reply, done))

    def _answered(self, task: Task, block: bytes, reply: Reply, done: Done) -> None:
        """FORMATS, The commands that flush: a READ, a REWIND and the like make all safe that was accepted before."""
        code = block[0]
        if reply.status == GOOD or code_of(reply) == _EARLY_WARNING and not reply.is_lost:
            if code == WRITE_6:
                self._accepted += len(task.data)
            elif code == RESERVE_OUT:
                self._reserved(task, block[1] & 0x1F)
            elif code in _FLUSHES and (code != READ_6 or any(block[2:5])) or (
                    code == WRITE_FILEMARKS_6 and not block[1] & 0x01):
                self._safe = self._accepted
        if code in (WRITE_6, READ_6):
            self._last, self._when = task.session.name, time.monotonic()
        done(reply)

    def _reserved(self, task: Task, action: int) -> None:
        """Who holds no key any more: at REGISTER of the key 0, and at CLEAR."""
        if action == _CLEAR:
            self._units.hosts.is_unregistered(self.number)
        elif action in _REGISTERS and not any(task.data[8:16]):
            self._units.hosts.is_unregistered(self.number, task.session.number)

    def _loaded(self, task: Task, is_load: bool, reply: Reply, done: Done) -> None:
        """Whether a cartridge is loaded is known by the answers."""
        library, cartridge = self._units.library, self._units.library.at(self.number)
        if reply.status == GOOD:
            self.changed()
        if reply.status == GOOD and is_load:
            library.loaded.add(self.number)
            if cartridge:
                cartridge.refusal = None
        elif reply.status == GOOD:
            library.loaded.discard(self.number)
        elif cartridge and is_load and code_of(reply) == (0x3, 0x11, 0x00):
            cartridge.refusal = (0x11, 0x00)
        self._units.log.say(f"{task.session.label()}: {'load' if is_load else 'unload'} at drive {self.number} "
                            f"answered {reply.status:02x}h")
        done(reply)

    def _prevent(self, task: Task, done: Done) -> None:
        """PREVENT ALLOW MEDIUM REMOVAL (SPC-4, 6.17): to prevent needs what a reservation allows."""
        flags = task.block[4] & 0x03
        if flags > 1:
            self._behind_checks(task, _READY, lambda: done(INVALID_FIELD), done)
            return

        def keep() -> None:
            if not task.is_aborted:  # a nexus that was lost meanwhile prevents nothing
                self._units.prevent(task.session.number, self.number, bool(flags))
            done(good())

        self._behind_checks(task, _PROBE if flags else _READY, keep, done)

    def _behind_checks(self, task: Task, probe: bytes, then: Callable[[], None], done: Done) -> None:
        """What is answered here comes behind the drive's own attentions, deferred errors and reservations."""
        task.session.alone = task

        def looked(reply: Reply) -> None:
            if reply.is_lost or is_owed(reply) or reply.status not in (GOOD, CHECK_CONDITION):
                done(reply)
            else:
                then()

        self._units.command(task, probe, b"", looked)
