"""Task management (RFC 7143, 11.5 and 11.6; SAM-5, section 7).

A drive cannot be stopped in a command. So what was started runs to its end, and a request is answered behind that.
Commands of the host that asks are answered no more. Those of other hosts are answered: what was started as it ends,
what was not with TASK ABORTED (own, as with TAS 1), so that no host waits for its timeout."""
from __future__ import annotations

from typing import TYPE_CHECKING

from .pdu import FINAL, Opcode, Request, header, unit_of
from .sense import Reply
from .tasks import Task

if TYPE_CHECKING:
    from .full_feature import FullFeature

ABORT_TASK, ABORT_TASK_SET, CLEAR_ACA, CLEAR_TASK_SET = 1, 2, 3, 4
LOGICAL_UNIT_RESET, WARM_RESET, COLD_RESET, TASK_REASSIGN = 5, 6, 7, 8
COMPLETE, NO_TASK, NO_UNIT, NO_REASSIGNMENT, NOT_SUPPORTED, REJECTED = 0, 1, 2, 4, 5, 255
# that wait for commands to end, of a session
_MOST = 8
_TASK_ABORTED = Reply(0x40)


def manage(path: FullFeature, request: Request) -> None:
    function, units = request.flags & 0x7F, path.session.units
    unit = unit_of(request.lun)
    if path.session.managed >= _MOST:
        _respond(path, request, REJECTED)
    elif not path.session.host or function in (0, CLEAR_ACA) or function > TASK_REASSIGN:
        _respond(path, request, NOT_SUPPORTED)
    elif function == TASK_REASSIGN:
        _respond(path, request, NO_REASSIGNMENT)
    elif function == ABORT_TASK:
        _abort_task(path, request)
    elif function in (WARM_RESET, COLD_RESET):
        _clear(path, request, set(units.numbers()), is_reset=True)
    elif unit is None or unit not in units.numbers():
        _respond(path, request, NO_UNIT)
    else:
        _clear(path, request, {unit}, is_reset=function == LOGICAL_UNIT_RESET,
               is_own=function == ABORT_TASK_SET)


def _abort_task(path: FullFeature, request: Request) -> None:
    task = path.session.tasks.get(request.words[1])
    if not task:
        # one that was answered, or never came: its number is looked at (11.5.1)
        came = not path.session.in_window(request.words[4])
        _respond(path, request, NO_TASK if came else COMPLETE)
        return
    path.session.abort(task)
    path.session.managed += 1
    path.session.units.when_ended([task], lambda: _done(path, request, set()))
    path.session.go_on()


def _clear(path: FullFeature, request: Request, units: set[int], is_reset: bool, is_own: bool = False) -> None:
    concerned: list[Task] = []
    for session in [path.session] if is_own else path.target.sessions():
        for task in [it for it in session.tasks.values() if it.unit in units]:
            if session is path.session:
                session.abort(task)
            elif not task.is_running and task.is_delivered:
                session.terminate(task, _TASK_ABORTED)
            concerned.append(task)
    path.session.managed += 1
    path.session.units.when_ended(concerned, lambda: _done(path, request, units if is_reset else set()))
    for session in path.target.sessions():
        session.go_on()


def _done(path: FullFeature, request: Request, units: set[int]) -> None:
    path.session.managed -= 1
    for unit in units:
        path.session.units.was_reset(unit)
    _respond(path, request, COMPLETE)
    if request.flags & 0x7F == COLD_RESET:
        path.target.close_all("a cold reset")


def _respond(path: FullFeature, request: Request, response: int) -> None:
    if not path.connection.is_closed:
        path.connection.send(header(Opcode.TASK_MANAGEMENT_RESPONSE, FINAL, request.itt, second=response,
                                    words=(0, *path.next_numbers(), 0, 0, 0)))
