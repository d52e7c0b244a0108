#!/usr/bin/env python3
"""Starts the front end with one thing made wrong: sabotaged.py NAME WORDS.. The tests have to find each (`run.py
--selftest`)."""
import os
import sys
from collections.abc import Callable
from typing import Any

sys.path[:0] = [os.path.dirname(os.path.dirname(os.path.abspath(__file__)))]

from vtl_iscsi import (chap, connection, drives, folder, fixed, full_feature, hosts, library, login_phase, main,  # noqa
                       operating, sense, served, session, supervisor, tasks, units)  # noqa: E402
from vtl_iscsi.attentions import Attentions  # noqa: E402


def put(owner: Any, name: str, value: Any) -> Callable[[], None]:
    return lambda: setattr(owner, name, value)


def at_once(self: Any, number: int, deliver: Callable[[], None]) -> None:
    self.expected = max(self.expected, number + 1)
    deliver()


def fails(*_: Any) -> None:
    raise ZeroDivisionError



# What is made wrong, and the test that has to find it.
SABOTAGES: dict[str, tuple[Callable[[], None], str]] = {
    "any_secret": (put(chap.hmac, "compare_digest", lambda *_: True), "chap_lets_in_who_knows_the_secret"),
    "a_reflected_challenge": (
        put(chap.Chap, "_prove", lambda self, identifier, challenge: {"CHAP_N": "library", "CHAP_R": "0x00"}),
        "chap_lets_in_who_knows_the_secret"),
    "no_data_digest": (put(connection.Connection, "_has_data", lambda self: self._complete(True)),
                       "a_wrong_digest_is_answered"),
    "commands_as_they_come": (put(session.Session, "arrives", at_once), "commands_are_taken_in_their_order"),
    "no_window": (put(session.Session, "in_window", lambda *_: True), "commands_outside_the_window_are_ignored"),
    "no_residual": (put(tasks, "_residual", lambda *_: (0, 0)), "residuals_are_counted"),
    "all_data_are_kept": (put(tasks, "MOST_DATA", 1 << 24), "the_longest_transfers"),
    "an_abort_of_nothing": (put(session.Session, "abort", lambda *_: None),
                            "task_management_answers_as_a_drive_that_cannot_be_stopped"),
    "no_reset": (put(Attentions, "was_reset", lambda *_: None),
                 "task_management_answers_as_a_drive_that_cannot_be_stopped"),
    "no_nexus_loss": (put(units.Units, "nexus_lost", lambda *_: None), "removal_is_prevented"),
    "unread_answers": (put(connection.Connection, "is_full", lambda _: False), "many_pings_that_nobody_reads"),
    "an_exception": (lambda: full_feature._ACTIONS.__setitem__(0, fails), "commands_outside_the_window_are_ignored"),
    "nothing_is_prevented": (put(units.Units, "is_prevented", lambda *_: False), "removal_is_prevented"),
    "numbers_of_the_moment": (put(hosts.Hosts, "__init__", lambda self, _: self.__dict__.update(
        library="00000000", _hosts={}, _folder=folder.Folder("x"), _keep=lambda: None)),
                              "hosts_keep_their_numbers"),
    "blocks_are_whole": (put(fixed.Fixed, "concerns", lambda *_: False), "fixed_blocks"),
    "drives_start_loaded": (put(operating, "STARTS_LOADED", False), "what_a_filemark_acknowledged_is_there"),
    "a_lost_command_is_good": (put(served, "LOST", sense.good()), "what_a_filemark_acknowledged_is_there"),
    "a_stop_is_a_kill": (put(supervisor.Supervisor, "end", lambda self: (
        setattr(self, "is_ending", True), self.kill())), "what_was_answered_is_there_behind_sigterm"),
    "places_are_forgotten": (put(library.Library, "keep", lambda _: None), "places_stay_over_every_restart"),
    "no_exceptions_of_elements": (put(library.Cartridge, "refusal", property(lambda _: None, lambda *_: None)),
                                  "a_damaged_cartridge_is_an_exception"),
    "everybody_may_come": (put(main, "is_loopback", lambda _: True),
                           "it_listens_beyond_this_machine_with_secrets_alone"),
    "long_segments": (put(login_phase.LoginPhase, "most_data", lambda _: 1 << 24), "a_segment_that_is_too_long"),
    "idle_strangers": (put(main.Target, "_accept", lambda self, listener: None), "connections_that_never_log_in"),
    "registered_by_nobody": (put(drives, "RESERVE_OUT", 0xFF), "a_fence_holds_over_every_restart"),
}

if __name__ == "__main__":
    SABOTAGES[sys.argv[1]][0]()
    sys.exit(main.main(sys.argv[2:]))
