#!/usr/bin/env python3
"""Tests the iSCSI front end over a program: run.py [--program PATH] [--only WORD]. --selftest: one thing of the front
end is made wrong at a time (sabotaged.py), and the test that it is for has to fail."""
import argparse
import contextlib
import io
import os
import socket
import sys
import time
import traceback
from collections.abc import Callable

HERE = os.path.dirname(os.path.abspath(__file__))
sys.path[:0] = [HERE, os.path.dirname(HERE)]

import crashes  # noqa: E402
import harness  # noqa: E402
import strangers  # noqa: E402
import transport  # noqa: E402
import units_tests  # noqa: E402
from initiator import Initiator  # noqa: E402
from sabotaged import SABOTAGES  # noqa: E402

TOP = os.path.dirname(os.path.dirname(os.path.dirname(HERE)))
PROVED = os.path.join(TOP, "crates", "vtl", "out", "vtl")
Test = Callable[[harness.Bench], None]
GROUPS: list[list[Test]] = [it.TESTS for it in (transport, units_tests, crashes, strangers)]


def passes(program: str, tests: list[Test]) -> int:
    """How many of these tests, which share a front end, fail."""
    failed = 0
    try:
        with harness.bench(program, None) as bench:
            for test in tests:
                start, said = time.monotonic(), ""
                try:
                    test(bench)
                except Exception:
                    failed, said = failed + 1, traceback.format_exc()
                print(f"{'FAILED' if said else 'passed'} {test.__name__} {time.monotonic() - start:.2f} s\n{said}",
                      end="", flush=True)
    except Exception:
        print(f"FAILED at the end\n{traceback.format_exc()}")
        failed += 1
    return failed


def is_found(program: str, name: str, test: Test) -> bool:
    starter = [sys.executable, os.path.join(HERE, "sabotaged.py"), name]
    with contextlib.redirect_stderr(io.StringIO()):
        try:
            with harness.bench(program, starter) as bench:
                test(bench)
        except Exception:
            return True
    return False


def selftest(program: str, only: str) -> int:
    Initiator.seconds = 8.0
    tests = {test.__name__: test for group in GROUPS for test in group}
    chosen = {name: tests[test] for name, (_, test) in SABOTAGES.items() if only in name}
    missed = []
    for name, test in chosen.items():
        start = time.monotonic()
        if not is_found(program, name, test):
            missed.append(name)
        print(f"{'MISSED' if name in missed else 'found'} {name} {time.monotonic() - start:.2f} s", flush=True)
    print(f"iscsi --selftest: {len(chosen)} wrong front ends, {len(missed)} not found {' '.join(missed)}".rstrip())
    return 1 if missed else 0


def main() -> int:
    parser = argparse.ArgumentParser()
    parser.add_argument("--program", default=PROVED)
    parser.add_argument("--only", default="", help="the tests, or the wrong front ends, whose names have this")
    parser.add_argument("--selftest", action="store_true")
    given = parser.parse_args()
    socket.setdefaulttimeout(20)
    if given.selftest:
        return selftest(given.program, given.only)
    start, failed, count = time.monotonic(), 0, 0
    for group in GROUPS:
        tests = [it for it in group if given.only in it.__name__]
        count += len(tests)
        failed += passes(given.program, tests) if tests else 0
    print(f"iscsi: {count} tests, {failed} failed, {time.monotonic() - start:.0f} s")
    return 1 if failed else 0


if __name__ == "__main__":
    sys.exit(main())
