#!/usr/bin/env python3
"""Runs the tests of `rx_tests::refused` while the Nth request for memory is refused, for N = 1, 2 and on: a desk that is driven to
its end, and runs that are refused before anything is allocated.

    tests/refused_desk.py TESTS [--step N] [--seconds S]

TESTS is `crates/rx_tests/out/rx_tests_tests`. A library is compiled with `cc` from refused_memory.c next to this file and
preloaded into it; without `cc` nothing can be tried.

A test makes a refused desk again, and asks a refused `next` and a refused adjudication once more; the desk then ends with the
books of the case. A run with 0 workers and one with a stamp of no date have to be refused as such. So the test passes, or, where
the refusal meets its own lists, it says that memory ran out. Any other end fails. A test is swept until a run meets no refusal.
The last line is `N passed, M failed`.
"""

import argparse
import itertools
import os
import subprocess
import sys
import tempfile
from collections import Counter

from refused_memory import compiled

TESTS = ("refused::a_desk_goes_on", "refused::a_run_is_refused_before_memory")
PASSED = b"test result: ok\n"


def ended(program, test, library, request, seconds, met):
    """How the test ends where this request is refused, and whether it made that request."""
    if os.path.exists(met):
        os.remove(met)
    surroundings = {**os.environ, "LD_PRELOAD": library, "REFUSED_REQUEST": str(request), "REFUSED_MET": met}
    run = subprocess.run([program, test], stdin=subprocess.DEVNULL, capture_output=True, timeout=seconds, env=surroundings)
    return run, os.path.exists(met)


def kind_of(run):
    """What came of a refusal; None if it is none of these."""
    if run.returncode == 0 and run.stdout.endswith(PASSED):
        return "made good"
    return "out of memory" if run.returncode and (not run.stderr or b"memory" in run.stderr.lower()) else None


def sweep(program, test, library, words, met):
    """How often each kind was met, and how many runs ended otherwise."""
    kinds, failed = Counter(), 0
    for request in itertools.count(1, words.step):
        run, was_met = ended(program, test, library, request, words.seconds, met)
        kind = kind_of(run)
        if kind is None or not was_met and kind != "made good":
            print(f"{test}, request {request}: status {run.returncode}, {run.stderr!r}")
            failed += 1
        if not was_met:
            return kinds, failed
        kinds[kind] += kind is not None


def main():
    words = argparse.ArgumentParser()
    words.add_argument("tests")
    words.add_argument("--step", type=int, default=1)
    words.add_argument("--seconds", type=float, default=60)
    words = words.parse_args()
    program, passed, failed = os.path.abspath(words.tests), 0, 0
    with tempfile.TemporaryDirectory() as into:
        library, met = compiled(into), os.path.join(into, "met")
        for test in TESTS:
            kinds, others = sweep(program, test, library, words, met)
            print(f"{test}: {', '.join(f'{count} {kind}' for kind, count in kinds.items()) or 'no request for memory'}")
            passed, failed = passed + 1 + sum(kinds.values()) - bool(others), failed + others
    print(f"{passed} passed, {failed} failed")
    return 1 if failed else 0


if __name__ == "__main__":
    sys.exit(main())
