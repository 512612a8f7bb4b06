"""Tests that are run side by side: one line reports each that fails, and the last line how many
passed."""
import collections
import os
import subprocess
from concurrent.futures import ThreadPoolExecutor

import cases

# work: is called with nothing, and returns what is wrong, or nothing; None: it can't be tried here
Test = collections.namedtuple("Test", "name work")
# How many of a test's faults are shown, and how many characters of these.
FAULTS_SHOWN, CHARACTERS_SHOWN = 3, 900


def in_short(faults, tried):
    """Returns how many faults there are in what was tried, and the first of them; None: none."""
    said = f"{len(faults)} of {tried}: {'; '.join(faults[:FAULTS_SHOWN])}"
    return said[:CHARACTERS_SHOWN] if faults else None


def outcome(test):
    """Returns what is wrong with a test, or nothing."""
    try:
        return test.work()
    except (cases.Failure, OSError, ValueError, subprocess.SubprocessError) as error:
        return str(error)


def print_faults(tests, lanes):
    """Runs all tests side by side, prints which fail, and returns how many."""
    failed = 0
    with ThreadPoolExecutor(lanes or os.cpu_count()) as pool:
        for test, fault in zip(tests, pool.map(outcome, tests)):
            if fault:
                failed += 1
                print(f"{test.name}: {fault}", flush=True)
    return failed


def status_of(tests, is_whole=False, lanes=None, remark=None):
    """Runs the tests, `lanes` at a time, and returns the status to end with. is_whole: one that
    can't be tried is a failure.

    What `remark` returns after the tests is printed before the last line.
    """
    skipped = [it for it in tests if it.work is None]
    for it in skipped:
        print(f"{it.name}: not tried")
    failed = print_faults([it for it in tests if it.work], lanes)
    if remark:
        print(remark())
    passed = len(tests) - failed - len(skipped)
    print(f"{passed} passed, {failed} failed" + f", {len(skipped)} skipped" * bool(skipped))
    return 1 if failed or (is_whole and skipped) else 0
