#!/usr/bin/env python3
"""The built tests of a crate, which are used only while no source is newer than they are.

usage: tests/built.py NAME..   builds the tests of these crates if it must (`rt test`), and
                               prints where they are

`tools/program --current` says whether they are there and no source is newer, as it does of the
program.
"""
import functools
import os
import subprocess
import sys
import time

TOP = os.path.dirname(os.path.dirname(os.path.realpath(__file__)))


def tests_of(crate):
    """Returns the path of a crate's built tests, whether they are there or not."""
    return f"{TOP}/crates/{crate}/out/{crate}_tests"


def are_current(crate):
    """Returns whether a crate's tests are built, and no source is newer than they are."""
    asked = [f"{TOP}/tools/program", "--current", tests_of(crate)]
    return subprocess.run(asked, stdout=subprocess.DEVNULL, check=False).returncode == 0


@functools.lru_cache(None)
def lack_of(crate):
    """Returns why a crate's built tests can't be used here, and what builds them; None: they
    can."""
    if are_current(crate):
        return None
    is_there = os.access(tests_of(crate), os.X_OK)
    why = "are older than a source" if is_there else "aren't built here"
    return f"the tests of {crate} {why} (tests/built.py {crate} builds them)"


def build(crate):
    """Returns the path of a crate's tests, which are built if they must be."""
    if not are_current(crate):
        begun = time.time_ns()
        words = ["rt", "test"]
        subprocess.run(words, cwd=f"{TOP}/crates/{crate}", stdout=subprocess.DEVNULL, check=True)
        # `rt` leaves the tests as they are if the newer source is none of theirs, so they get the
        # time at which it began: only sources that are edited after that are newer
        os.utime(tests_of(crate), ns=(begun, begun))
    return tests_of(crate)


def main(names):
    if not names or not all(os.path.isdir(f"{TOP}/crates/{it}/src") for it in names):
        print(__doc__, end="", file=sys.stderr)
        return 2
    for it in names:
        try:
            print(build(it), flush=True)
        except (OSError, subprocess.SubprocessError) as error:
            print(f"tests/built.py: {it}: {error}", file=sys.stderr)
            return 1
    return 0


if __name__ == "__main__":
    sys.exit(main(sys.argv[1:]))
