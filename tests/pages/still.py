#!/usr/bin/env python3
"""Draws the still picture that README shows, of lesson 1, under node.

usage: tests/pages/still.py > docs/picture.svg
"""
import os
import re
import shutil
import subprocess
import sys
import tempfile

TOP = os.path.dirname(os.path.dirname(os.path.dirname(os.path.realpath(__file__))))
sys.dont_write_bytecode = True
sys.path[:0] = [f"{TOP}/tests"]
import cases  # noqa: E402
from pages import build  # noqa: E402
from trials import Test  # noqa: E402

SHOWN, LESSON = "docs/picture.svg", f"{TOP}/lessons/01-safe-bit/safe"
# the one address that a picture has: the name of its language
LANGUAGE = ["http://www.w3.org/2000/svg"]


def drawn():
    """Returns the picture's bytes."""
    with tempfile.TemporaryDirectory() as scratch:
        build.put_modules(scratch, "still.mjs")
        words = [
            "node",
            f"{scratch}/still.mjs",
            build.made_module(),
            f"{LESSON}.tower",
            f"{LESSON}.script",
        ]
        done = subprocess.run(words, stdout=subprocess.PIPE, stderr=subprocess.PIPE, check=False)
    if done.returncode:
        raise ValueError(
            f"node ended with status {done.returncode}: {done.stderr.decode().strip()[-300:]}"
        )
    return done.stdout


def fault_of_picture():
    """Returns in what the picture isn't what the page draws; None: it is."""
    with open(f"{TOP}/{SHOWN}", "rb") as file:
        shown = file.read()
    if sorted(set(re.findall(rb"http[^\"' ]*", shown))) != [it.encode() for it in LANGUAGE]:
        return f"{SHOWN} has other addresses"
    difference = cases.first_difference(drawn(), shown)
    return f"{difference} (tests/pages/still.py > {SHOWN} writes it)" if difference else None


def tests():
    return [Test(f"still: {SHOWN}", fault_of_picture if shutil.which("node") else None)]


if __name__ == "__main__":
    sys.stdout.buffer.write(drawn())
