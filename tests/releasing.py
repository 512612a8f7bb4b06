"""Tests of what makes a release, in scratch folders: versions, two builds that are compared, the
release and its sums.

Nothing is built: what builds is a substitute.
"""
import base64
import contextlib
import gzip
import io
import json
import os
import shutil
import subprocess
import tempfile

from cases import expect_equal
from scratch import TOP, loaded, write_text
from trials import Test

PAGE = """<html><script type="application/json" id="data">{}</script>
<script type="text/plain" id="program">{}</script></html>
"""
SAID = {"version": "1.2.3", "commit": "0123456789ab", "kit": "kit logic 0123456789abcdef"}
# In place of tools/twice: it puts what one build has into FOLDER/one.
BUILDS = """#!/bin/sh
one=$1/one
mkdir -p "$one/crates/program/out"
cp "$(dirname "$0")/../page" "$one/towerbench.html"
echo program > "$one/crates/program/out/program"
"""
TOOLS = ("release", "releases.py", "version.py", "side_by_side.py")


def page_of(module):
    data = json.dumps({**SAID, "sources": {"program": "a sum"}})
    return PAGE.format(data, base64.b64encode(gzip.compress(module, mtime=0)).decode())


def versions():
    expect_equal(loaded("tools/version.py").faults(), [], "places of the version")


def other_order():
    """The second build begins with what the fewest wait for, and works by one processor."""
    side, order = loaded("tools/side_by_side.py"), []
    side.IS_BACKWARD, side.lanes, side.processors = True, lambda: 1, lambda: 4

    def task(name, waits, lines):
        return side.Task(waits, lines, 4, lambda jobs, _: (order.append((name, jobs)), True)[1])

    tasks = {"low": task("low", [], 5), "over": task("over", ["low"], 5), "own": task("own", [], 1)}
    side.run_side_by_side(tasks, lambda *_: None)
    expect_equal(order, [("own", 1), ("low", 1), ("over", 1)], "the order")


def two_builds():
    """One changed byte in any file that is compared is a difference, and so is a file that isn't
    there."""
    twice = loaded("tools/twice")
    with tempfile.TemporaryDirectory() as temporary:
        one, other = f"{temporary}/one", f"{temporary}/other"
        for path in twice.products():
            write_text(f"{one}/{path}", f"bytes of {path}\n")
            write_text(f"{other}/{path}", f"bytes of {path}\n")
        expect_equal(twice.differences(one, other), [], "equal builds")
        for path in twice.products():
            write_text(f"{other}/{path}", f"bytes of {path}!")
            expect_equal(
                [it.split(":")[0] for it in twice.differences(one, other)], [path], "a changed byte"
            )
            with contextlib.redirect_stdout(io.StringIO()):
                expect_equal(twice.main(["--compare", one, other]), 1, "its status")
            os.remove(f"{other}/{path}")
            expect_equal(len(twice.differences(one, other)), 1, "a file less")
            write_text(f"{other}/{path}", f"bytes of {path}\n")


def put_release(releases, folder):
    write_text(f"{folder}/towerbench.html", page_of(b"module"))
    write_text(f"{folder}/towerbench", "program")
    write_text(f"{folder}/SHA256SUMS", releases.sum_lines(releases.sums_of(folder)))


def sums_of_a_release():
    tried = loaded("tests/release")
    with tempfile.TemporaryDirectory() as folder:
        put_release(tried.releases, folder)
        lines = tried.releases.read("SHA256SUMS", folder).decode().splitlines()
        names = [it.split("  ")[1] for it in lines]
        expect_equal(names, ["program.wasm", "towerbench", "towerbench.html"], "summed")
        expect_equal(
            tried.releases.modules_of(page_of(b"module")), {"program": b"module"}, "the module"
        )
        expect_equal(tried.fault_of_sums(folder), None, "its sums")
        expect_equal(tried.fault_of_data(folder), None, "what it says")
        for name, text in (
            ("towerbench", "Program"),
            ("towerbench.html", page_of(b"Module")),
            ("more", ""),
            ("SHA256SUMS", f"{lines[0]}\n"),
        ):
            put_release(tried.releases, folder)
            write_text(f"{folder}/{name}", text)
            expect_equal(bool(tried.fault_of_sums(folder)), True, f"{name} is changed")
            os.remove(f"{folder}/{name}")
        write_text(
            f"{folder}/towerbench.html", page_of(b"").replace("0123456789ab", "0123 with changes")
        )
        expect_equal(bool(tried.fault_of_data(folder)), True, "from changes")


def program_of_another_system():
    tried = loaded("tools/handout")
    with tempfile.TemporaryDirectory() as temporary:
        tried.releases.FOLDER = f"{temporary}/release"
        write_text(f"{temporary}/release/towerbench.html", page_of(b"module"))
        write_text(f"{temporary}/release/towerbench", "of another system\n", 0o755)
        os.makedirs(f"{temporary}/folder")
        with contextlib.redirect_stderr(io.StringIO()) as said:
            needs = tried.put_released(f"{temporary}/folder", temporary)["needs"]
        expect_equal(
            (needs, os.listdir(f"{temporary}/folder")), ("", ["towerbench.html"]), "left out"
        )
        expect_equal("don't run here" in said.getvalue(), True, "said")


class Repository:
    """A scratch repository with what tools/release needs, and substitutes for the rest."""

    def __init__(self, top):
        self.top = top
        for path, text in loaded("tools/version.py").PLACES.items():
            write_text(f"{top}/{path}", text.format("1.2.2"))
        write_text(f"{top}/VERSION", "1.2.2\n")
        write_text(f"{top}/CHANGELOG.md", "# Changes\n\n## 1.2.2\n")
        write_text(f"{top}/.ci/turn", "7\n")
        write_text(f"{top}/page", page_of(b"module"))
        write_text(f"{top}/tools/twice", BUILDS, 0o755)
        for it in TOOLS:
            shutil.copy(f"{TOP}/tools/{it}", f"{top}/tools")
        self.git("init", "-q", "-b", "main")
        self.git("config", "user.name", "a")
        self.git("config", "user.email", "a@b")
        self.commit_all("First")

    def text(self, path):
        with open(f"{self.top}/{path}", encoding="utf-8") as file:
            return file.read()

    def git(self, *words):
        how = {"cwd": self.top, "stdout": subprocess.PIPE, "text": True, "check": True}
        return subprocess.run(["git", *words], **how).stdout.strip()

    def commit_all(self, message):
        self.git("add", "-A")
        self.git("commit", "-q", "-m", message)

    def refuses(self, wanted):
        """Checks that 1.2.3 isn't released, for a reason that begins with this text."""
        done = subprocess.run(
            [f"{self.top}/tools/release", "1.2.3"], capture_output=True, check=False
        )
        said = done.stderr.decode().removeprefix("release: ")
        expect_equal((done.returncode, said[: len(wanted)]), (1, wanted), wanted)


def release_in_order():
    with tempfile.TemporaryDirectory() as top:
        its = Repository(top)
        write_text(f"{top}/page", page_of(b"changed"))
        its.refuses("something isn't committed")
        its.git("checkout", "-q", "page")
        its.refuses("CHANGELOG.md has to begin with 1.2.3")
        write_text(f"{top}/CHANGELOG.md", "# Changes\n\n## 1.2.3\n\n## 1.2.2\n")
        its.commit_all("Changes")
        its.refuses("the gate hasn't passed here")
        expect_equal((its.text("VERSION"), its.text(".ci/turn")), ("1.2.3\n", "8\n"), "versions")
        expect_equal(its.git("log", "-1", "--format=%s"), "Version 1.2.3", "committed")
        its.git("update-ref", "refs/gate/passed", "HEAD~1")
        its.refuses("the gate passed on")
        its.git("update-ref", "refs/gate/passed", "HEAD")
        subprocess.run([f"{top}/tools/release", "1.2.3"], check=True)
        files = ["release/SHA256SUMS", "release/towerbench", "release/towerbench.html"]
        shown = its.git("show", "--name-only", "--format=%s").split()
        expect_equal(shown, ["Release", "1.2.3", *files], "one commit")
        expect_equal(its.git("status", "--porcelain"), "", "nothing is left")
        its.refuses("the release of 1.2.3 is there already")


def tests():
    its = (
        versions,
        other_order,
        two_builds,
        sums_of_a_release,
        program_of_another_system,
        release_in_order,
    )
    return [Test(f"release: {it.__name__.replace('_', ' ')}", it) for it in its]
