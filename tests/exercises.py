"""The exercises of the lessons: goals and questions, as comments of scripts (page/tasks.js).

Each lesson has exercises 1 to 3, each with goals or a question. The code that the page uses decides
under node, on what the program answers: the goals of an exercise aren't all met at the start, the
script meets them, and of a question's options just one holds at the start. The attempts of
tests/attempts.txt say which further ones are right, and at least two that are wrong, each without
a refused line.
"""
import functools
import json
import os
import re
import shutil
import subprocess
import tempfile
import threading

import lesson_texts
from pages import build
from trials import Test

TOP = os.path.dirname(os.path.dirname(os.path.realpath(__file__)))
# The numbers of a lesson's exercises, and how many wrong attempts each has at least
NUMBERS, FEWEST_WRONG = {1, 2, 3}, 2
OF_EXERCISE = re.compile(r"^(\S+) (\d)$")
ATTEMPT = re.compile(r"^  (wrong|right): (.+)$")
NO_TOWER = "tower 2\nsafe 0\n"


def text_of(path):
    with open(f"{TOP}/{path}", encoding="ascii") as file:
        return file.read()


def attempts():
    """Returns the attempts at each exercise, by script and number: whether it is right, what it is,
    and lines."""
    found, its = {}, []
    for line in text_of("tests/attempts.txt").partition("\n\n")[2].splitlines():
        exercise, attempt = OF_EXERCISE.match(line), ATTEMPT.match(line)
        if exercise:
            its = found.setdefault((exercise[1], int(exercise[2])), [])
        elif attempt:
            its.append((attempt[1] == "right", attempt[2], []))
        else:
            its[-1][2].extend(lesson_texts.written_out(line.strip()))
    return found


def tower_text_of(name):
    """Returns the text of a script's tower or bench file, or of no tower if it has neither."""
    kinds = [it for it in ("tower", "bench") if os.path.exists(f"{TOP}/{name}.{it}")]
    return text_of(f"{name}.{kinds[0]}") if kinds else NO_TOWER


def scripts():
    """Returns the names of the scripts of lessons that have a goal or a question."""
    found = sorted(
        f"lessons/{folder}/{it[:-len('.script')]}"
        for folder in lesson_texts.lessons()
        for it in os.listdir(f"{TOP}/lessons/{folder}")
        if it.endswith(".script")
    )
    return [it for it in found if re.search(r"^# (?:goal|ask)\b", text_of(f"{it}.script"), re.M)]


def judge_in_node(program, names, tried):
    """Returns what page/goals.js finds of each script and its attempts, by the script's name."""
    asked = []
    for name in names:
        attempts = [
            {"number": number, "isRight": is_right, "what": what, "lines": lines}
            for (script, number), each in tried.items()
            if script == name
            for is_right, what, lines in each
        ]
        asked.append(
            {
                "name": name,
                "tower": tower_text_of(name),
                "script": text_of(f"{name}.script"),
                "attempts": attempts,
            }
        )
    with tempfile.TemporaryDirectory() as temporary:
        build.put_modules(temporary, "goals.mjs")
        done = subprocess.run(
            ["node", f"{temporary}/goals.mjs", os.path.abspath(program), temporary],
            input=json.dumps(asked),
            capture_output=True,
            text=True,
            check=False,
        )
    if done.returncode:
        raise ValueError(f"node ended with status {done.returncode}: {done.stderr.strip()[-600:]}")
    return {it["name"]: it for it in map(json.loads, done.stdout.splitlines())}


def faults_of_lesson(folder, names, tried, found):
    """Yields what is wrong with the exercises of a lesson."""
    numbers, its = set(), [it for it in names if it.split("/")[1] == folder]
    for name in its:
        yield from (f"{name}: {it}" for it in found[name]["faults"])
        numbers.update(found[name]["exercises"])
        for number in sorted(set(found[name]["goals"])):
            wrong = [it for it in tried.get((name, number), []) if not it[0]]
            if len(wrong) < FEWEST_WRONG:
                yield f"{name}: exercise {number} has {len(wrong)} wrong attempts, fewer than {FEWEST_WRONG}"
    if numbers != NUMBERS:
        yield f"of its exercises {sorted(numbers)} have a goal or a question"


class AllJudged:
    """All scripts and attempts, which are judged once, when the first lesson asks."""

    def __init__(self, program):
        self.program, self.found, self.turn = program, None, threading.Lock()

    def judged_once(self):
        """Returns the names of the scripts, the attempts, and what is found of each script."""
        with self.turn:
            if not self.found:
                names, tried = scripts(), attempts()
                strange = [it for it, _ in tried if it not in names]
                if strange:
                    raise ValueError(f"tests/attempts.txt has {strange[0]}, which has no goal")
                self.found = names, tried, judge_in_node(self.program, names, tried)
            return self.found

    def fault_of(self, folder):
        return "; ".join(faults_of_lesson(folder, *self.judged_once())) or None


def tests(program):
    if not shutil.which("node"):
        return [Test("exercises: node isn't here", None)]
    its = AllJudged(program)
    return [
        Test(f"exercises of lessons/{it}", functools.partial(its.fault_of, it))
        for it in lesson_texts.lessons()
    ]
