"""Question files: what `towerbench-answers` says of each.

- examples/NAME.question comes with NAME.lists: each `answers` line, a colon, and the number of
  steps of its schedule. Which of several shortest schedules is listed isn't said; `towerbench` runs
  each (tests/answers.py).
- tests/questions/faults.txt has a faulty file in each line, and its fault.
- the table of docs/guide/answers.md has in each row a question, answers and the least number of
  steps, or `none`.
The current folder has to be the repository's top.
"""
import functools
import glob
import re
import subprocess
import tempfile

import answers
from commands import run

EXAMPLES = "examples"
FAULTS = "tests/questions/faults.txt"
GUIDE = "docs/guide/answers.md"
ROW = re.compile(r"^\| [^|]+ \| `([^`|]+)` \| `([^`|]+)` \| (\d+|none)[^|]*\|$", re.M)
# What a fault's line begins with, and the status after a fault
NAME, FAULTED = "towerbench-answers: ", 1


def read(path):
    with open(path, encoding="ascii") as file:
        return file.read()


def examples():
    return sorted(it[: -len(".question")] for it in glob.glob(f"{EXAMPLES}/*.question"))


def lengths(listed):
    """Returns the number of steps for each list of answers."""
    return {
        f"answers {answers.spelled(answers.key_of(it.answers))}": len(it.steps) for it in listed
    }


def without_comments(text):
    """Returns a question's lines, separated by semicolons."""
    return "; ".join(it for it in text.splitlines() if it and not it.startswith("#"))


def fault_of_example(bench, program, name):
    """Returns what is wrong with what is listed for an example, or None."""
    text = read(f"{name}.question")
    listed = answers.ask(program, text)
    lines = [it.rsplit(": ", 1) for it in read(f"{name}.lists").splitlines()]
    if lengths(listed) != {head: int(count) for head, count in lines}:
        return f"the lists are {lengths(listed)}"
    return answers.fault_of_own(bench, answers.question_of(without_comments(text)), listed)


def faults():
    """Returns the faulty files: of each its name, its text and its fault."""
    found = []
    for line in read(FAULTS).splitlines():
        if line.startswith("#"):
            continue
        name, text, fault = line.split(" | ")
        text = text.replace("; ", "\n").replace("\\t", "\t") + "\n"
        found.append((name, re.sub("~\n$", "", text), fault))
    return found


def fault_of_faulty(program, text, fault):
    """Returns what is wrong with what the program says of a faulty file, or None."""
    with tempfile.NamedTemporaryFile("w", encoding="ascii") as file:
        file.write(text)
        file.flush()
        it = run([program, file.name])
    if (it.returncode, it.stdout, it.stderr) != (FAULTED, "", f"{NAME}{fault}\n"):
        return f"status {it.returncode}: {it.stdout[:100]!r}, {it.stderr!r}"
    return None


# Words, the status, what standard output begins with, and what standard error says.
WORDS = (
    ([], 0, "towerbench ", ""),
    (["--help"], 0, "towerbench ", ""),
    (["-h"], 0, "towerbench ", ""),
    (["examples/nothing"], 1, "", f"{NAME}file unreadable\n"),
    (["examples"], 1, "", f"{NAME}file unreadable\n"),
    (["/dev/zero"], 1, "", f"{NAME}file too long\n"),
    (["--most"], 2, "", f"{NAME}usage: towerbench-answers FILE\n"),
    (["a", "b"], 2, "", f"{NAME}usage: towerbench-answers FILE\n"),
)


def fault_of_words(program, words, status, begins, errors):
    """Returns what is wrong with what the program does on words, or None."""
    it = run([program, *words])
    is_right = it.stdout.startswith(begins) if begins else not it.stdout
    if (it.returncode, it.stderr) != (status, errors) or not is_right:
        return f"status {it.returncode}: {it.stdout[:100]!r}, {it.stderr!r}"
    return None


def fault_of_full(program):
    """Returns what is wrong with what the program says if its output can't be written, or None."""
    with open("/dev/full", "wb") as full:
        it = subprocess.run(
            [program, f"{examples()[0]}.question"], stdout=full, stderr=subprocess.PIPE, check=False
        )
    wanted = f"{NAME}write failed\n".encode()
    return None if (it.returncode, it.stderr) == (FAULTED, wanted) else repr(it)


def fault_of_row(towerbench, answers_program, question, wanted, least):
    """Returns what is wrong with a row of the guide's table, or None."""
    its = answers.question_of(question)
    listed = answers.ask(answers_program, its.text)
    found = [it for it in listed if is_wanted(wanted, it.answers)]
    found_least = str(min((len(it.steps) for it in found), default="none"))
    if found_least != least:
        return f"{wanted} has {found_least} steps"
    return answers.fault_of_own(towerbench, its, listed)


def is_wanted(wanted, its):
    """Returns whether answers are those of some processes, as `p1 1 0`; `*` is any outcome."""
    for part in re.split(r" (?=p\d)", wanted):
        process, *outcomes = part.replace(" none", "").split()
        found = its[int(process[1:])]
        if len(found) != len(outcomes) or any(a not in ("*", b) for a, b in zip(outcomes, found)):
            return False
    return True


def rows():
    """Returns the rows of the guide's table: question, answers, and least number of steps."""
    return ROW.findall(read(GUIDE))


def tests(bench, program):
    """Returns the tests by their names, each a call that returns what is wrong, or None."""
    found = {it: functools.partial(fault_of_example, bench, program, it) for it in examples()}
    for name, text, fault in faults():
        found[f"faulty {name}"] = functools.partial(fault_of_faulty, program, text, fault)
    for case in WORDS:
        found[f"words {case[0]}"] = functools.partial(fault_of_words, program, *case)
    found["a full device"] = functools.partial(fault_of_full, program)
    for row in rows():
        found[f"row {row[0]}, {row[1]}"] = functools.partial(fault_of_row, bench, program, *row)
    return found
