"""The panel of all answers: what lessons ask, what a read could have given, predictions, and what
is too much to search.

Which lists are possible, and how short their schedules are, is from reasoning about the towers:
lesson 5's four and three lists, say.
"""
import json
import re

from pages.opened_page import LESSON_DRAWN, TRIES, expect, expect_equal
from pages.reader import Reader

# a search takes at most 120 seconds for each of three limits
MOST_TRIES = 10 * TRIES
FOUND = "document.querySelector('[data-find-again]')"
# each lesson's question: the register, each list that can be guessed or found, and whether it has a
# schedule
ASKED = {
    "05-new-old-inversion": {
        "unary 2 1 0": {
            "p0 written p1 0 0": True,
            "p0 written p1 0 1": True,
            "p0 written p1 1 0": True,
            "p0 written p1 1 1": True,
        },
        "stamped 2 1": {
            "p0 written p1 0 0": True,
            "p0 written p1 0 1": True,
            "p0 written p1 1 0": False,
            "p0 written p1 1 1": True,
        },
    },
    "06-two-readers": {
        "regular 2 0": {
            "p0 written p1 0 p2 0": True,
            "p0 written p1 1 p2 0": True,
            "p0 written p1 0 p2 1": False,
            "p0 written p1 1 p2 1": True,
        }
    },
    "08-matrix": {
        "matrix 2 2 1 2": {
            "p0 written 0 p1 written": True,
            "p0 written 1 p1 written": False,
            "p0 written 1 p1 spent-matrix": True,
            "p0 spent-matrix 0 p1 written": True,
        }
    },
}
ROWS = """Object.fromEntries([...document.querySelectorAll('#answers [data-answers]')].map((it) =>
  [it.dataset.answers, it.localName === 'button']))"""


def find(page):
    page.click("[data-find]")
    page.until(FOUND, f"nothing is found: {page.text('#answers')}")
    page.wait()


def open_lesson(page, folder):
    page.do("study")
    page.click(f'#study-list [data-study="{folder}"]')
    page.until(
        f"{LESSON_DRAWN} && document.querySelector('#study-list [data-study=\\'{folder}\\'][aria-current]')"
    )


def lessons_ask(page, program):
    """Lessons 5, 6 and 8 ask for all answers: each possible list loads as a branch that gives it,
    and "no schedule" says what it means."""
    page.open()
    for folder, towers in ASKED.items():
        for line, wanted in towers.items():
            open_lesson(page, folder)
            page.click(f'#study-text [data-ask="{line}"]')
            page.until(f"document.querySelector('#tower-line').textContent === {json.dumps(line)}")
            page.wait()
            find(page)
            expect_equal(page.value(ROWS), wanted, line)
            expect_equal(page.count("#answers .no-schedule"), int(False in wanted.values()), line)
            for number, key in enumerate(it for it, is_there in wanted.items() if is_there):
                page.click(f'#answers [data-answers="{key}"]')
                page.until(
                    f"document.querySelector('#at').textContent.startsWith('answer{number + 1 if number else ''},')"
                )
                page.wait()
                expect_equal(outcomes_in_focus(page, program), key, line)


def outcomes_in_focus(page, program):
    """Returns what the native program says that the schedule in focus gives: each process's values,
    refusals and writes."""
    name, length = re.fullmatch(r"(\w+), place (\d+) of \2", page.place()).groups()
    tower, script = page.document()
    page.click("[data-tab=answers]")
    lines = Reader(program, tower, script).ask(f"history {name} {length}")
    found = {}
    for line in lines[f"history {name} {length}"]:
        _, process, kind, *words = line.split()
        if kind in ("return", "refused"):
            found.setdefault(process, []).append("-".join(words))
    return " ".join(f"{it} {' '.join(found[it])}" for it in sorted(found))


def predictions(page, program):
    """A prediction is marked right or wrong, more than sixteen lists are grouped by reader, and a
    process may stop."""
    page.open("tower 2\nregular 1 0\n", "0 join\n")
    page.click("[data-tab=answers]")
    expect_equal(page.count("#answers [data-guess]"), 4)
    for key in ("p0 written p1 0 0", "p0 written p1 0 1"):
        page.click(f'#answers [data-guess="{key}"] input')
    find(page)
    expect_equal(page.count("#answers .list .met"), 2)
    expect_equal(page.count("#answers .list .wrong"), 2)
    expect_equal(page.texts("#answers .odd"), [" new-old inversion"])
    for _ in range(3):
        page.click('#answers [data-more="p1 r"]')
    expect_equal(page.count("#answers [data-guess]"), 0)
    page.fill("#answers [data-guess-number]", "12")
    find(page)
    expect("You predicted 12." in page.text("#answers"), page.text("#answers"))
    expect(page.count("#answers [data-group]") > 16, "the lists aren't grouped")
    page.click('#answers [data-group="p1 1 0 1 0 1"]')
    page.until("document.querySelector('#at').textContent.startsWith('answer,')")
    page.wait()
    expect_equal(outcomes_in_focus(page, program), "p0 written p1 1 0 1 0 1")
    page.do("undo")
    expect_equal(page.branches(), ["main"])
    for index in (4, 3, 2, 1):
        page.click(f'#answers [data-less="p1 {index}"]')
    page.click('#answers [data-may-stop="0"]')
    find(page)
    expect_equal(
        page.value(ROWS),
        {
            "p0 written p1 0": True,
            "p0 written p1 1": True,
            "p0  p1 0": True,
            "p0  p1 1": True,
        },
    )


def a_read(page):
    """A selected read says which values it could have given, and each has a schedule."""
    page.open("tower 2\nunary 3 1 0\nw 0 2\nr 1\n" + "g 0 0\n" * 4 + "g 1 0\n" * 6, "0 join\n")
    page.key("End")
    page.click(".panel.focus .operation.read .bar")
    page.do("values")
    page.until(FOUND)
    page.wait()
    expect_equal(
        page.value(
            "[...document.querySelectorAll('#answers [data-value]')].map((it) => it.dataset.value).sort()"
        ),
        ["0", "2"],
    )


def too_many(page):
    """Too many states are a sentence that says what to leave out; a search can be stopped."""
    page.open("tower 2\nunary 8 4 0\n", "0 join\n")
    page.click("[data-tab=answers]")
    for process in (1, 2, 2, 3, 3, 4, 4):
        page.click(f'#answers [data-more="p{process} r"]')
    for wanted in ("the search was stopped.", "leave out "):
        page.click("[data-find]")
        page.until("document.querySelector('[data-find-stop]')")
        if wanted.startswith("the"):
            page.click("[data-find-stop]")
        page.until("document.querySelector('[data-find]')", tries=MOST_TRIES)
        said = page.text("#answers-said")
        expect(wanted in said.lower(), said)
