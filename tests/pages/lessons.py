"""Lessons in the page."""
import json
import re

import cases
from pages.opened_page import LESSON_DRAWN, expect, expect_equal

COMMENT, SOLUTION = "# ", "/your-own"
DATA = re.compile(r"# (?:goal|ask|option)(?: \d+)?: ")


def first_caption(lines):
    """Returns the comments that a script begins with, without its goals and questions."""
    found = []
    for line in lines:
        if not line.startswith("#"):
            break
        if not DATA.match(line):
            found.append(line[len(COMMENT) :])
    return " ".join(found)


def lessons(page, names):
    """Each lesson is in the menu, begins before its first line with its caption, and can be played
    to its end."""
    found = [
        it
        for it in names
        if it.startswith("lessons/") and it.count("/") == 2 and not it.endswith(SOLUTION)
    ]
    for name in found:
        script = cases.read(f"{name}.script").decode()
        page.open()
        page.do("chooseOpen")
        page.click(f'#open-dialog [data-open="{name[len("lessons/"):]}"]')
        page.until("!document.querySelector('#lesson').hidden", f"{name} isn't begun")
        page.wait()
        if script.startswith(COMMENT):
            expect_equal(page.text("#caption"), first_caption(script.splitlines()), name)
        page.do("lessonNext")
        page.do("lessonEnd")
        expect_equal(page.script().strip(), script.strip(), name)
        expect(
            page.value("document.querySelector('#lesson-next').disabled"),
            f"{name} goes on after its end",
        )
    expect(len(found) >= 9, f"there are only {len(found)} lessons")


def lesson_links(page):
    """An address that ends in #lesson-5 opens lesson 5, before and after the page has begun, and
    again once it is loaded again."""
    current = "document.querySelector('#study-list [aria-current]')?.dataset.study"
    page.browser.open(f"{page.address}#lesson-5")
    page.wait()
    page.until(f"{current} === '05-new-old-inversion'", "lesson 5 isn't open")
    page.value("void (location.hash = '#lesson-6')")
    page.until(f"{current} === '06-two-readers'", "lesson 6 isn't open")
    page.until("location.hash === '#lesson-6'")
    shown = (
        "[...document.querySelectorAll('header [data-do], #save')].filter((it) => it.offsetParent)"
    )
    named = f"{shown}.map((it) => it.dataset.do || it.id)"
    expect_equal(page.value(named), ["chooseTower", "study", "chooseOpen", "theme", "help"])
    again = page.value("location.href")
    page.browser.open(again)
    page.wait()
    page.until(f"{current} === '06-two-readers'", "lesson 6 isn't open again")
    page.do("studyClose")
    page.until("location.hash.startsWith('#%5B')", "the address still ends in the lesson's number")
    page.browser.open(f"{page.address}#lesson-77")
    page.wait()
    expect_equal(page.said(), "This page has no lesson 77.")


def own_exercises(page, names):
    """A lesson's own exercise opens as its tower with an empty script: its solution isn't in the
    page."""
    for name in [it for it in names if it.endswith(SOLUTION)]:
        tower = cases.read(f"{name}.tower").decode()
        page.open()
        page.do("chooseOpen")
        page.click(f'#open-dialog [data-open="{name[len("lessons/"):]}"]')
        page.until(
            f"document.querySelector('#file').value === {json.dumps(tower)}", f"{name} isn't opened"
        )
        page.wait()
        expect_equal(page.script(), "", name)
        expect(page.value("document.querySelector('#lesson').hidden"), f"{name} is played")


def a_lesson_line_by_line(page):
    """Lesson 1 is played line by line: each line is answered as its expected output has it."""
    name = "lessons/01-safe-bit/safe"
    lines = [
        it
        for it in cases.read(f"{name}.script").decode().splitlines()
        if it and not it.startswith("#")
    ]
    page.open()
    page.do("chooseOpen")
    page.click('#open-dialog [data-open="01-safe-bit/safe"]')
    page.until("!document.querySelector('#lesson').hidden")
    played, captions = [], []
    for _ in lines:
        page.do("lessonNext")
        played.append((page.text("#played code"), page.text("#played pre")))
        captions.append(page.text("#caption"))
    expect_equal([line for line, _ in played], lines)
    # A caption belongs to the lines below it
    at = lines.index("0 fork other 5 same")
    expect(
        captions[at].startswith("The same read while 0")
        and captions[at - 1].startswith("The other answer"),
        captions,
    )
    wanted = cases.read(f"{name}.expected").decode().splitlines()
    expect_equal(
        [line for _, answer in played for line in answer.split("\n")], [it.strip() for it in wanted]
    )


def lesson_on_paper(page):
    """While a lesson is open it is what is printed, with its pictures and without its buttons."""
    page.open()
    page.do("study")
    page.until(LESSON_DRAWN)
    page.wait()
    page.browser.ask("Emulation.setEmulatedMedia", media="print")
    shown = page.value(
        "['#study-text', '#study-text svg', '#print', '#study-list', '.close-study', '.begin'].map((it) => "
        "document.querySelector(it).checkVisibility())"
    )
    expect_equal(shown, [True, True, False, False, False, False])
