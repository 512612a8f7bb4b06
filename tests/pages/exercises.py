"""The exercises of the lessons in the page: each is begun, predicted and solved by clicks, as its
script solves it."""
import json
import re

import cases
from pages.opened_page import LESSON_DRAWN, expect, expect_equal

STEP = re.compile(r"(insert|replace) (\w+) (\d+) (.+)")
MET = "[...document.querySelectorAll('#task [data-met]')].map((it) => it.dataset.met)"
DONE = "document.querySelector('#task [role=status]')"


def move_to(page, branch, place):
    """Moves to a place of a branch."""
    if not page.place().startswith(f"{branch},"):
        page.click(f'.panel[data-branch="{branch}"] h2 [data-select]')
    page.fill("#place", str(place))
    expect(
        page.place().startswith(f"{branch}, place {place} "),
        f"{page.place()} isn't {branch} {place}",
    )


def insert(page, branch, place, step):
    move_to(page, branch, place)
    process = step.split(" ")[1]
    page.click(f'.actor[data-process="{process}"] [data-action="{step}"]')


def replace(page, branch, place, step):
    move_to(page, branch, place)
    # Clicks on the step itself, even if it is scrolled out of sight
    chip = json.dumps(f'.panel[data-branch="{branch}"] .chip[data-step="{place}"]')
    page.until(f"document.querySelector({chip})")
    page.value(
        f"document.querySelector({chip}).dispatchEvent(new MouseEvent('click', {{ bubbles: true }}))"
    )
    page.until("!document.querySelector('#menu').hidden", f"step {place} opens no menu")
    page.fill("#menu input", step)
    page.click("#menu form button")


def carry_out(page, command):
    """Does by clicks what a line of a script does; a look needs none, as the page shows it
    anyway."""
    name, *words = command.split(" ")
    step = STEP.fullmatch(command)
    if step:
        kind, branch, place, text = step.groups()
        (insert if kind == "insert" else replace)(page, branch, int(place), text)
    elif name == "fork":
        move_to(page, words[0], int(words[1]))
        page.button(f"fork {words[0]}")
        page.fork(words[2])
    elif name == "detach":
        page.button(command)
    elif name == "break":
        page.fill('[data-key="break"]', command[len("break ") :])
    elif name == "seek":
        page.button("seek")
    elif name == "go":
        move_to(page, words[0], int(words[1]))


def commands(path):
    lines = cases.read(path).decode().splitlines()
    return [it.partition(" ")[2] for it in lines if it and not it.startswith("#")]


def open_own_lesson(page):
    """Opens the lesson of the open document, and waits until its pictures are drawn."""
    page.do("study")
    page.until(
        f"document.body.classList.contains('studying') && {LESSON_DRAWN}", "the lesson isn't shown"
    )


def predict(page, begin):
    """Chooses the first option of each question; the program then marks the one that is right."""
    for number in range(page.count("#task fieldset")):
        page.value(
            f"document.querySelectorAll('#task fieldset')[{number}].querySelector('input').click()"
        )
        page.wait()
        expect_equal(
            page.value(
                f"document.querySelectorAll('#task fieldset')[{number}].querySelectorAll('.met').length"
            ),
            1,
            begin,
        )


def solve(page, folder, begin):
    """Begins an exercise, and does by clicks what its script does."""
    name = begin.split()[2]
    page.click(f'[data-begin="{begin}"]')
    page.until("!document.body.classList.contains('studying')", f"{begin} isn't begun")
    page.wait()
    predict(page, begin)
    goals = page.value(MET)
    expect(not goals or "false" in goals, f"{begin} is solved at its start")
    for command in commands(f"lessons/{folder}/{name}.script") if goals else []:
        # A break stops before what the script does next
        carry_out(page, command)
        if page.value(f"Boolean({DONE})"):
            break
    expect(page.value(f"Boolean({DONE})"), f"{begin} isn't solved: {page.value(MET)}")
    expect(all(it == "true" for it in page.value(MET)), f"{begin} is done with goals unmet")


def solved_by_clicks(page):
    """Each exercise is unmet at its start, and done once it is solved by clicks; its lesson then
    says so."""
    page.open()
    open_own_lesson(page)
    folders = page.value(
        "[...document.querySelectorAll('#study-list [data-study]')].map((it) => it.dataset.study)"
    )
    expect_equal(len(folders), 10)
    for folder in folders:
        page.click(f'#study-list [data-study="{folder}"]')
        page.until(
            f"{LESSON_DRAWN} && document.querySelector('#study-list [data-study=\\'{folder}\\'][aria-current]')"
        )
        begins = page.value(
            "[...document.querySelectorAll('[data-begin]')].map((it) => it.dataset.begin)"
        )
        expect_equal(sorted({it.split()[1] for it in begins}), ["1", "2", "3"], folder)
        for begin in begins:
            solve(page, folder, begin)
            open_own_lesson(page)
        expect_equal(page.count(".begin .met"), 3, folder)


def wrong_choice(page):
    """A prediction that isn't right is marked, with the one that is; until then what reads give is
    covered."""
    page.open()
    open_own_lesson(page)
    page.until(
        "document.querySelector('article.covered .verdict')", "a lesson's picture isn't covered"
    )
    expect_equal(
        page.value("getComputedStyle(document.querySelector('article .verdict')).visibility"),
        "hidden",
    )
    page.fill("#prediction", "0 or 1")
    page.click("[data-look]")
    expect_equal(page.count("article.covered"), 0)
    expect("0 or 1" in page.text(".predicted"), "the prediction isn't next to the answers")
    page.click('[data-begin="01-safe-bit 1 safe"]')
    page.until("document.body.classList.contains('covered')")
    page.value("document.querySelector('#task fieldset input').click()")
    page.until("!document.body.classList.contains('covered')")
    page.wait()
    expect("Not as you predicted" in page.text("#task fieldset"), page.text("#task"))
    expect_equal(page.count("#task fieldset .met"), 1)
    # The exercise has joined already
    expect(page.value("document.querySelector('#task [data-line-of=join]').disabled"), "join")
    for command in ("break chosen", "seek"):
        page.click(f'#task [data-line-of="{command}"]')
    page.until(DONE)
    page.click("#task [data-again]")
    page.until("document.querySelector('#task fieldset input:not(:disabled)')")
    page.wait()
    page.click("#task [data-answer]")
    expect(
        page.value("document.querySelector('article > details').open"), "the answers aren't open"
    )


def goals_in_words(page):
    """No goal of a lesson is shown as words of a page."""
    page.open()
    texts = page.value(
        "globalThis.towerbench.contents.lessons.flatMap((it) => "
        "it.exercises.flatMap((each) => each.parts.flatMap((part) => part.lines)))"
    )
    goals = [it for it in texts if it.startswith("# goal")]
    # A document shows at most 40 goals: MOST of page/tasks.js
    expect(29 <= len(goals) <= 40, f"there are {len(goals)} goals")
    page.open("tower 2\nsafe 0\n", "\n".join([*goals, "0 join"]) + "\n")
    expect_equal(page.count("#task .goals li"), len(goals))
    expect_equal(
        [it for it in page.texts("#task .goals li") if "the page " in it or "can't be read" in it],
        [],
    )
