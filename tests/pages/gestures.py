"""Everything that a person can do with the page is done once, by clicks, by keys or with files."""
import json
import pathlib
import re
import tempfile
import xml.dom.minidom

import cases
from pages.chromium import CONTROL
from pages.opened_page import expect, expect_equal
from pages.reader import Reader, program_answers

LESSON = "lessons/01-safe-bit/safe"
ASKED = "A write overlaps p1's read of bit 0. Give 0 or 1?"
ONE_READ = "tower 2\nsafe 0\nw 0 1\ng 0 0\nr 1\ng 1 0\n"
BEFORE_ITS_END = "0 join\n0 go main 4\n"
PAGES = re.compile(r"^0: (?:bits|history|verdict) .*\n(?:  .*\n)+", re.M)


def first_screen(page):
    """A read that overlaps a write is about to end; its choice is explained, and the other one is
    tried next to it."""
    page.open()
    expect_equal(page.said(), ASKED)
    footer = page.text("footer")
    expect(
        re.search(
            r"proved sources.*tested, not proved.*Version [0-9.]+, commit [0-9a-f]{12}.*kit \S+",
            footer,
        ),
        footer,
    )
    page.button("p1 g 1 0")
    expect(
        page.said().startswith("p1's read returned 0. Fresh: no write had returned"), page.said()
    )
    expect_equal(page.count(".operation.lit"), 1)
    page.button("other")
    expect_equal(page.place(), "other, place 5 of 5")
    expect("Overlap: write 1" in page.said(), page.said())
    expect_equal(page.branches(), ["main", "other"])


def lesson_by_clicks(page, program):
    """Lesson 1 built by clicks: its pages are the lesson's, and undo takes back what redo brings
    again."""
    page.open()
    page.choose_tower("safe", 0)
    for key in ("p0 w 0 1", "p0 g 0 0", "p1 r 1", "p1 g 1 0", "p1 g 1 0", "p0 g 0 0"):
        page.button(key)
    page.fill('[data-key="break"]', "chosen")
    page.key("Home")
    page.button("seek")
    expect_equal(page.place(), "main, place 5 of 6")
    page.do("left")
    page.button("fork main")
    page.fork("other")
    page.button("p1 g 1 1")
    page.button("fork other")
    page.fork("same")
    page.button("detach same")
    page.click('.panel[data-branch=same] .chip[data-step="0"]')
    page.fill("#menu input", "w 0 0")
    page.click("#menu form button")
    page.wait()
    expect_equal(page.texts("#tree .verdict text"), ["\u25cf 0", "\u25d0 1", "\u25b2 1"])
    tower, script = page.document()
    looks = [
        line
        for line in cases.read(f"{LESSON}.script").decode().splitlines()
        if re.match("0 (bits|history|verdict) ", line)
    ]
    made = program_answers(program, tower, script + "".join(f"{look}\n" for look in looks))
    expect_equal(
        PAGES.findall(made)[-len(looks) :], PAGES.findall(cases.read(f"{LESSON}.expected").decode())
    )
    undo_and_redo(page, script)


def undo_and_redo(page, script):
    """Takes back all gestures, and brings them again."""
    gestures = 0
    while not page.value("document.querySelector('#undo').disabled"):
        page.do("undo")
        gestures += 1
    expect_equal(page.script(), "0 join\n")
    expect(gestures >= 12, f"undo takes {gestures} gestures back")
    while not page.value("document.querySelector('#redo').disabled"):
        page.do("redo")
    expect_equal(page.script(), script)


def processes(page):
    """Write, read, step, 0 or 1 at a hit read, run to the end or to the first choice, stop."""
    page.open("tower 2\nregular 1 0\n")
    page.button("p0 w 0 1")
    page.button("p1 r 1")
    page.button("p0 g 0 0")
    page.button("p1 end")
    expect_equal(page.said(), ASKED)
    page.button("p1 g 1 1")
    expect(page.said().startswith("p1's read returned 1. Overlap"), page.said())
    page.button("p0 end")
    page.button("p1 x 1")
    expect_equal(page.count(".mark.stop"), 1)
    expect_equal(page.count('[data-process="1"] [data-action="r 1"]'), 0)
    expect_equal(
        [it for it in page.script().splitlines() if " insert " in it],
        [
            "0 insert main 0 w 0 1",
            "0 insert main 1 r 1",
            "0 insert main 2 g 0 0",
            "0 insert main 3 g 1 0",
            "0 insert main 4 g 1 1",
            "0 insert main 5 g 0 0",
            "0 insert main 6 x 1",
        ],
    )
    page.open("tower 2\nunary 12 1 0\n")
    page.fill('[data-key="p0 value"]', "11")
    page.button("p0 w")
    expect("0 insert main 0 w 0 11\n" in page.script(), page.script())


def steps(page):
    """What the menu of a step has: remove, replace, flip, insert before, fork, the other choice on
    a branch."""
    page.open(ONE_READ + "g 1 0\n")
    for action, step, line in (
        ("flip", 4, "replace main 4 g 1 1"),
        ("remove", 3, "remove main 3"),
        ("before", 2, "go main 2"),
        ("try", 3, "fork main 3 other"),
    ):
        page.click(f'.panel[data-branch=main] .chip[data-step="{step}"]')
        page.click(f'#menu [data-step-action="{action}"]')
        expect(f"0 {line}\n" in page.script(), f"{action}: {page.script()}")
    expect_equal(page.branches(), ["main", "other"])
    page.click('.panel[data-branch=main] .chip[data-step="2"]')
    page.click('#menu [data-step-action="fork"]')
    page.fork("third")
    expect("0 fork main 2 third\n" in page.script(), page.script())
    before = page.script()
    page.click('.panel[data-branch=third] .chip[data-step="0"]')
    page.fill("#menu input", "w 1 1")
    page.click("#menu form button")
    page.until("document.querySelector('#said').className === 'refusal'")
    expect_equal(page.script(), before, "after a refused step")


def branches(page):
    """Select, compare, show alone, jump to the first own step, detach, drop."""
    page.open(
        ONE_READ + "g 1 0\n", "0 join\n0 fork main 4 other\n0 insert other 4 g 1 1\n0 go main 0\n"
    )
    page.click(".panel[data-branch=other] [data-select]")
    expect_equal(page.place(), "other, place 0 of 5")
    page.button("own other")
    expect_equal(page.place(), "other, place 4 of 5")
    page.button("compare other")
    expect_equal(page.branches(), ["main", "other"])
    expect("differ" in page.said() or "first" in page.said(), page.said())
    page.button("compare other")
    page.button("alone other")
    expect_equal(page.branches(), ["other"])
    page.fill("#show", "all")
    about = ".panel[data-branch=other] h2 small"
    expect_equal(page.text(about), "5 steps, the first 4 shared with main")
    page.button("detach other")
    expect("0 detach other\n" in page.script(), page.script())
    # The steps are still equal, but no longer the same
    expect_equal(page.text(about), "5 steps")
    page.button("drop other")
    expect_equal(page.branches(), ["main"])


def breaks(page):
    """Breaks of each kind are set and cleared, and the cursor goes on to a hit and back."""
    page.open(ONE_READ + "g 1 1\ng 0 0\nr 1\ng 1 0\ng 1 0\n", "0 join\n0 go main 0\n")
    for kind in ("chosen", "void", "refused", "returns 1"):
        page.fill('[data-key="break"]', kind)
    page.fill('[data-key="break"]', "bit")
    page.fill("#breaks form input:last-of-type", "1")
    page.click("#breaks form button")
    expect_equal(page.text("#breaks").count("\u00d7"), 5, page.text("#breaks"))
    for kind in ("void", "bit 0 1"):
        page.button(f"clear {kind}")
    expect_equal(page.text("#breaks").count("\u00d7"), 3)
    places = []
    for key in ("seek", "seek", "back"):
        page.button(key)
        places.append(int(page.place().split()[2]))
    expect_equal(places, [5, 9, 5])
    page.key("End")
    before = page.script()
    page.key("n")
    expect_equal(page.said(), "No break is met there.")
    expect_equal(page.script(), before, "after a search without a hit")


def keyboard(page):
    """The first screen, a fork and the menu of a step by keys alone, some of them faster than
    answers come."""
    page.open(ONE_READ, BEFORE_ITS_END)
    for name in ("1", "g", "0", "ArrowLeft", "o", "ArrowUp", "0", "g", "w", "1", "e", "ArrowLeft"):
        page.browser.press(name)
    page.until("document.querySelector('#at').textContent === 'main, place 8 of 9'")
    page.wait()
    script = page.script()
    for line in (
        "0 insert main 4 g 1 0",
        "0 fork main 4 other",
        "0 insert other 4 g 1 1",
        "0 insert main 6 w 0 1",
    ):
        expect(f"{line}\n" in script, f"{line} isn't in {script}")
    page.value("document.querySelector('#scroll').focus()")
    page.key("f")
    page.until("document.querySelector('#name-dialog').open")
    page.enter()
    page.until("document.querySelector('#at').textContent.startsWith('other2,')")
    page.key("Home")
    page.enter()
    page.until("!document.querySelector('#menu').hidden && document.activeElement.closest('#menu')")
    page.key("Escape")
    expect(page.value("document.querySelector('#menu').hidden"), "the menu stays open")
    page.key("Delete", "z")
    page.key("z", modifiers=CONTROL)
    expect_equal(page.branches(), ["main", "other", "other2"])


def files(page, program):
    """What is saved is the document; files are opened by the dialog and dropped; the address holds
    the document."""
    page.open(ONE_READ, "0 join\n0 fork main 4 other\n0 insert other 4 g 1 1\n")
    with tempfile.TemporaryDirectory() as scratch:
        page.browser.ask("Browser.setDownloadBehavior", behavior="allow", downloadPath=scratch)
        folder = pathlib.Path(scratch)
        for kind, ending in (
            ("script", "script"),
            ("tower", "tower"),
            ("bench", "bench"),
            ("picture", "svg"),
        ):
            page.fill("#save", kind)
            for _ in range(200):
                if (folder / f"schedule.{ending}").exists():
                    break
                page.value("new Promise((done) => setTimeout(done, 20))")
        tower, script = page.document()
        texts = {it.suffix[1:]: it.read_text(encoding="utf-8") for it in folder.iterdir()}
        # A saved script says first on which tower it runs
        expect_equal(
            (texts["tower"], texts["script"]),
            (tower, f"# tower: {'; '.join(tower.strip().splitlines())}\n{script}"),
        )
        expect_equal(
            Reader(program, texts["bench"], "").branch("other"),
            Reader(program, tower, script).branch("other"),
        )
        picture = xml.dom.minidom.parseString(texts["svg"])
        expect(
            len(picture.getElementsByTagName("title")) > 3 and "var(" not in texts["svg"],
            "the picture isn't whole",
        )
    page.value("new Promise((done) => setTimeout(done, 500))")
    page.browser.ask("Page.reload")
    page.until("document.readyState === 'complete'")
    page.wait()
    expect_equal(page.document(), [tower, script], "after a reload")
    open_files(page)


def open_files(page):
    """Opens a bench file by the dialog, and drops a tower file and a script."""
    page.do("chooseOpen")
    node = page.browser.ask(
        "DOM.querySelector",
        nodeId=page.browser.ask("DOM.getDocument")["root"]["nodeId"],
        selector="#files",
    )["nodeId"]
    page.browser.ask(
        "DOM.setFileInputFiles",
        nodeId=node,
        files=[str(pathlib.Path("tests/rows/benches/bench-file.bench").resolve())],
    )
    page.until("document.querySelectorAll('.panel').length === 3")
    page.wait()
    expect_equal(page.branches(), ["main", "a", "b"])
    dropped = [pathlib.Path(f"examples/unary.{it}") for it in ("tower", "script")]
    page.drop([(it.name, it.read_text(encoding="ascii")) for it in dropped])
    page.until("document.querySelector('#tower-line').textContent.startsWith('unary')")
    page.wait()
    expect(
        page.script().strip() == cases.read("examples/unary.script").decode().strip()
        or page.count("#lesson:not([hidden])"),
        "the script isn't opened",
    )


def sessions(page):
    """Two sessions act on the same branches; the cursors of the others are shown."""
    page.open(ONE_READ, "0 join\n0 go main 4\n")
    page.fill("#session", "3")
    page.key("Home")
    expect("3 join\n3 go main 0\n" in page.script(), page.script())
    page.button("p0 w 0 1")
    expect("3 insert main 0 w 0 1\n" in page.script(), page.script())
    expect_equal(page.count(".panel .strip.flags"), 1)
    page.fill("#session", "0")
    expect(page.place().startswith("main, place 5 of 5"), page.place())
    page.fill("#session", "3")
    page.button("leave")
    expect("3 leave\n" in page.script(), page.script())


def typed(page):
    """Lines that are typed and refused stay, and each is explained at its number."""
    page.open(ONE_READ, BEFORE_ITS_END)
    page.click("[data-tab=text]")
    text = "0 join\n0 insert main 0 w 0 7\n0 leap\n0 go main 99\n"
    page.value(
        f"""(() => {{ const it = document.querySelector("#script"); it.focus(); it.value = {json.dumps(text)};
      it.dispatchEvent(new Event("input")); }})()"""
    )
    page.until("document.querySelectorAll('#answer [data-line]').length === 3")
    expect_equal(
        page.value(
            "[...document.querySelectorAll('#answer [data-line]')].map((it) => Number(it.dataset.line))"
        ),
        [2, 3, 4],
    )
    expect_equal(page.value("document.querySelector('#script').value"), text)
    expect_equal(page.count("#gutter .wrong"), 3)
    page.click("[data-tab=table]")
    expect(page.count("#table tbody tr") == 4, "the table has other rows")


def tower_limits(page):
    """The dialog shows the limits of each number, and takes no tower beyond them."""
    page.open()
    page.do("chooseTower")
    page.click("[name=kind][value=matrix]")
    expect_equal(page.texts("#fields label b"), ["N", "VALUES", "TAG", "INNER"])
    for index, number in enumerate((4, 512, 511, 511)):
        page.fill(f"#fields label:nth-child({index + 1}) input", str(number))
    expect(
        page.text("#tower-fault")
        and page.value("document.querySelector('#tower-dialog [value=begin]').disabled"),
        "it is taken",
    )
    page.click("#tower-dialog button[value='']")
    for kind, *numbers in (("copies", 2, 1), ("stamped", 3, 2), ("matrix", 2, 2, 0, 1)):
        page.choose_tower(kind, *numbers)
        expect_equal(page.document()[0], f"tower 2\n{' '.join(map(str, (kind, *numbers)))}\n")


def copied_script(page):
    """The script is copied."""
    page.open(ONE_READ, BEFORE_ITS_END)
    page.value(
        """Object.defineProperty(navigator, "clipboard", { value: { writeText: async (text) => { globalThis.copied = text; } } }) && 0"""
    )
    page.fill("#save", "copy")
    page.until("globalThis.copied")
    expect_equal(page.value("globalThis.copied"), BEFORE_ITS_END)


def paper(page):
    """What is printed has each step of each branch, why each read has its verdict, and the
    texts."""
    page.open(ONE_READ + "g 1 0\n", "0 join\n0 fork main 4 other\n0 insert other 4 g 1 1\n")
    page.value("new Promise((done) => setTimeout(done, 1500))")
    page.value("dispatchEvent(new Event('beforeprint'))")
    expect_equal(page.count("#print .chip"), 10)
    expect_equal(page.count("#print li"), 2)
    expect_equal(page.texts("#print pre"), page.document())
    page.do("theme")
    expect(page.text("#theme").endswith("light"), page.text("#theme"))
