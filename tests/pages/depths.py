"""What a person does to see the layers of a tower, and what the page then shows."""
import cases
from pages.opened_page import LESSON_DRAWN, expect, expect_equal

# Parts of lessons
INVERSION = "lessons/05-new-old-inversion/unary"
STAMPED = "lessons/05-new-old-inversion/stamped"
UNARY = "lessons/04-unary-number/unary"
MATRIX = "lessons/08-matrix/matrix"
NESTS = "[...document.querySelectorAll('.nest')].filter((it) => it.dataset.process === '%d').map((it) => it.dataset.nest)"


def open_tower(page, name, script="0 join\n"):
    """Opens the tower file of a part of a lesson with a script."""
    page.open(cases.read(f"{name}.tower").decode(), script)


def nests(page, process):
    """Returns the layers of which inner operations of a process are drawn."""
    return set(page.value(NESTS % process))


def click_in(page, selector):
    """Clicks on what a selector finds, even if it is scrolled out of sight."""
    page.value(
        f"document.querySelector({selector!r}).dispatchEvent(new MouseEvent('click', {{ bubbles: true }}))"
    )
    page.wait()


def layers(page):
    """The choice of depth, its keys, and clicks on bars, which open and close the layers below."""
    open_tower(page, MATRIX)
    expect_equal(page.texts("#depth option"), ["operations", "+ registers", "+ numbers", "+ bits"])
    expect_equal(nests(page, 0), {"stamped"})
    page.fill("#depth", "3")
    expect_equal(nests(page, 0), {"stamped", "unary", "regular"})
    page.value("document.querySelector('#scroll').focus()")
    page.key("-", "-", "-")
    expect_equal(nests(page, 0), set())
    page.key("+")
    expect_equal(nests(page, 1), {"stamped"})
    click_in(page, '.nest.stamped[data-process="0"]')
    expect_equal((nests(page, 0), nests(page, 1)), ({"stamped", "unary"}, {"stamped"}))
    click_in(page, '.operation.write[data-process="0"]')
    expect_equal(nests(page, 0), set())
    open_tower(page, STAMPED)
    expect_equal(nests(page, 1), {"unary", "regular"})
    page.open("tower 2\nsafe 0\n")
    expect(page.value("document.querySelector('#depth').hidden"), "a safe bit has layers")


def reasons(page):
    """A click on a read says why it gave its value, and lights what it names; another opens the
    layer below."""
    open_tower(page, STAMPED)
    click_in(page, '.operation.read[data-at="13"]')
    expect(
        "Its scan read bit 0, hit, chosen 1: so it found code 0 = stamp 0, value 0. But p1 remembered code 3 = "
        "stamp 1, value 1, which is greater, and gives that one's value, 1." in page.said(),
        page.said(),
    )
    expect_equal(
        page.texts(".nest.lit title"),
        ["scan up to bit 0: code 0 (stamp 0, value 0)", "bit 0 hit, chosen 1"],
    )
    expect_equal(
        page.value("[...document.querySelectorAll('[data-row].lit')].map((it) => it.dataset.row)"),
        ["register", "p1 remembers"],
    )
    expect_equal(page.text(".operation.read[data-at='13'] .op"), "found 0, kept 3")
    # what gave the value isn't what the scan found, but what was remembered when it began
    expect_equal(page.texts(".source title"), ["code 3 = stamp 1, value 1"])
    open_tower(page, UNARY)
    click_in(page, ".operation.read")
    expect(
        "Its scan read bit 0" in page.said() and "the first 1 that it found is bit" in page.said(),
        page.said(),
    )
    open_tower(page, MATRIX, "0 join\n0 go main 74\n")
    click_in(page, '.operation.read[data-process="0"]')
    expect(
        "It read its column: R[0][0]: tag 1, p0 wrote 1; R[1][0]: tag 1, p1 wrote 0. The greatest is tag 1, p1 wrote 0, in "
        "R[1][0]: it gives that one's value, 0. It wrote that to its row, R[0][0] and R[0][1], so that no later read gives "
        "an older value." in page.said(),
        page.said(),
    )
    expect_equal(page.text(".operation.picked .op"), "read = R[1][0]: tag 1, p1 wrote 0")
    # what gave the value: the read of that register, the number in it then, its cell, and the write
    # of it
    expect_equal(page.texts(".nest.source title"), ["read R[1][0]: tag 1, p1 wrote 0"])
    expect_equal(page.texts(".box.source title"), ["code 14 = tag 1, p1 wrote 0, stamp 1"])
    expect_equal(page.texts(".operation.source .op"), ["write 0 = tag 1, p1 wrote 0"])
    expect_equal(
        page.value(
            "[...document.querySelectorAll('.memory.lit')].map((it) => it.dataset.register)"
        ),
        ["R[1][0]"],
    )


def square(page):
    """A matrix is a square at the cursor's place, in which the column or the row in work is
    marked."""
    open_tower(page, MATRIX, "0 join\n0 go main 74\n")
    cells = page.value(
        "[...document.querySelectorAll('.memory')].map((it) => [it.dataset.register, it.className])"
    )
    expect_equal([name for name, _ in cells], ["R[0][0]", "R[0][1]", "R[1][0]", "R[1][1]"])
    expect_equal([name for name, kind in cells if "column" in kind], ["R[0][0]", "R[1][0]"])
    expect_equal([name for name, kind in cells if "is-read" in kind], ["R[1][0]"])
    expect_equal(page.texts(".memory .value-now"), ["1", "1", "0", "0"])
    expect_equal(
        page.texts(".card li"),
        ["p0's read: reads its column, now R[1][0]; greatest so far: tag 1, p0 wrote 1"],
    )
    page.key("End")
    expect_equal(page.texts(".memory .value-now"), ["0", "0", "0", "0"])


def scale(page):
    """The elastic axis shows all steps of lesson 8; a click between two steps goes to their place;
    columns can be equal or wider."""
    open_tower(page, MATRIX)
    widths = page.value(
        "[...document.querySelectorAll('.chip rect')].map((it) => Number(it.getAttribute('width')))"
    )
    expect_equal(len(widths), 93)
    expect(
        page.value(
            "document.querySelector('#scroll').scrollWidth <= document.querySelector('#scroll').clientWidth"
        ),
        "it needs scrolling",
    )
    expect(
        sum(it > 30 for it in widths) > 10 and sum(it < 5 for it in widths) > 50,
        f"the widths are {sorted(widths)}",
    )
    x = page.value(
        "document.querySelector('.chip[data-step=\"26\"]').getBoundingClientRect().left - 1"
    )
    y = page.value(
        "document.querySelector('.strip.lanes .drawn').getBoundingClientRect().bottom - 3"
    )
    page.browser.click(x, y)
    page.wait()
    expect_equal(page.place(), "main, place 26 of 93")
    page.do("equal")
    expect_equal(
        set(
            page.value(
                "[...document.querySelectorAll('.chip rect')].map((it) => it.getAttribute('width'))"
            )
        ),
        {"41"},
    )
    page.do("narrower")
    expect_equal(
        set(
            page.value(
                "[...document.querySelectorAll('.chip rect')].map((it) => it.getAttribute('width'))"
            )
        ),
        {"33"},
    )
    page.do("equal")
    expect_equal(page.count(".chip"), 93)


def refusals(page):
    """The first matrix that the dialog offers takes two writes; what refuses the next, and a
    stamped write, is said."""
    page.open()
    page.do("chooseTower")
    page.click("[name=kind][value=matrix]")
    page.click("#tower-dialog button[value=begin]")
    page.until("document.querySelector('#tower-line').textContent.startsWith('matrix')")
    page.wait()
    for key in ("p0 w 0 1", "p0 end", "p1 w 1 0", "p1 end"):
        page.button(key)
        expect_equal(page.count(".operation.refused"), 0)
    page.button("p0 w 0 1")
    page.button("p0 end")
    expect_equal(
        page.said(),
        "p0's write 1 was refused: its tag would be 3, and the last one is 2 (TAG). It wrote nothing; reads go on while "
        "their registers have stamps.",
    )
    page.open("tower 2\nstamped 2 0\n")
    page.button("p0 w 0 1")
    expect_equal(
        page.said(),
        "p0's write 1 was refused: its stamp would be 1, and the last one is 0 (LAST). It changed nothing; no further "
        "write passes, and reads go on.",
    )


def two_towers(page):
    """Below a unary number the same operations are done on a stamped register, without lesson 5's
    inversion; they follow an edit."""
    open_tower(page, INVERSION)
    expect_equal(
        page.texts("#second-tower option"),
        ["and on\u2026", "and safe 0", "and regular 1 0", "and stamped 2 1"],
    )
    # the lesson has a button for it
    page.do("study")
    page.click("[data-study='05-new-old-inversion']")
    page.until(LESSON_DRAWN)
    page.click("[data-second='stamped 2 1']")
    page.until("!document.querySelector('#second').hidden")
    expect_equal(page.texts(".panel .verdict text"), ["1 \u25d0 overlap", "0 \u25cf fresh"])
    expect_equal(page.texts("#second .verdict text"), ["1 \u25d0 overlap", "1 \u25d0 overlap"])
    for begun, _ in enumerate(page.texts(".panel .operation")):
        lefts = page.value(
            f"""['.panel', '#second'].map((it) => document.querySelectorAll(it + ' .operation .bar')[{begun}]
          .getBoundingClientRect()).map((it) => [it.left, it.right])"""
        )
        expect(max(abs(a - b) for a, b in zip(*lefts)) < 2, f"operation {begun} is at {lefts}")
    page.value("document.querySelector('#scroll').focus()")
    page.key("End")
    page.button("p1 r 1")
    expect_equal(page.count("#second .operation.read"), 3)
    page.fill("#second-tower", "")
    expect(page.value("document.querySelector('#second').hidden"), "the second tower stays")
    open_tower(page, MATRIX)
    expect(
        page.value("document.querySelector('#second-tower').hidden"), "a matrix has a second tower"
    )
