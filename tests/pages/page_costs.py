"""How many pages of the program a gesture asks for, in how many runs, and how many lines these
write."""
from pages.depths import MATRIX, click_in, open_tower
from pages.opened_page import expect

LONG = "tower 2\nsafe 0\n" + "w 0 1\ng 0 0\nr 1\ng 1 0\ng 1 1\ng 0 0\n" * 5000
FOUR = "".join(
    (
        "tower 2\nmatrix 4 2 1 15\nw 0 1\n",
        "g 0 0\n" * 20,
        "w 1 0\n",
        "g 1 0\ng 0 0\n" * 30,
        "r 2\n",
        "g 2 0\n" * 250,
    )
)
# How many pages a gesture may ask for, on a schedule that is open already, in how many runs, and
# how many lines these write: the pages of the columns in sight, of what the cursor's place shows,
# and of a read that is explained. An edit takes the whole history again, and the saved branches
# unless it is at a branch's end. Whether a read is hit is on the page of bits alone, which has
# 4,096 lines for four processes.
MOST_SPENT = {
    "lesson 8": {"a move": (20, 2, 200), "a step": (20, 1, 1000)},
    "30,000 steps": {
        "a move": (10, 3, 40),
        "the other end": (150, 2, 31000),
        "a step at the end": (20, 1, 31000),
        "its undo": (10, 1, 40),
        "a step at the start": (150, 2, 31000),
        "a click on a read": (20, 1, 100),
    },
    "four processes": {
        "the other end": (150, 2, 1500),
        "a move": (10, 1, 100),
        "a step": (10, 1, 1000),
        "a step that ends a read next": (10, 2, 5000),
    },
}


def spent(page):
    """Returns how many pages the page has asked for, in how many runs, and how many lines these
    wrote."""
    names = "['pages', 'runs', 'lines']"
    return page.value(f"{names}.map((it) => Number(document.querySelector('#inner').dataset[it]))")


def cost(page, work, schedule, gesture):
    """Does a gesture, and fails if it asks for more pages, in more runs, of more lines, than it
    may."""
    before = spent(page)
    work()
    page.wait()
    found = tuple(now - was for now, was in zip(spent(page), before))
    bound = MOST_SPENT[schedule][gesture]
    said = f"{gesture} in {schedule}: {found}, at most {bound}"
    expect(all(it <= most for it, most in zip(found, bound)), said)


def counted_pages(page):
    """A gesture asks for the pages of the columns in sight and what they need, once, in one run if
    it can."""

    def focused_key(name, schedule, gesture):
        page.value("document.querySelector('#scroll').focus()")
        cost(page, lambda: page.key(name), schedule, gesture)

    open_tower(page, MATRIX)
    expect(spent(page)[0] <= 300, f"lesson 8 asks for {spent(page)[0]} pages")
    for name in ("ArrowLeft", "+", "+", "-", "ArrowLeft", "Home"):
        focused_key(name, "lesson 8", "a move")
    cost(page, lambda: page.button("p1 r 1"), "lesson 8", "a step")
    page.open(LONG)
    first = spent(page)
    expect(first[0] <= 150 and first[1] <= 2, f"30,000 steps take {first}")
    focused_key("ArrowRight", "30,000 steps", "a move")
    focused_key("End", "30,000 steps", "the other end")
    focused_key("ArrowLeft", "30,000 steps", "a move")
    focused_key("End", "30,000 steps", "a move")
    # The first step may take more columns in sight
    page.button("p1 r 1")
    cost(page, lambda: page.button("p1 g 1 0"), "30,000 steps", "a step at the end")
    cost(
        page,
        lambda: click_in(page, ".operation.read.returned"),
        "30,000 steps",
        "a click on a read",
    )
    page.value("document.querySelector('#scroll').focus()")
    cost(page, lambda: page.do("undo"), "30,000 steps", "its undo")
    page.key("Home")
    cost(page, lambda: page.button("p1 r 1"), "30,000 steps", "a step at the start")
    page.open(FOUR)
    focused_key("End", "four processes", "the other end")
    focused_key("ArrowLeft", "four processes", "a move")
    page.key("End")
    cost(page, lambda: page.button("p3 r 3"), "four processes", "a step")
    cost(page, lambda: page.button("p3 g 3 0"), "four processes", "a step that ends a read next")
