"""What a click costs on large documents, in comparison with 20 steps.

It is counted, so that other work on the machine changes nothing: calls of the page's functions,
lines that the program writes, and elements that the page has.
"""
from pages.opened_page import expect

CYCLE = "w 0 3\ng 0 0\ng 0 0\nr 1\ng 1 0\ng 1 1\ng 0 0\nr 2\ng 2 0\ng 1 0\n".splitlines(True)
UNARY, MATRIX = "tower 2\nunary 4 2 0\n", "tower 2\nmatrix 4 2 1 15\n"
COUNT = 3000
GESTURES = {
    "step": '.actor [data-action^="g"]:enabled, .actor [data-action^="w"]:enabled',
    "move": "[data-do=left]",
    "undo": "#undo:enabled",
}
# How many calls and lines more a gesture may take for each step of a schedule, about twice of what
# it does: an edit takes the whole history again, and each line of the script is answered. These
# edits are at a branch's end, so no branch is saved.
MOST_OF_A_STEP = {"step": (40, 1.6), "move": (14, 0.1), "undo": (40, 0.1)}
MOST_OF_AN_INSERT = {"step": (60, 2.6), "move": (26, 1.9), "undo": (66, 1.9)}
# Each column is narrower if there are many, so that more are drawn.
MOST_ELEMENTS_MORE = 400
# The most calls, lines and elements of any gesture, also about twice of what it takes
MOST = {
    "60 branches more": (350_000, 2_100, 2_600),
    "4,096 bits": (450_000, 350, 3_300),
    "100,000 steps": (4_300_000, 160_000, 1_500),
}


def steps(count):
    return "".join((CYCLE * (count // len(CYCLE) + 1))[:count])


def counted(page):
    """Returns how many calls there were since the last time, all lines, and all elements."""
    lines = "Number(document.querySelector('#inner').dataset.lines)"
    return page.browser.calls(), page.value(lines), page.count("*")


def costs(page, tower, script):
    """Returns the calls, lines and elements of each gesture at the end of a schedule."""
    page.open(tower, script)
    page.key("End")
    page.browser.count_calls()
    found = {}
    for name, selector in GESTURES.items():
        _, before, _ = counted(page)
        page.value(f"document.querySelector({selector!r}).click()")
        page.wait()
        page.value("new Promise((done) => requestAnimationFrame(() => setTimeout(done)))")
        calls, lines, elements = counted(page)
        found[name] = calls, lines - before, elements
    return found


def too_costly(name, found, short, most):
    """Returns which gestures cost too much on a schedule of COUNT steps, in comparison with 20
    steps."""
    faults = []
    for it, (calls, lines) in most.items():
        more = [a - b for a, b in zip(found[it], short[it])]
        if are_more(more, (calls * COUNT, lines * COUNT, MOST_ELEMENTS_MORE)):
            faults.append(f"{name}: {it} takes {found[it]}, and {short[it]} with 20 steps")
    return faults


def are_more(found, most):
    return any(a > b for a, b in zip(found, most))


def long_schedules(page):
    """At 3,000 steps, in a file or inserted by the script, each costs a gesture little more."""
    short = costs(page, UNARY + steps(20), "0 join\n")
    inserts = "".join(
        f"0 insert main {at} {step}" for at, step in enumerate(steps(COUNT).splitlines(True))
    )
    for name, tower, script, most in (
        ("steps", UNARY + steps(COUNT), "0 join\n", MOST_OF_A_STEP),
        ("inserts", UNARY, f"0 join\n{inserts}", MOST_OF_AN_INSERT),
    ):
        faults = too_costly(f"{COUNT} {name}", costs(page, tower, script), short, most)
        expect(not faults, faults)


def large_documents(page):
    """With 60 branches, 4,096 bits or 100,000 steps a gesture costs at most what is known."""
    forks = "".join(
        f"0 fork main {at * 5} b{at}\n"
        + "".join(f"0 insert b{at} {at * 5 + it} g 0 0\n" for it in range(10))
        for at in range(60)
    )
    four = MATRIX + "w 0 1\n" + "g 0 0\n" * 24 + "r 2\n" + "g 2 0\n" * 200
    for name, tower, script in (
        ("60 branches more", UNARY + steps(400), f"0 join\n{forks}0 go main 400\n"),
        ("4,096 bits", four, "0 join\n"),
        ("100,000 steps", UNARY + steps(100000), "0 join\n"),
    ):
        for it, cost in costs(page, tower, script).items():
            most = MOST[name]
            expect(not are_more(cost, most), f"{name}: {it} takes {cost}, at most {most}")
