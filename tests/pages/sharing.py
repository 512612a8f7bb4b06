"""Documents that travel: links, pages saved as one file, what was open before, and many files in a
table; and hostile ones."""
import json
import pathlib
import tempfile
import time

from pages.opened_page import LESSON_DRAWN, expect, expect_equal

GOAL = 'goal: some: verdict has "p1 1 stray"'
QUESTION = "Can a read give a value that nobody wrote?"
# A read of a safe bit that is about to end, and the step by which it gives a value never written
SAFE = "tower 2\nsafe 0\nw 0 0\ng 0 0\nr 1\ng 1 0\n"
STRAY = "0 insert main 4 g 1 1\n"
BASE = "https://example.org/towerbench.html"
MOST_LINK, MOST_PAGE = 400, 900_000
CLIPBOARD = """(() => { globalThis.copied = ""; const clipboard = { writeText: async (text) => { globalThis.copied = text; } };
  Object.defineProperty(navigator, "clipboard", { value: clipboard, configurable: true }); return 0; })()"""
TASK = "document.querySelector('#task')"


def share(page):
    page.do("share")
    page.until("document.querySelector('#share-dialog').open")


def hash_of(page, base=BASE):
    """Returns what follows the address in the dialog's link."""
    page.fill("#share-base", base)
    page.until(f"document.querySelector('#share-link').value.startsWith({json.dumps(base + '#z')})")
    return page.value("document.querySelector('#share-link').value")[len(base) :]


def links(page):
    """A question with a goal is made by clicks and sent as a link, which opens with its question; a
    damaged link says so."""
    page.open(SAFE, f"0 join\n{STRAY}")
    page.value(CLIPBOARD)
    share(page)
    page.fill("#share-text", QUESTION)
    page.click("#share-ideas button")
    expect_equal(page.value("document.querySelector('#share-data').value"), GOAL)
    page.until("document.querySelector('#share-goals .met')")
    found = hash_of(page)
    page.click("#share-copy")
    page.until("globalThis.copied")
    expect_equal(page.value("globalThis.copied"), BASE + found)
    page.browser.open(page.address + found)
    page.wait()
    expect(QUESTION in page.text("#task"), "the question isn't shown")
    expect_equal(page.document(), [SAFE, f"# {QUESTION}\n# {GOAL}\n0 join\n"])
    expect_equal(
        page.value(
            "[...document.querySelectorAll('#task [data-met]')].map((it) => it.dataset.met)"
        ),
        ["false"],
    )
    page.click("#place")
    page.key("End")
    page.click('[data-action="g 1 1"]')
    page.until("document.querySelector('#task [role=status]')")
    for damaged in (
        found[:-9],
        found[:40] + ("A" if found[40] != "A" else "B") + found[41:],
        found + "@",
        "#%5B1%2C2%5D",
        "#%",
    ):
        page.browser.open(page.address + damaged)
        page.wait()
        expect(page.said().startswith("This link is damaged"), f"{damaged[:30]}: {page.said()}")
        expect_equal(page.branches(), ["main"])


def short_links(page):
    """The link of exercise 5.3 is short, and the page is small."""
    page.open()
    page.do("study")
    page.click('#study-list [data-study="05-new-old-inversion"]')
    page.until(LESSON_DRAWN)
    page.click('[data-begin="05-new-old-inversion 3 your-own"]')
    page.until(f"!{TASK}.hidden && {TASK}.textContent.includes('5.3')")
    page.wait()
    share(page)
    found = len(BASE + hash_of(page))
    expect(found <= MOST_LINK, f"the link of exercise 5.3 has {found} characters")
    size = pathlib.Path(page.address[len("file://") :]).stat().st_size
    expect(size <= MOST_PAGE, f"the page has {size} bytes")


def one_file(page):
    """A page that was saved with a document inside opens with it, and says whose it is."""
    with tempfile.TemporaryDirectory() as scratch:
        page.browser.ask("Browser.setDownloadBehavior", behavior="allow", downloadPath=scratch)
        page.open(SAFE, f"# {QUESTION}\n# {GOAL}\n0 join\n{STRAY}")
        share(page)
        page.fill("#share-name", "Anna Example")
        page.click("#share-save")
        saved = pathlib.Path(scratch) / "schedule-anna-example.html"
        for _ in range(400):
            if saved.exists():
                break
            time.sleep(0.05)
        page.wait()
        page.browser.open(f"file://{saved}")
        page.wait()
        expect_equal(
            page.document(),
            [SAFE, f"# {QUESTION}\n# {GOAL}\n# student: Anna Example\n0 join\n{STRAY}"],
        )
        expect(
            "Anna Example" in page.text("#task") and page.count("#task [role=status]"),
            page.text("#task"),
        )
        (pathlib.Path(scratch) / "again.html").write_bytes(saved.read_bytes())
        page.open()
        page.drop([("again.html", saved.read_text(encoding="utf-8"))])
        page.until(f"{TASK}.textContent.includes('Anna Example')")


def nothing_lost(page):
    """Another document keeps the old one: Undo reads Back, Open lists what was open before, and it
    can be forgotten."""
    page.open(SAFE, f"0 join\n{STRAY}")
    page.do("chooseOpen")
    page.click('#open-dialog [data-open="01-safe-bit/your-own"]')
    page.until("document.querySelector('#undo').textContent.includes('Back')")
    page.wait()
    page.do("undo")
    page.until(f"document.querySelector('#file').value === {json.dumps(SAFE)}")
    expect_equal(page.script(), f"0 join\n{STRAY}")
    expect("Undo" in page.text("#undo"), page.text("#undo"))
    expect("Forward" in page.text("#redo"), page.text("#redo"))
    page.do("redo")
    page.until(f"document.querySelector('#file').value !== {json.dumps(SAFE)}")
    page.do("undo")
    page.until(f"document.querySelector('#file').value === {json.dumps(SAFE)}")
    page.do("undo")
    expect_equal(page.script(), "0 join\n")
    expect("Redo" in page.text("#redo"), page.text("#redo"))
    page.do("redo")
    expect_equal(page.script(), f"0 join\n{STRAY}")
    for number in range(14):
        page.choose_tower("stamped", 2, number)
        page.button("p1 r 1")
    page.choose_tower("copies", 2, 0)
    page.do("chooseOpen")
    expect_equal(page.count("#recent [data-recent]"), 12)
    page.click("#recent [data-recent]")
    page.until("document.querySelector('#tower-line').textContent === 'stamped 2 13'")
    page.wait()
    page.do("chooseOpen")
    page.click("#forget")
    page.do("chooseOpen")
    expect(page.value("document.querySelector('#recent-part').hidden"), "it isn't forgotten")


def which_tower(page):
    """A saved script opens on the tower that it names; of one that names none the page says on
    which it runs."""
    page.open(SAFE, "0 join\n")
    page.drop([("a.script", "# tower: tower 2; copies 2 0; w 0 1\n0 join\n")])
    page.until("document.querySelector('#tower-line').textContent === 'copies 2 0'")
    expect_equal(page.document()[0], "tower 2\ncopies 2 0\nw 0 1\n")
    page.drop([("b.script", "0 join\n0 insert main 1 g 0 0\n")])
    page.until("document.querySelector('#said').textContent.includes('b.script')")
    expect_equal(page.said(), "b.script doesn't say on which tower it runs: here it is copies 2 0.")


def forty_files(page):
    """Forty files are a table: names, goals met, predictions, verdicts, faults in words; a click
    opens one."""
    page.open(SAFE, f"# {QUESTION}\n# {GOAL}\n0 join\n")
    given = []
    for number in range(38):
        lines = [
            f"# tower: {'; '.join(SAFE.strip().splitlines())}",
            f"# {QUESTION}",
            f"# {GOAL}",
            f"# student: Student {number}",
            "0 join",
        ]
        given.append(
            (f"s{number:02}.script", "\n".join(lines) + f"\n0 insert main 4 g 1 {number % 2}\n")
        )
    given.append(("bad.script", "# tower: tower 2; nothing 0\n0 join\n"))
    given.append(("none.html", "<p>no document</p>"))
    page.drop(given)
    page.until("document.querySelector('#class-dialog').open")
    expect_equal(page.text("#class-count"), "40 files, 19 meet all goals")
    expect_equal(page.count("#class-table tbody tr"), 40)
    expect_equal(page.count("#class-table .wrong"), 2)
    expect_equal(
        page.texts("#class-table [data-class=s01], #class-table [data-class=s02]"),
        ["Student 1", "Student 2"],
    )
    page.value(CLIPBOARD)
    page.click("#class-copy")
    page.until("globalThis.copied")
    expect(page.value("globalThis.copied").count("\n") == 40, "the copied table has other rows")
    page.click("#class-table [data-class=s01]")
    page.until(f"{TASK}.textContent.includes('Student 1')")
    page.wait()
    expect(page.count("#task [role=status]"), "it isn't done")
    page.do("table")
    page.until("document.querySelector('#class-dialog').open")


def judged_by(page):
    """Files are judged by the exercise that is open, or else by the lesson's that they name; not by
    what they say themselves."""
    tower = f"# tower: {'; '.join(SAFE.strip().splitlines())}"
    solved = f"{tower}\n# {QUESTION}\n# {GOAL}\n# student: S\n0 join\n{STRAY}"
    easy = solved.replace(GOAL, 'goal: some: verdict has no "9"').replace(STRAY, "")
    other = solved.replace("safe 0", "copies 1 0")
    longer = solved.replace("g 1 0", "g 1 0; g 1 1").replace(STRAY, "")
    given = [(f"{name}.script", text) for name, text in zip("abcd", (solved, easy, other, longer))]
    page.open(SAFE, f"# {QUESTION}\n# {GOAL}\n0 join\n")
    page.drop(given)
    page.until("document.querySelector('#class-dialog').open")
    expect_equal(page.text("#class-count"), "4 files, 1 meet all goals")
    expect_equal(page.text("#class-judge"), "Judged by the exercise that is open here.")
    expect_equal(
        page.texts("#class-table .wrong"),
        [" not the exercise's safe 0", " not as the exercise begins"],
    )
    page.open(SAFE, "0 join\n")
    page.drop(given)
    page.until("document.querySelector('#class-dialog').open")
    expect("their own goals" in page.text("#class-judge"), page.text("#class-judge"))
    named = "# exercise: 01-safe-bit 3 A schedule of your own\n"
    page.drop([(name, named + text) for name, text in given])
    page.until("document.querySelector('#class-judge').textContent.includes('lesson')")
    expect_equal(page.text("#class-count"), "4 files, 0 meet all goals")
    asked = f'# ask: Which?\n# option: 0 if main: verdict has "p1 0"\n# option: none if main: verdict has no "p1"\n'
    page.open(SAFE, f"{asked}0 join\n")
    answer = f'{tower}\n# ask: Which?\n# option: 0 if main: verdict has no "p1"\n# predicted: 0\n0 join\n'
    page.drop([("x.script", answer), ("y.script", answer.replace(": 0\n", ": none\n")), given[0]])
    page.until("document.querySelector('#class-dialog').open")
    expect_equal(page.texts("#class-table td:nth-child(3)")[:2], ["0 \u2717", "none \u2713"])


def hostile(rounds=200):
    """Returns documents that do harm if a text is taken for markup, for a number or for short."""
    markup = [
        "<img src=x onerror=console.log(1)>",
        "</script><script>console.log(2)</script>",
        "\u202e\u0000\ufffd",
        "${alert(1)}",
        "'\"`;//",
    ]
    made = []
    for number in range(rounds):
        bad, kind = markup[number % len(markup)], number % 10
        lines = ["0 join"]
        if kind == 0:
            lines = [
                f"# {bad}",
                f"# goal: {bad}",
                f"# student: {bad}",
                f"# exercise: {bad} 1 {bad}",
                "0 join",
            ]
        elif kind == 1:
            lines = [
                f"# ask: {bad}",
                *(f'# option: {bad} {it} if main: verdict has "{bad}"' for it in range(40)),
                "0 join",
            ]
        elif kind == 2:
            lines = ["# goal: some: " + "same read: " * (number * 50) + 'verdict has "x"', "0 join"]
        elif kind == 3:
            lines = [
                f"# goal: some: verdict has \"{'x' * 1000 * number}\"",
                "# " + "y" * 1000 * number,
                "0 join",
            ]
        elif kind == 4:
            lines += [f"0 fork main 0 b{it}" for it in range(20 * number)]
        elif kind == 5:
            lines += [
                f"0 insert main {it} {step}"
                for it, step in enumerate(["w 0 1", "g 0 0", "r 1", "g 1 0"] * (2 * number))
            ]
            lines.insert(
                0,
                '# goal: every: same read: history has "chosen" then "return", verdict has "fresh"',
            )
        elif kind == 6:
            lines = [
                f"# predicted 1: {bad}",
                "# ask 1: a",
                "# option 1: a if main: verdict has",
                f"0 {bad}",
                f"0 fork main 0 {bad}",
            ]
        elif kind == 7:
            lines = [
                f"# tower: {bad}; {bad}",
                *['# goal: some: verdict has no "a" then "b"' for _ in range(10 * number)],
                "0 join",
            ]
        elif kind == 8:
            lines = [
                "#" * 10 * number,
                '# goal 999: zzz: cursor has 999999999 "a"',
                '# goal: some: history 999999999 has "a"',
            ]
        else:
            lines = ["# `0 " + bad + "` and `0 insert main 0 w 0 1` ```" + "`" * number, "0 join"]
        tower = [
            SAFE,
            "tower 2\nunary 3 1 0\n",
            f"tower 2\nsafe 0\n{bad}\n",
            "tower 2\nstamped 2 2\n",
        ][number % 4 if kind != 5 else 0]
        made.append((tower, "\n".join(lines) + "\n"))
    return made


def hostile_documents(page):
    """200 hostile documents show a sentence or a whole picture, and nothing in them is taken for
    markup."""
    page.open()
    for number, (tower, script) in enumerate(hostile()):
        page.drop([("a.tower", tower), ("a.script", script)])
        page.wait()
        said = page.value("document.querySelector('#said').textContent.length")
        drawn = page.value("document.querySelectorAll('.panel .lanes').length")
        expect(said or drawn, f"document {number} shows neither a sentence nor a picture")
        odd = page.value(
            "document.querySelectorAll('#top img, #top script, main img, aside img, dialog img').length"
        )
        expect_equal(odd, 0, f"document {number}")
