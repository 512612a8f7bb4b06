"""What a screen shows: words that are explained when they are pointed at, and the room that the
picture has on screens of other sizes."""
import json

from pages.opened_page import LESSON_DRAWN, expect, expect_equal
from pages.sharing import SAFE, STRAY

IN_SIGHT = """(({ left, right }) => left >= 0 && right <= innerWidth)(
  document.querySelector("#study-list [aria-current]").getBoundingClientRect())"""
PICTURE = "document.querySelector('.drawn-here svg').clientWidth"


def words(page):
    """Each word on the screen is explained when it is pointed at, and in the help."""
    page.open(SAFE, f"0 join\n{STRAY}0 go main 5\n")
    page.browser.ask("Input.dispatchMouseEvent", type="mouseMoved", x=5, y=5)
    for selector, word in (
        (".verdict[data-verdict]", "stray"),
        (".tick", "ws"),
        (".chip", "w"),
        ("#at", "place"),
        ("#here details h3", "state"),
    ):
        at = page.value(
            f"(() => {{ const it = document.querySelector({json.dumps(selector)}).getBoundingClientRect();"
            " return [it.x + it.width / 2, it.y + it.height / 2]; })()"
        )
        page.browser.ask("Input.dispatchMouseEvent", type="mouseMoved", x=at[0], y=at[1])
        page.until(
            f"document.querySelector('#word:not([hidden]) b')?.textContent === {json.dumps(word)}",
            f"{word} isn't explained",
        )
    page.do("help")
    expect(page.count("#all-words dt") >= 30, "the help lacks words")


def room(page):
    """At 1280x720 and at 150 % the picture keeps half of the height, folded if need be; on a phone
    nothing is wider than the screen."""
    page.open(SAFE, f"0 join\n{STRAY}")
    for width, height in ((1280, 720), (1067, 600)):
        page.browser.size(width, height)
        for part in ("deck", "aside"):
            page.click(f"[data-fold={part}]")
        high = page.value("document.querySelector('#scroll').clientHeight")
        expect(2 * high >= height, f"at {width}x{height} the picture has {high}")
        page.do("present")
        wide = page.value("document.querySelector('#scroll').clientWidth")
        expect(wide == width, f"the presented picture has {wide}")
        page.key("Escape")
        for part in ("deck", "aside"):
            page.click(f"[data-fold={part}]")
    page.browser.size(390, 844)
    page.do("study")
    for name in ("study", "studyClose"):
        wide = page.value("document.documentElement.scrollWidth")
        expect(wide <= 390, f"{name}: it is {wide} wide")
        page.do("studyClose" if name == "study" else "study")
    page.click('#study-list [data-study="08-matrix"]')
    expect(page.value(IN_SIGHT), "the list doesn't show the lesson")
    lesson_resized(page)


def lesson_resized(page):
    """A lesson's picture begins with the names of its rows, and is drawn again if the width
    changes."""
    page.click('#study-list [data-study="01-safe-bit"]')
    page.until(LESSON_DRAWN)
    expect_equal(page.value("document.querySelector('.drawn-here').scrollLeft"), 0)
    for width, is_right in ((1600, f"{PICTURE} > 600"), (390, f"{PICTURE} < 600")):
        page.browser.size(width, 844)
        page.until(is_right, f"at {width} the picture isn't drawn again")
