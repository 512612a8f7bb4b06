"""The page in a browser: what a person does there, and what it then shows."""
import json
import time
import urllib.parse

import cases
from cases import expect_equal  # noqa: F401 (tests of the page take it from here)
from pages.reader import NO_TOWER

IDLE = "document.documentElement.ariaBusy !== 'true' && 'ready' in document.documentElement.dataset"
MIDDLE = """(() => { const it = document.querySelector(%s);
  if (!it || it.disabled) return null;
  it.scrollIntoView({ block: "nearest", inline: "nearest" });
  const { x, y, width, height } = it.getBoundingClientRect();
  return [x + width / 2, y + height / 2]; })()"""
FILLED = """(() => { const it = document.querySelector(%s); it.value = %s;
  it.dispatchEvent(new Event("input")); it.dispatchEvent(new Event("change")); })()"""
# Whether the pictures of the lesson that is open are drawn
LESSON_DRAWN = "'drawn' in document.querySelector('#study-text').dataset"
# The seconds between two looks at the page, and the most looks while a test waits
PAUSE, TRIES = 0.02, 1500


def expect(is_so, message):
    if not is_so:
        raise cases.Failure(str(message)[:500])


class Page:
    """The page in a browser, Chromium or Firefox; its methods do what a person does."""

    def __init__(self, browser, path):
        self.browser, self.address = browser, f"file://{path}"
        browser.size(1600, 900)

    def open(self, tower=None, script="0 join\n"):
        """Opens the page with a document, or with its first screen."""
        given = (
            ""
            if tower is None
            else "#" + urllib.parse.quote(json.dumps([tower or NO_TOWER, script]), safe="")
        )
        self.browser.open(self.address + given)
        self.wait()

    def until(self, expression, message=None, tries=TRIES):
        """Waits until an expression holds in the page."""
        for _ in range(tries):
            if self.browser.value(f"Boolean({expression})"):
                return
            time.sleep(PAUSE)
        raise cases.Failure(message or f"this never holds: {expression}")

    def wait(self):
        self.until(IDLE, "the page stays busy")

    def value(self, expression):
        return self.browser.value(expression)

    def click(self, selector):
        """Clicks in the middle of what a selector finds, once it is there."""
        quoted = json.dumps(selector)
        self.until(
            f"{IDLE} && document.querySelector({quoted})", f"nothing is there to click: {selector}"
        )
        at = self.value(MIDDLE % quoted)
        expect(at, f"it can't be clicked: {selector}")
        self.browser.click(*at)
        self.wait()

    def key(self, *names, modifiers=0):
        for name in names:
            self.browser.press(name, modifiers)
            self.wait()

    def enter(self):
        """Presses the key that also clicks what has the focus."""
        self.browser.press("Enter", code="Enter", windowsVirtualKeyCode=13, text="\r")
        self.wait()

    def button(self, key):
        self.click(f'[data-key="{key}"]')

    def do(self, name):
        self.click(f'[data-do="{name}"]')

    def fill(self, selector, text):
        """Types a text or chooses an option, all at once."""
        self.value(FILLED % (json.dumps(selector), json.dumps(text)))
        self.wait()

    def text(self, selector):
        return self.value(f"document.querySelector({json.dumps(selector)}).textContent")

    def drop(self, files):
        """Drops files on the page, of each its name and its text."""
        self.value(
            f"""(() => {{ const data = new DataTransfer();
      for (const [name, text] of {json.dumps(files)}) data.items.add(new File([text], name));
      document.body.dispatchEvent(new DragEvent("drop", {{ bubbles: true, cancelable: true, dataTransfer: data }})); }})()"""
        )
        self.wait()

    def texts(self, selector):
        return self.value(
            f"[...document.querySelectorAll({json.dumps(selector)})].map((it) => it.textContent)"
        )

    def count(self, selector):
        return self.value(f"document.querySelectorAll({json.dumps(selector)}).length")

    def document(self):
        """Returns the texts of the tower file and the script."""
        self.click("[data-tab=text]")
        found = self.value("['#file', '#script'].map((it) => document.querySelector(it).value)")
        self.click("[data-tab=here]")
        return found

    def script(self):
        return self.document()[1]

    def place(self):
        return self.text("#at")

    def said(self):
        return self.text("#said")

    def branches(self):
        return self.texts(".panel h2 .select")

    def choose_tower(self, kind, *numbers):
        """Begins with a tower by the dialog."""
        self.do("chooseTower")
        self.click(f"[name=kind][value={kind}]")
        for index, number in enumerate(numbers):
            self.fill(f"#fields label:nth-child({index + 1}) input", str(number))
        self.click("#tower-dialog button[value=begin]")
        line = " ".join(map(str, (kind, *numbers)))
        self.until(
            f"document.querySelector('#tower-line').textContent === {json.dumps(line)} && "
            "document.querySelector('#at').textContent === 'main, place 0 of 0'"
        )
        self.wait()

    def fork(self, name):
        """Names a branch in the dialog that asks for its name."""
        self.until("document.querySelector('#name-dialog').open")
        self.fill("#name", name)
        self.click("#name-dialog button[value=fork]")
        self.until(
            f"document.querySelector('#at').textContent.startsWith({json.dumps(name + ',')})"
        )
        self.wait()
