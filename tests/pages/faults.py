"""Runs that don't end well: the page says so in one sentence, keeps the document, and goes on."""
import json
import re
import tempfile

import cases
from pages import build
from pages.gestures import BEFORE_ITS_END, ONE_READ
from pages.opened_page import expect, expect_equal
from pages.reader import Reader

# A module whose one function has this code, of WebAssembly's instructions; its memory is the
# host's.
BEFORE_CODE = bytes.fromhex(
    "0061736d01000000 0105016000017f 0212 01 04686f7374 066d656d6f7279 020101 8040 03020100 0707010372756e0000".replace(
        " ", ""
    )
)
CODES = {"endless": "03400c000b000b", "trap": "000b", "deep": "10000b"}
SENTENCES = {
    "trap": r"The program stopped by a fault: .*unreachable.*\.",
    "deep": r"The program ran out of stack\.",
}
DAMAGED, CHUNK = 1500, 5
STOPPED, TOO_LONG = (
    "The run was stopped.",
    r"The program took longer than [0-9]+ seconds and was stopped\.",
)
FILES = ("lessons/01-safe-bit/safe", "examples/stamped", "examples/matrix", "examples/branches")
# Code between the page and its worker: what the worker answers is changed by `damage`, if there is
# one.
BETWEEN = """{ const Real = Worker;
  Worker = class {
    constructor(address) {
      this.real = new Real(address);
      this.real.onmessage = (event) => this.onmessage({ data: globalThis.damage ? damage(event.data) : event.data });
      this.real.onerror = (event) => this.onerror(event);
    }
    postMessage(it) { if (!globalThis.isDeaf) this.real.postMessage(it); }
    terminate() { this.real.terminate(); }
  }; }"""
# Changes lines of the answers and of the bench file, in ways that a number determines.
DAMAGE = """globalThis.damaged = (seed) => {
  let state = seed * 7919 + 1;
  const under = (most) => { state = (state * 1103515245 + 12345) % 2147483648; return Math.floor(state / 2147483648 * most); };
  const one = (list) => list[under(list.length)];
  const ways = [(lines, at) => lines.splice(at, one([1, 1, 5, 1000])), (lines, at) => lines.splice(at, 0, one(lines)),
    (lines, at) => { lines[at] = lines[at].slice(0, under(20)); },
    (lines, at) => { lines[at] = lines[at].replace(/[0-9]+/g, () => one([0, 1, 9, 10 ** 9, 999999999])); },
    (lines, at) => { lines[at] = "\\u0001<b>&\\u20ac<script>"; },
    (lines, at) => { lines[at] = lines[at].replace(" ", one(["", "  ", "<", "\\t"])); },
    (lines, at) => { lines.splice(at, 20, ...lines.slice(at, at + 20).reverse()); }];
  const changed = (text) => {
    const lines = text.split("\\n");
    for (let turn = one([0, 1, 1, 3, 30]); turn > 0 && lines.length; turn--) one(ways)(lines, under(lines.length));
    return lines.join("\\n");
  };
  return (it) => ({ ...it, output: changed(it.output), bench: under(3) ? it.bench : changed(it.bench) });
};"""


# Opens documents one after the other while answers are damaged, and returns what is wrong and how
# many ended how.
OPENED = """(async (documents, from, to) => {
  const counts = { pictures: 0, faults: 0, wrong: [] };
  for (let seed = from; seed < to; seed++) {
    globalThis.damage = damaged(seed);
    const changes = new Promise((done) => addEventListener("hashchange", done, { once: true }));
    location.hash = encodeURIComponent(JSON.stringify(documents[seed % documents.length]));
    await changes;
    const end = Date.now() + 60000;
    do await new Promise((done) => setTimeout(done)); while (document.documentElement.ariaBusy === "true" && Date.now() < end);
    if (Date.now() >= end) counts.wrong.push(`${seed}: the page stays busy`);
    const drawn = document.querySelector("main").innerHTML, said = document.querySelector("#said");
    if (/NaN|undefined|<script|<b>&/.test(drawn)) counts.wrong.push(`${seed}: ${/.{0,60}(NaN|undefined|<script|<b>&).{0,60}/.exec(drawn)[0]}`);
    if (said.className === "refusal" && !/^[A-Z].{10,200}$/s.test(said.textContent)) counts.wrong.push(`${seed}: ${said.textContent}`);
    counts[said.className === "refusal" ? "faults" : "pictures"]++;
  }
  globalThis.damage = null;
  return counts;
})"""


def written_module(folder, code):
    path, body = f"{folder}/{code}.wasm", bytes([0]) + bytes.fromhex(CODES[code])
    section = bytes([1, len(body)]) + body
    with open(path, "wb") as file:
        file.write(BEFORE_CODE + bytes([10, len(section)]) + section)
    return path


def page_with(page, folder, code):
    """Opens the page with another module in the program's place."""
    path = f"{folder}/{code}.html"
    with open(path, "w", encoding="utf-8") as file:
        file.write(build.packed({"program": written_module(folder, code)}))
    page.browser.open(f"file://{path}")


def other_programs(page):
    """A trap and a full stack are said in a sentence, and an endless run is stopped by the
    button."""
    with tempfile.TemporaryDirectory() as folder:
        for code, sentence in SENTENCES.items():
            page_with(page, folder, code)
            page.until("document.querySelector('#said').textContent")
            expect(re.fullmatch(sentence, page.said()), page.said())
        page_with(page, folder, "endless")
        # The page tries its document, and then an empty one
        for _ in range(2):
            page.until("!document.querySelector('#busy').hidden")
            page.value("document.querySelector('[data-do=stop]').click()")
            page.value("new Promise((done) => setTimeout(done, 200))")
        page.until("document.querySelector('#said').textContent", "an endless run isn't stopped")
        expect_equal(page.said(), STOPPED)


def opened_between(page, *document):
    page.browser.ask("Page.addScriptToEvaluateOnNewDocument", source=BETWEEN + DAMAGE)
    page.open(*document)


def no_answer(page):
    """A run that never answers is stopped by the button, or after some seconds; the document stays,
    and the page goes on."""
    opened_between(page, ONE_READ, BEFORE_ITS_END)
    before = page.script()
    for sentence, is_stopped in ((STOPPED, True), (TOO_LONG, False)):
        page.value("globalThis.isDeaf = true")
        page.value("document.querySelector('[data-key=\"p1 g 1 0\"]').click()")
        page.until("!document.querySelector('#busy').hidden")
        if is_stopped:
            page.value("document.querySelector('[data-do=stop]').click()")
        page.wait()
        expect(re.fullmatch(sentence, page.said()), page.said())
        page.value("globalThis.isDeaf = false")
        expect_equal(page.script(), before, "after a run without an answer")
    page.button("p1 g 1 0")
    expect(page.said().startswith("p1's read returned 0. Fresh"), page.said())


def damaged_files(page):
    """A tower file that the program refuses is said in a sentence, and can be mended."""
    for tower, words in (
        ("tower 3\nsafe 0\n", "1"),
        ("tower 2\nsafe 0\nq\n", "3"),
        ("tower 2\nmatrix 4 512 511 511\n", "2"),
        ("\u00e9", "1"),
    ):
        page.open(ONE_READ, BEFORE_ITS_END)
        page.value(
            f"location.hash = encodeURIComponent({json.dumps(json.dumps([tower, '0 join']))})"
        )
        page.until("document.querySelector('#said').className === 'refusal'")
        expect(words in page.said() and page.said().endswith("."), page.said())
        expect_equal(page.document(), [tower, "0 join"])


def damaged_answers(page, program):
    """Answers that are cut, mixed and changed give a picture or a sentence, and never a broken
    picture."""
    opened_between(page)
    documents = []
    for it in FILES:
        tower = cases.path_of(it, "tower", "")
        documents.append([cases.read(tower).decode(), cases.read(f"{it}.script").decode()])
    found = {"pictures": 0, "faults": 0}
    for at in range(0, DAMAGED, CHUNK):
        counts = page.value(f"{OPENED}({json.dumps(documents)}, {at}, {at + CHUNK})")
        expect(not counts["wrong"], counts["wrong"])
        for it in found:
            found[it] += counts[it]
    expect(min(found.values()) > DAMAGED / 20, found)
    page.open(*documents[0])
    expect_equal(Reader(program, *page.document()).lengths, Reader(program, *documents[0]).lengths)
