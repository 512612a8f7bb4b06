"""What the page draws of each branch, held to what a second reader has from the program's pages,
place by place."""
import random
import re

import cases
from pages.layer_reader import Inside, Tower
from pages.opened_page import expect, expect_equal
from pages.reader import NO_TOWER, Reader, bit_actions, overlapped

MARKS = """(() => { const panel = document.querySelector(".panel.focus"), all = (name) => [...panel.querySelectorAll(name)];
  const steps = all(".chip").map((it) => Number(it.dataset.step));
  return { from: Math.min(...steps), to: Math.max(...steps) + 1, chips: all(".chip title").map((it) => it.textContent.replace(/^step [0-9]+: /, "").split("; ")[0]),
    bars: all(".operation").map((it) => it.dataset.at + " " + it.querySelector("title").textContent.split(",")[0]),
    ticks: all(".tick").map((it) => it.dataset.action), chosen: all(".mark.chosen").length, void: all(".mark.void").length,
    stop: all(".mark.stop").length, refused: all(".mark.refused").length,
    verdicts: all(".operation [data-verdict]").map((it) => it.dataset.verdict).filter(Boolean) }; })()"""
ROWS = """(() => { const panel = document.querySelector(".panel.focus"), rows = {};
  const at = (it, name) => Number(it.getAttribute(name)), along = (it, d) => it.classList.contains("hit")
    ? Number(d[1]) + (it.getAttribute("d").split("l").length - 1) * Number(it.getAttribute("d").match(/l([0-9.]+)/)[1])
    : Number(it.getAttribute("d").split("H")[1]);
  for (const row of panel.querySelectorAll(".strip.rows [data-row^='bit ']"))
    rows[row.dataset.row.slice(4)] = {
      boxes: [...row.querySelectorAll("rect")].map((it) => [it.getAttribute("class"), at(it, "x"), at(it, "x") + at(it, "width")]),
      reads: [...row.querySelectorAll(".hit, .read-line")].map((it) => {
        const d = it.getAttribute("d").match(/M([0-9.]+) ([0-9.]+)/);
        return [it.getAttribute("class"), Number(d[1]), along(it, d)]; }) };
  return [Number(panel.querySelector(".chip rect").getAttribute("width")) + 3, rows]; })()"""
INSIDE = """(() => { const panel = document.querySelector(".panel.focus"), all = (name) => [...panel.querySelectorAll(name)];
  const number = (it, names) => names.map((name) => Number(it.dataset[name]));
  const words = (it) => it.querySelector("title").textContent;
  return [Number(document.querySelector("#depth").value),
    all(".nest").map((it) => [it.dataset.nest, ...number(it, ["process", "from", "to"]), it.classList.contains("writes"), words(it)]),
    all(".decoded [data-row]").map((it) => [it.dataset.row, [...it.querySelectorAll(".box")].map((box) =>
      [...number(box, ["from", "to"]), words(box), Boolean(box.querySelector(".written"))])])]; })()"""
KINDS = ("chosen", "void", "stop", "refused")
SEED = 5
# How many gestures are made on each tower, and after how many the marks are compared
MOVES, MOVES_PER_COMPARISON = 40, 5
TOWERS = ("safe 1", "copies 2 0", "regular 3 1", "unary 3 1 2", "stamped 2 2", "matrix 2 2 0 1")
# what a person may click on; how often each is clicked
CLICKABLE = """[...document.querySelectorAll("#processes button:enabled, #breaks > button:enabled, .panel h2 button, .chip, " +
  "#undo:enabled, #redo:enabled, .operation.read, [data-do=left], [data-do=right], #said button")].map((it, index) => {
  it.dataset.walk = index; return it.dataset.key || it.dataset.do || it.id || it.getAttribute("class"); })"""
WEIGHTS = ((r"p\d x", 0.2), (r"p\d [wrg]|p\d end", 10), ("chip", 0.15), ("", 1))
CLICKED = """(() => { const it = document.querySelector('[data-walk="%d"]');
  for (const each of document.querySelectorAll("[data-walk]")) delete each.dataset.walk;
  it.dispatchEvent(new MouseEvent("click", { bubbles: true, clientX: 400 })); })()"""


def compare_rows(page, found, name, first, last):
    """Compares what each row of a bit shows at each place from `first` to `last` with the page of
    bits there."""
    column, rows = page.value(ROWS)
    for place in range(first, last + 1):
        lines = dict(line.split(" ", 1) for line in found[f"bits {name} {place}"])
        for bit, row in rows.items():
            value, written, read = lines[bit].split(" ")
            x = place * column
            boxes = [kind for kind, left, right in row["boxes"] if left <= x <= right]
            reads = [kind for kind, left, right in row["reads"] if left - 0.1 <= x <= right + 0.1]
            expect_equal(
                boxes,
                ["written" if written != "-" else {"0": "zero", "1": "one"}[value]],
                f"bit {bit} at {name} {place}",
            )
            expect_equal(
                reads,
                {"-": [], "r": ["read-line"], "h": ["hit"]}[read],
                f"read of bit {bit} at {name} {place}",
            )


def compare_inside(page, tower, found, name, first, last):
    """Compares what is inside the operations between places `first` and `last`, and the rows of
    numbers there, with a second reader's."""
    length = max(int(look.split()[2]) for look in found if look.startswith(f"state {name} "))
    pages = {
        kind: [found[f"{kind} {name} {place}"] for place in range(length + 1)]
        for kind in ("state", "bits")
    }
    inside = Inside(tower, {**pages, "history": found[f"history {name} {length}"]})
    depth, nests, rows = page.value(INSIDE)
    whole = [
        it
        for it in inside.operations
        if first <= it.begun and (last == length or (it.ended is not None and it.ended < last))
    ]
    begun = {
        (it.process, place)
        for it in whole
        for place in range(it.begun + 1, (length if it.ended is None else it.ended) + 1)
    }
    wanted = [
        [layer, it.process, part.begin, part.end, part.is_write, title]
        for it, layer, part, title in inside.nests()
        if it in whole and layer in tower.layers[:depth]
    ]
    drawn = [it for it in nests if (it[1], it[2]) in begun]
    expect_equal(
        sorted(it for it in drawn if it not in wanted),
        sorted(it for it in wanted if it not in drawn),
        f"inside {name}",
    )
    for row, boxes in rows:
        register = tower.registers.index(row) if row in tower.registers else 0
        bands = inside.bands(register)["number" if row in tower.registers else "best"]
        for begin, end, *box in boxes:
            # Nothing before `first` is drawn, so a box may lack what a part that began there has
            # found or written
            is_cut = any(
                part.begin < first and part.end >= begin
                for it in inside.operations
                for part in it.parts
            )
            for place in range(begin, end + 1):
                expect(
                    is_cut or tuple(box) == bands[place],
                    f"{row} of {name} at {place}: {box}, wanted {bands[place]}",
                )


def compare(page, reader, name):
    """Compares the marks of the panel where the cursor is with the pages; returns how many steps
    were drawn."""
    (found, length), marks = reader.branch(name), page.value(MARKS)
    head = page.text(".panel.focus h2")
    expect(
        head.startswith(f"{name} {length} step"),
        f"the head of {name}, which has {length} steps, is {head}",
    )
    if not marks["chips"]:
        return 0
    first, last = marks["from"], marks["to"]
    history = [
        (int(line.split()[0]), line) for line in found[f"history {name} {length}"] if line != "none"
    ]
    bars = [
        re.sub(r"^(\d+) (p\d) invoke ", r"\1 \2 ", line)
        for at, line in history
        if " invoke " in line and at < last
    ]
    verdicts = [
        line.split()[-1]
        for line in found[f"verdict {name} {length}"]
        if re.match(r"\d", line) and first <= int(line.split()[0]) < last
    ]
    expect_equal(
        marks["chips"],
        [line.split(" ", 1)[1] for line in found[f"steps {name} {length}"]][first:last],
        name,
    )
    expect(
        set(marks["bars"]) <= set(bars) and (first or len(marks["bars"]) == len(bars)),
        f"{name}: {marks['bars']} for {bars}",
    )
    expect_equal(sorted(marks["ticks"]), bit_actions(found, name, first, last), name)
    compare_rows(page, found, name, first, last)
    compare_inside(page, Tower(reader.tower.split("\n")[1]), found, name, first, last)
    for kind in KINDS:
        expect_equal(
            marks[kind],
            sum(line.split()[2] == kind for at, line in history if first <= at < last),
            f"{name}, {kind}",
        )
    expect_equal(sorted(marks["verdicts"]), sorted(verdicts), name)
    return last - first


def compare_lit_writes(page, reader, name):
    """Clicks on each read that returned, and compares the writes that light up and the first word
    of the sentence."""
    found, length = reader.branch(name)
    verdicts = {line.split()[0]: line.split()[-1] for line in found[f"verdict {name} {length}"]}
    count = 0
    for begun, writes in overlapped(found[f"history {name} {length}"]).items():
        if not page.count(f'.panel.focus .operation.read[data-at="{begun}"]'):
            continue
        page.value(
            f"""document.querySelector('.panel.focus .operation.read[data-at="{begun}"]')
          .dispatchEvent(new MouseEvent("click", {{ bubbles: true }}))"""
        )
        page.wait()
        lit = page.value(
            "[...document.querySelectorAll('.panel.focus .operation.lit')].map((it) => Number(it.dataset.at))"
        )
        drawn = page.value(
            "[...document.querySelectorAll('.panel.focus .operation')].map((it) => Number(it.dataset.at))"
        )
        expect_equal(
            sorted(lit),
            sorted(it for it in writes if it in drawn),
            f"{name}, the read of step {begun}",
        )
        said = page.said()
        expect("doesn't show why" not in said, said)
        is_named = any(f"{it}:" in said.lower() for it in {*verdicts.values()})
        expect(is_named or "no verdict" in said, said)
        page.key("Escape")
        count += 1
    return count


def all_documents(names):
    """Returns the tower and the script of each example and lesson."""
    found = []
    for it in names:
        if it.startswith(("examples/", "lessons/")):
            tower = next(
                (f"{it}.{kind}" for kind in ("tower", "bench") if cases.path_of(it, kind, "")), None
            )
            found.append(
                (
                    it,
                    cases.read(tower).decode() if tower else NO_TOWER,
                    cases.read(f"{it}.script").decode(),
                )
            )
    return found


def documents(page, program, names):
    """Opens each example and lesson, and compares each branch alone with the program's pages."""
    drawn = reads = 0
    for title, tower, script in all_documents(names):
        page.open(tower, script)
        reader = Reader(program, tower, script)
        expect_equal(
            page.value("[...document.querySelectorAll('#show option')].map((it) => it.value)")[
                1 : len(reader.lengths) + 1
            ],
            [f"only {it}" for it in reader.lengths],
            title,
        )
        for name in reader.lengths:
            page.fill("#show", f"only {name}" if len(reader.lengths) > 1 else "all")
            drawn += compare(page, reader, name)
            reads += compare_lit_writes(page, reader, name)
    expect(drawn > 300 and reads > 30, f"only {drawn} steps and {reads} reads were drawn")


def name_branch(page):
    """Takes the name that the dialog offers, once it is open."""
    page.until("document.querySelector('#name-dialog').open")
    page.fork(page.value("document.querySelector('#name').value"))


def walk(page, chance):
    """Clicks on something that is there."""
    keys = page.value(CLICKABLE)
    weights = [next(weight for pattern, weight in WEIGHTS if re.match(pattern, it)) for it in keys]
    chosen = chance.choices(range(len(keys)), weights)[0]
    page.value(CLICKED % chosen)
    page.wait()
    is_fork = keys[chosen].startswith("fork")
    if keys[chosen] == "chip":
        page.until("!document.querySelector('#menu').hidden")
        actions = page.value(
            "[...document.querySelectorAll('#menu button')].map((it) => it.dataset.stepAction || '')"
        )
        at = chance.randrange(len(actions))
        page.value(f"document.querySelectorAll('#menu button')[{at}].click()")
        is_fork = actions[at] == "fork"
        page.wait()
    if is_fork:
        name_branch(page)


def walks(page, program):
    """Makes random gestures on each tower, and compares the marks with the pages that the script
    gives."""
    chance, drawn = random.Random(SEED), 0
    for tower in TOWERS:
        page.open(f"tower 2\n{tower}\n")
        for index in range(MOVES):
            walk(page, chance)
            if (index + 1) % MOVES_PER_COMPARISON == 0:
                name = page.place().split(",")[0]
                drawn += compare(page, Reader(program, *page.document()), name)
    expect(drawn > 200, f"only {drawn} steps were drawn")
