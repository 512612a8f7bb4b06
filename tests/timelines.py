"""Time lines in the lessons' texts: each shows what its script leaves.

A block that begins with ```timeline NAME, or ```timeline NAME BRANCH, has rows over the numbers of
the steps of a branch, `main` if none is named, at the end of NAME.script on NAME.tower or
NAME.bench:
- `p0`, `p1`, ..: a bar for each operation, from the step that invokes it to the one in which it
  returns; `x` ends it if the process stopped then, `>` if it goes on, and an operation of one step
  is a `|`, a space and its name, with `refused` if it was;
- `step`: the steps' numbers, or a range of them, as 1-4;
- `does`: `w`, `r`, `x`, a bit action, or `-` if the step is void; of a range whether it reads the
  `column` or writes the `row` of a matrix;
- `bit`: the bit of a bit action; `by`: whose step it is. These two may be left out.
The program's pages of that script have to say the same. A lesson with a time line says under which
number it is in the page.

A block of the guide that begins with ```layers PATH shows the first steps of PATH.tower by layers.
Below the bars of an operation are rows `p0 registers`, `p0 number` and `p0 bits`, whose bars are
the operations inside it, from the step after the last one's end to the step that ends it: the
register, and the value if it is written; the number's code; a bit with what a read of it gave, or
what is written, as `bit 3:=1`.
"""
import collections
import os
import re

import cases
import lesson_texts
from pages.layer_reader import Inside, Tower

# The session whose looks come after the script; pages take any number.
LOOK = "999999999"
BAR = re.compile(r"\|(?:-*(write \d+|read)[- ]*([|x>])| (write \d+|read)( refused)?)")
ENDINGS = {"|": "returned", "x": "stopped", ">": "pending"}
IDLE = "-"
GUIDE = "docs/guide/towers.md"
INNER_BAR = re.compile(r"\|-*([^-|>][^|>]*?)-*([|>])")
LAYERS = {"registers": "stamped", "number": "unary", "bits": "regular"}
# an inner operation's words in the page, and what they are in short
SHORT = (
    (r"(R\S+|bit \d+) := (?:.* wrote )?(\d+).*", r"\1:=\2"),
    (r"read (R\S+?)(?::.*)?", r"\1"),
    (r".*?(code \d+).*", r"\1"),
    (r"(bit \d+) (?:is|hit, chosen) (\d)", r"\1=\2"),
)

# begun, ended: steps; ended: None while it is pending; ending: a value of ENDINGS, or "refused"
Operation = collections.namedtuple("Operation", "process what begun ended ending")
# first, last: the steps of a column; begin, end: the columns of its text in the line
Column = collections.namedtuple("Column", "first last begin end")


class Unreadable(Exception):
    """A time line that can't be read as one."""


def columns_of(line):
    """Returns the columns of the row `step`."""
    found = []
    for word in list(re.finditer(r"\S+", line))[1:]:
        first, _, last = word.group().partition("-")
        found.append(Column(int(first), int(last or first), word.start(), word.end()))
    steps = [step for it in found for step in range(it.first, it.last + 1)]
    if steps != list(range(len(steps))):
        raise Unreadable("its steps aren't 0, 1, 2, ..")
    return found


def texts_by_step(line, columns):
    """Returns the text of a row for each step that has one."""
    found, begins = {}, {it.begin: it for it in columns}
    for word in list(re.finditer(r"\S+", line))[1:]:
        if word.start() not in begins:
            raise Unreadable(f"{word.group()} is over no step: {line}")
        column = begins[word.start()]
        found.update(dict.fromkeys(range(column.first, column.last + 1), word.group()))
    return found


def bars(process, line, columns):
    """Returns the operations of a process's row."""
    found, rest = [], BAR.sub("", line)[len(process) :].strip()
    for bar in BAR.finditer(line):
        begun = next((it.first for it in columns if it.begin == bar.start()), None)
        ended = next((it.last for it in columns if it.begin <= bar.end() - 1 < it.end), None)
        what, mark, short, is_refused = bar.groups()
        ending = ENDINGS[mark] if mark else "refused" if is_refused else "returned"
        if begun is None or (ended is None and mark in ("|", "x")):
            raise Unreadable(f"a bar begins or ends over no step: {line}")
        ended = begun if short else None if ending == "pending" else ended
        found.append(Operation(process, what or short, begun, ended, ending))
    if rest:
        raise Unreadable(f"what is no bar: {rest}")
    return found


def rows_of_page(lines):
    """Returns the operations of a block, and its other rows, each as texts by step."""
    rows = {line.split()[0]: line for line in lines}
    if len(rows) != len(lines) or not {"step", "does"} <= set(rows):
        raise Unreadable("it lacks a row `step` or `does`, or has a row twice")
    columns = columns_of(rows.pop("step"))
    processes = [it for it in rows if re.fullmatch(r"p\d", it)]
    operations = [one for it in processes for one in bars(it, rows.pop(it), columns)]
    return (
        sorted(operations),
        {it: texts_by_step(line, columns) for it, line in rows.items()},
        columns,
    )


def ask(program, path, looks):
    """Returns the pages of looks after a script: the lines of each, without their first one."""
    tower = next(
        f"{path}.{kind}" for kind in ("tower", "bench") if os.path.exists(f"{path}.{kind}")
    )
    script = cases.read(f"{path}.script").decode("ascii")
    asked = script + "".join(f"\n{LOOK} {it}" for it in looks)
    ran = cases.run(program, [tower], asked.encode())
    pages = re.findall(rf"^{LOOK}: (.*)\n((?:  .*\n)*)", ran.output.decode("ascii"), re.M)
    if ran.status != 0 or len(pages) != len(looks) or any("refused" in head for head, _ in pages):
        raise Unreadable(f"{path}: the program doesn't answer: {pages[-1:]}")
    return [[line[2:] for line in lines.splitlines()] for _, lines in pages]


def operations_of(history):
    """Returns the operations that a page `history` has."""
    found, going_on = [], {}
    for line in history:
        step, process, kind, *more = line.split()
        if kind == "invoke":
            going_on[process] = Operation(process, " ".join(more), int(step), None, "pending")
        elif process in going_on and kind in ("return", "refused", "stop"):
            ending = {"return": "returned", "stop": "stopped"}.get(kind, kind)
            found.append(going_on.pop(process)._replace(ended=int(step), ending=ending))
    return sorted([*found, *going_on.values()])


def action_of(process, state):
    """Returns the next bit action of a process and its bit, by its line on a page `state`."""
    line = next(it for it in state if it.startswith(f"{process} "))
    named = re.search(r" next (..) (\d+)$", line)
    return named.groups() if named else (IDLE, None)


def phase_of(process, pending):
    """Returns whether a process of a matrix reads its column or writes its row."""
    frame = next(it for it in pending if it.startswith(f"{process} ")).split(" > ")[0]
    return "column" if " read " in frame else "row"


def rows_of_program(program, path, branch, ranges):
    """Returns the operations of a branch, and the rows `does`, `bit` and `by`; ranges: the steps of
    which the phase of a matrix is asked."""
    steps = [line.split()[1:] for line in ask(program, path, [f"steps {branch}"])[0]]
    count = len(steps)
    kinds = ("state", "pending")
    looks = [f"{kind} {branch} {place}" for kind in kinds for place in range(count)]
    history, *pages = ask(program, path, [f"history {branch} {count}", *looks])
    void = {int(it.split()[0]) for it in history if " void " in it}
    rows = {"does": {}, "bit": {}, "by": {}}
    for place, (kind, process, *_) in enumerate(steps):
        name = f"p{process}"
        action, bit = action_of(name, pages[place]) if kind == "g" else (kind, None)
        phase = phase_of(name, pages[count + place]) if place in ranges else None
        rows["does"][place] = IDLE if place in void else phase or action
        rows["by"][place] = process
        if bit and place not in void:
            rows["bit"][place] = bit
    return operations_of(history), rows


def fault_of_block(program, folder, words, lines):
    """Returns what is wrong with a time line, or nothing."""
    name, branch = (words + ["main"])[:2]
    operations, rows, columns = rows_of_page(lines)
    ranges = {step for it in columns if it.last > it.first for step in range(it.first, it.last + 1)}
    wanted, found = rows_of_program(program, f"{folder}/{name}", branch, ranges)
    count = columns[-1].last + 1
    if len(found["by"]) != count:
        return f"{name}: {branch} has {len(found['by'])} steps, the time line {count}"
    if operations != wanted:
        lacks, has = (
            [tuple(it) for it in one if it not in other]
            for one, other in ((wanted, operations), (operations, wanted))
        )
        return f"{name}: {branch} has {lacks}, the time line {has}"
    for row, texts in rows.items():
        for step in range(count):
            right, drawn = found.get(row, {}).get(step), texts.get(step)
            if right != drawn:
                return f"{name}: step {step}, row {row}: {right}, the time line {drawn}"
    return None


def fault_of(path, program):
    """Returns what is wrong with the time lines of a text, or nothing."""
    folder = os.path.dirname(path)
    text, blocks = lesson_texts.text_and_marked_blocks(lesson_texts.TOP / path)
    timelines = [
        (mark.split()[1:], lines) for mark, lines in blocks if mark.split()[:1] == ["timeline"]
    ]
    number = os.path.basename(folder).partition("-")[0].lstrip("0")
    is_named = not timelines or f"lesson {number} in the page" in text
    faults = [] if is_named else [f"it doesn't say that it is lesson {number} in the page"]
    for words, lines in timelines:
        try:
            faults.append(fault_of_block(program, folder, words, lines))
        except Unreadable as fault:
            faults.append(f"{' '.join(words)}: {fault}")
    return "; ".join(it for it in faults if it)


def inner_bars(line, columns):
    """Returns the bars of a row of a layer: the steps of each, and its words; one that goes on has
    no end."""
    found = []
    for bar in INNER_BAR.finditer(line):
        begun = next((it.first for it in columns if it.begin == bar.start()), None)
        ended = next(
            (
                it.last
                for it, after in zip(columns, [*columns[1:], None])
                if it.begin <= bar.end() - 1 and (after is None or bar.end() - 1 < after.begin)
            ),
            None,
        )
        if begun is None or (bar[2] == "|" and ended is None):
            raise Unreadable(f"a bar begins or ends over no step: {line}")
        found.append((begun, None if bar[2] == ">" else ended, bar[1]))
    return found


def short(title):
    """Returns the words of an inner operation in short."""
    return next(
        re.sub(f"^{pattern}$", by, title) for pattern, by in SHORT if re.fullmatch(pattern, title)
    )


def inside_of(program, path):
    """Returns what is inside the operations of a tower file's steps."""
    tower = f"{path}.tower"
    _, line, *steps = cases.read(tower).decode("ascii").splitlines()
    count = len(steps)
    looks = [f"{kind} main {place}" for kind in ("state", "bits") for place in range(count + 1)]
    asked = "".join(f"{LOOK} {it}\n" for it in [*looks, f"history main {count}"])
    ran = cases.run(program, [tower], asked.encode())
    pages = [
        [it[2:] for it in lines.splitlines()]
        for lines in re.findall(rf"^{LOOK}: .*\n((?:  .*\n)*)", ran.output.decode("ascii"), re.M)
    ]
    made = {"state": pages[: count + 1], "bits": pages[count + 1 : -1], "history": pages[-1]}
    return Inside(Tower(line), made)


def fault_of_layers(program, path, lines):
    """Returns what is wrong with a block of layers, or nothing."""
    columns = columns_of(lines[0])
    inside, last = inside_of(program, path), columns[-1].last
    wanted = collections.defaultdict(list)
    for it in (each for each in inside.operations if each.begun <= last):
        wanted[f"p{it.process}"].append((it.begun, it.ended, it.words))
    for it, layer, part, title in inside.nests():
        name = next(word for word, known in LAYERS.items() if known == layer)
        if it.begun <= last:
            wanted[f"p{it.process} {name}"].append(
                (part.begin, part.end if part.is_over else None, short(title))
            )
    found = {}
    for line in lines[1:]:
        name = re.match(r"p\d(?: [a-z]+)?", line)[0]
        found[name] = inner_bars(" " * len(name) + line[len(name) :], columns)
    if found != wanted:
        return f"{path}: " + "; ".join(
            f"{it}: the block has {found.get(it)}, the pages {wanted.get(it)}"
            for it in sorted({*found, *wanted})
            if found.get(it) != wanted.get(it)
        )
    return None


def fault_of_guide(program):
    """Returns what is wrong with the layers that the guide draws, or nothing."""
    blocks = re.findall(
        r"^```layers (\S+)\n(.*?)^```$", cases.read(GUIDE).decode("ascii"), re.M | re.S
    )
    if len(blocks) < 2:
        return "it draws no layers"
    faults = [fault_of_layers(program, path, text.splitlines()) for path, text in blocks]
    return "; ".join(it for it in faults if it)
