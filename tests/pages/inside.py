"""What is drawn inside operations, under node, on random schedules of each kind of tower, is what
tests/pages/layer_reader.py finds there."""
import json
import random
import re
import shutil
import subprocess
import tempfile

from pages import build
from pages.layer_reader import Inside, Tower
from trials import Test, in_short

SEED, COUNT = 81, 200
# How many steps a schedule has, by its tower's kind, and of any other kind
STEPS = {"matrix": 200}
FEW_STEPS = 80
TOWERS = (
    ("safe 0", "safe 1"),
    ("copies 2 0", "copies 3 1"),
    ("regular 1 0", "regular 2 1"),
    ("unary 4 1 0", "unary 3 2 1", "unary 5 2 3"),
    ("stamped 2 1", "stamped 2 2", "stamped 3 3"),
    ("matrix 2 2 1 3", "matrix 2 2 2 2", "matrix 3 2 1 1"),
)
# what words may be shortened to, the words for all of a bar or a box first
TAGGED = r"tag (\d+), p(\d) wrote (\d+)"
SHORTER = (
    (r"bit (\d+) is ([01])", (r"\1=\2", r"\1")),
    (r"bit (\d+) hit, chosen [01]", (r"bit \1 hit", r"bit \1", r"\1")),
    (r"bit (\d+) is being read", ("bit \\1 \u2026", r"\1")),
    (r"bit (\d+) := ([01])(?: \(skipped: .*\))?", (r"bit \1 := \2", r"\1:=\2", r"\1")),
    (r"copy for (p\d) := ([01])", (r"\1 := \2", r"\1")),
    (r"its copy is ([01])", (r"=\1",)),
    (r"its copy", ("?",)),
    (r"write (code )?(\d+)(?: \(.*\))?", (r"write \1\2", r":= \2")),
    (r"scan up to bit \d+: (code )?(\d+)(?: \(.*\))?", (r"scan: \1\2", r"= \2")),
    (r"scan, at bit \d+", ("scan",)),
    (
        rf"R\[(\d)\]\[(\d)\] := {TAGGED} \(stamp \d+\)",
        (
            r"R[\1][\2] := tag \3, p\4 wrote \5",
            r"R[\1][\2] := t\3 p\4: \5",
            r"\1\2 := t\3 p\4: \5",
            r"R[\1][\2] :=",
            r"R[\1][\2]",
            r"\1\2",
        ),
    ),
    (
        rf"read R\[(\d)\]\[(\d)\]: {TAGGED}(?: \(remembered; found code \d+\))?",
        (
            r"read R[\1][\2]: t\3 p\4: \5",
            r"R[\1][\2]: t\3 p\4: \5",
            r"\1\2: t\3 p\4: \5",
            r"read R[\1][\2]",
            r"R[\1][\2]",
            r"\1\2",
        ),
    ),
    (r"read R\[(\d)\]\[(\d)\]", (r"R[\1][\2]", r"\1\2")),
    (r"code (\d+) = (stamp (\d+), value (\d+))", (r"\2", r"s\3: \4", r"\1")),
    (rf"code (\d+) = ({TAGGED}, stamp \d+)", (r"\2", r"t\3 p\4: \5", r"\1")),
    (TAGGED, (r"t\1 p\2: \3",)),
    (r"a scan finds code (\d+) or code (\d+)", (r"code \1 or \2", r"\1 or \2", r"\1|\2")),
    (r"a scan finds (\d+) or (\d+)", (r"finds \1 or \2", r"\1 or \2", r"\1|\2")),
    (r"a scan finds (\d+)", (r"finds \1", r"\1")),
    (r"still code (\d+) = .*", (r"still code \1", r"still \1", r"\1")),
    (rf"still code \d+ = {TAGGED}, stamp \d+", (r"still t\1 p\2: \3",)),
)
# likewise the words on an operation's own bar
SHORTER_BARS = (
    (r"(write \d+) = (code \d+) = .*", (r"\1 = \2", r"\1")),
    (r"read: found code (\d+) = .*", (r"read: found code \1", r"found \1", "read")),
    (
        r"read: found code (\d+), but remembers code (\d+) = .*",
        (r"read: found \1, remembers \2", r"found \1, kept \2", r"\1, kept \2"),
    ),
    (
        r"read: the first 1 that it found is bit (\d+)",
        (r"read: found bit \1", r"found bit \1", "read"),
    ),
    (r"read: bit \d+ (?:was|is) .*", ("read",)),
    (r"(write \d+|read): reads its column", (r"\1",)),
    (
        rf"(write \d+|read) = (?:(R\[\d\]\[\d\]): )?{TAGGED}",
        (
            r"\1 = \2: t\3 p\4: \5",
            r"\1 = tag \3, p\4 wrote \5",
            r"\1 = t\3 p\4: \5",
            r"\1",
        ),
    ),
    (r"(w)rite (\d+).*", (r"\1 \2",)),
    (r"(r)ead.*", (r"\1",)),
)
STRANGE = re.compile("undefined|NaN|null|object")
# what a column is wide in inside.mjs, and how far a bar's ends may be from its steps'
COLUMN, GAP = 3000, 3


def difference(found, wanted, label):
    """Returns in what two lists differ; None: nothing."""
    odd = [it for it in found if it not in wanted][:2], [it for it in wanted if it not in found][:2]
    if any(odd):
        return f"{label}: drawn {odd[0]}, wanted {odd[1]}"
    return (
        None if len(found) == len(wanted) else f"{label}: {len(found)} drawn, {len(wanted)} wanted"
    )


def fault_of_nests(inside, drawn):
    """Returns what is wrong with the bars of inner operations; None: nothing."""
    wanted = [
        (layer, it.process, part.begin, part.end, part.is_write, title)
        for it, layer, part, title in inside.nests()
    ]
    found = [
        (it["layer"], it["process"], it["from"], it["to"], " writes" in it["kind"], it["title"])
        for it in drawn
    ]
    going = {(it["layer"], it["process"], it["from"]) for it in drawn if "going" in it["kind"]}
    unfinished = {
        (layer, it.process, part.begin) for it, layer, part, _ in inside.nests() if not part.is_over
    }
    hits = {(it["process"], it["from"]) for it in drawn if "is-hit" in it["kind"]}
    hit_reads = {
        (it.process, part.begin)
        for it, layer, part, _ in inside.nests()
        if layer == "regular"
        and not part.is_write
        and part.is_over
        and inside.result_of_read(it, part)[1]
    }
    far = [
        it
        for it in drawn
        if abs(it["x"] - it["from"] * COLUMN) > GAP
        or (
            "going" not in it["kind"] and abs(it["x"] + it["width"] - (it["to"] + 1) * COLUMN) > GAP
        )
    ]
    return (
        difference(found, wanted, "bars")
        or difference(going, unfinished, "bars that go on")
        or difference(hits, hit_reads, "hits")
        or (f"a bar isn't at its steps: {far[0]}" if far else None)
    )


def fault_of_rows(inside, drawn):
    """Returns what is wrong with the rows of numbers; None: nothing."""
    rows = {it["name"]: {each["row"]: each for each in it["rows"]} for it in drawn}
    for register, name in enumerate(inside.tower.registers):
        scans = inside.scans(register)
        bands = inside.bands(register)
        if name not in rows:
            if scans or len({it for it, _ in bands["number"]}) > 1:
                return f"{name} has no row"
            continue
        who = divmod(register, inside.tower.side) if inside.tower.side else (0, 1)
        named = {"number": name, "best": f"p{who[1]} remembers", "stamp": f"p{who[0]}'s stamp"}
        for kind, wanted in bands.items():
            if not wanted:
                continue
            boxes, at = rows[name][named[kind]]["boxes"], {}
            for begin, end, words, box in boxes:
                left = 0 if begin == 0 else (begin - 0.5) * COLUMN
                if abs(box["x"] - left) > GAP:
                    return f"{named[kind]}: a box isn't at its place {begin}: {box}"
                at.update(
                    {place: (words, box["class"] == "written") for place in range(begin, end + 1)}
                )
            fault = difference(
                [at.get(place) for place in range(inside.length + 1)], wanted, named[kind]
            )
            if fault or [at.get(place) for place in range(inside.length + 1)] != wanted:
                return fault or f"{named[kind]} has other places"
        if fault := difference(sorted(rows[name][name]["scans"]), scans, f"scans of {name}"):
            return fault
    return None


def fault_of(tower, middle, made):
    """Returns what is wrong in what is drawn of a schedule; None: nothing."""
    inside, drawn = Inside(Tower(tower), made["pages"]), made["whole"]
    bars = [(it.begun, it.process, inside.words_of_bar(it)) for it in inside.operations]
    stories = {(begun, process): words for begun, process, words in drawn["stories"]}
    returned = [it for it in inside.operations if it.value is not None]
    said = {(it.begun, it.process): inside.story(it) for it in returned}
    faults = [
        fault_of_nests(inside, drawn["nests"]),
        fault_of_rows(inside, drawn["rows"]),
        fault_of_labels(inside, drawn),
        difference(
            [(it["begun"], it["process"], it["words"]) for it in drawn["bars"]],
            bars,
            "words on bars",
        ),
        difference({it: stories.get(it) for it in said}.items(), said.items(), "sentences"),
    ]
    # what begins after the middle is drawn alike from there, and what is cut says nothing strange
    later = [it for it in drawn["nests"] if begun_of(inside, it) >= middle]
    from_there = [it for it in made["middle"]["nests"] if begun_of(inside, it) >= middle]
    faults.append(difference(from_there, later, "bars from the middle"))
    faults += (
        [f"it says {words}" for words in texts_in(made) if STRANGE.search(words)]
        + drawn["faults"]
        + made["middle"]["faults"]
    )
    return next((f"{tower}: {it}" for it in faults if it), None)


def is_short_for(words, whole, table):
    """Returns whether words say the same as those that say all, in short."""
    return words == whole or any(
        (found := re.fullmatch(pattern, whole)) and words in [found.expand(it) for it in shorter]
        for pattern, shorter in table
    )


def fault_of_labels(inside, drawn):
    """Returns which words on narrow bars and boxes don't say what is so, in short; None: none."""
    whole = {(it.begun, it.process): inside.words_of_bar(it) for it in inside.operations}
    for title, texts in drawn["labels"]:
        if odd := [it for it in texts if not is_short_for(it, title, SHORTER)]:
            return f"it has {odd[0]!r} for {title!r}"
    for it in drawn["short"]:
        words = whole[it["begun"], it["process"]]
        if it["words"] and not is_short_for(it["words"], words, SHORTER_BARS):
            return f"a bar has {it['words']!r} for {words!r}"
    return None


def begun_of(inside, nest):
    """Returns the step that invoked the operation that an inner bar is drawn in."""
    return max(
        it.begun
        for it in inside.operations
        if it.process == nest["process"] and it.begun < nest["from"]
    )


def texts_in(made):
    """Yields all words that are drawn or said."""
    for drawn in (made["whole"], made["middle"]):
        yield from (it["title"] for it in drawn["nests"])
        yield from (it["words"] for it in drawn["bars"])
        yield from (words for *_, words in drawn["stories"])
        yield from (box[2] for it in drawn["rows"] for row in it["rows"] for box in row["boxes"])


def random_schedule(chance, line):
    """Returns random steps of a tower; in one of four schedules processes stop."""
    tower, steps, process = Tower(line), [], 0
    has_stops = chance.random() < 0.25
    for _ in range(STEPS.get(tower.kind, FEW_STEPS)):
        if chance.random() < 0.3:
            process = chance.randrange(tower.processes)
        kind = chance.randrange(10)
        can_write, can_read = tower.side or process == 0, tower.side or process > 0
        if kind == 0 and can_write:
            steps.append(f"w {process} {chance.randrange(tower.values)}")
        elif kind == 1 and can_read:
            steps.append(f"r {process}")
        elif has_stops and chance.random() < 0.02:
            steps.append(f"x {process}")
        else:
            steps.append(f"g {process} {chance.randrange(2)}")
    return "".join(f"{it}\n" for it in ("tower 2", line, *steps))


def drawn(schedules):
    """Yields what is drawn of each schedule."""
    with tempfile.TemporaryDirectory() as scratch:
        build.put_modules(scratch, "inside.mjs")
        with open(f"{scratch}/schedules", "w", encoding="ascii") as file:
            file.writelines(f"{json.dumps(it)}\n" for it in schedules)
        words = ["node", f"{scratch}/inside.mjs", build.made_module(), f"{scratch}/schedules"]
        with subprocess.Popen(
            words, stdout=subprocess.PIPE, stderr=subprocess.PIPE, text=True
        ) as node:
            yield from map(json.loads, node.stdout)
            errors = node.stderr.read()
    if node.returncode:
        raise ValueError(f"node ended with status {node.returncode}: {errors.strip()[-300:]}")


def fault_of_kind(lines, count):
    """Returns what is wrong in what is drawn of random schedules of some towers; None: nothing."""
    chance, faults, tried = random.Random(f"{SEED} {lines[0]}"), [], 0
    schedules = [
        (random_schedule(chance, lines[it % len(lines)]), chance.randrange(20, 50))
        for it in range(count)
    ]
    for (text, middle), made in zip(schedules, drawn(schedules)):
        tried += 1
        try:
            fault = fault_of(text.split("\n")[1], middle, made)
        except AssertionError as odd:
            fault = f"it isn't so that {odd}"
        if fault:
            faults.append(fault)
    if tried != count:
        return f"{tried} of {count} schedules were drawn"
    return in_short(faults, f"{count} schedules")


def tests():
    has_node = shutil.which("node")
    return [
        Test(
            f"inside {it[0].split()[0]}, {COUNT} schedules",
            (lambda it=it: fault_of_kind(it, COUNT)) if has_node else None,
        )
        for it in TOWERS
    ]
