"""The same operations on two towers, under node: they begin and end in the same order on both.

An operation that takes no action on the second tower, as a write of the value that is there, ends
there as it begins.
"""
import json
import random
import shutil
import tempfile

from commands import output_of
from pages import build
from trials import Test, in_short

SEED, COUNT, STEPS = 7, 20, 40
FIRST = ("unary 2 1 0", "stamped 2 20", "regular 1 1", "unary 4 1 2")
# lesson 5's unary schedule, whose second read is the older value
INVERSION = (
    "unary 2 1 0",
    "w 0 1,g 0 0,g 0 0,g 0 0,r 1,g 1 0,g 1 0,g 1 0,g 1 0,r 1,g 1 0,g 1 1,g 0 0".split(","),
)


def random_schedule(chance, tower):
    """Returns a tower and random steps of its writer and of one reader."""
    values, process, steps = int(tower.split()[1]) if "regular" not in tower else 2, 0, []
    for _ in range(STEPS):
        if chance.random() < 0.33:
            process = chance.randrange(2)
        kind = chance.randrange(8)
        if kind == 0:
            steps.append("r 1" if process else f"w 0 {chance.randrange(values)}")
        else:
            steps.append(f"g {process} {chance.randrange(2)}")
    return tower, steps


def operations(history):
    """Returns each operation's process and name, and the steps that begin and end it, or None."""
    found, live = [], {}
    for step, process, kind, *words in (line.split() for line in history if line != "none"):
        if kind == "invoke":
            live[process] = [process, " ".join(words), int(step), None]
            found.append(live[process])
        elif kind == "return":
            live.pop(process)[3] = int(step)
    return found


def order_of_events(found, at_once):
    """Returns in what order operations begin and end, but for the ends of those that end at once on
    the second tower."""
    events = [(begun, 0, f"{process} begins {name}") for process, name, begun, _ in found]
    events += [
        (ended, 1, f"{process} ends")
        for index, (process, _, _, ended) in enumerate(found)
        if ended is not None and index not in at_once
    ]
    return [words for *_, words in sorted(events)]


def fault_of(tower, other, first, second):
    """Returns in which order operations begin and end on two towers, by their histories; None: in
    the same."""
    there, here = operations(first), operations(second)
    at_once = {index for index, (_, _, begun, ended) in enumerate(here) if begun == ended}
    was, became = order_of_events(there, at_once), order_of_events(here, at_once)
    return f"{tower} on {other}: {was} became {became}" if was != became else None


def fault_of_transfers():
    """Returns which schedules don't keep their order; None: all do."""
    chance = random.Random(SEED)
    schedules = [
        INVERSION,
        *(random_schedule(chance, FIRST[it % len(FIRST)]) for it in range(COUNT)),
    ]
    with tempfile.TemporaryDirectory() as scratch:
        build.put_modules(scratch, "aligned.mjs")
        with open(f"{scratch}/schedules", "w", encoding="ascii") as file:
            file.writelines(f"{json.dumps(it)}\n" for it in schedules)
        words = ["node", f"{scratch}/aligned.mjs", build.made_module(), f"{scratch}/schedules"]
        made = [json.loads(it) for it in output_of(words).splitlines()]
    if len(made) < 2 * len(schedules):
        return f"only {len(made)} schedules were made of {len(schedules)}"
    faults = [it for it in (fault_of(*each[:4]) for each in made) if it]
    stamped = next(
        second
        for tower, other, _, second, _ in made
        if (tower, other) == (INVERSION[0], "stamped 2 1")
    )
    reads = [line.split()[-1] for line in stamped if " p1 return " in line]
    if reads != ["1", "1"]:
        faults.append(f"lesson 5 on a stamped register reads {reads}")
    return in_short(faults, len(made))


def tests():
    return [
        Test(
            "aligned operations on two towers", fault_of_transfers if shutil.which("node") else None
        )
    ]
