"""What random whole operations cost on three towers, against those of plain Rust."""
import json
import os
import subprocess

from costs import runs
from costs.mixed import numbers
from costs.pieces import costs_of, residents

# The most actions of an operation, the fewest steps of two once stamps are spent, and the values
TOWERS = {"safe 0": (2, 6, 2), "stamped 4 15": (128, 100, 4), "matrix 2 2 1 3": (110, 100, 2)}
LENGTHS = (10_000, 100_000, 1_000_000)
EDITS = 10
# Branches that share steps which are edited, and how many steps
FEW, FEW_STEPS, MANY, MANY_STEPS, SHARED_EDITS = 200, 10_000, 1_000, 100_000, 100
INSERTS = (5_000, 5_000, 10_000)
WORDS = ["--cells", "2000000", "--branches", "1024"]
# What the plain Rust program of `plain` took, which wrote the same bytes; taken once by this script
with open(f"{os.path.dirname(__file__)}/at_random.json", encoding="ascii") as file:
    PLAIN = json.load(file)


class Table:
    """Rows of what the program takes at some sizes, and its ratios to what plain Rust takes."""

    def __init__(self, title, scratch):
        self.title, self.scratch, self.rows = title, scratch, {}

    def add(self, row, figure):
        self.rows.setdefault(row, []).append(figure)

    def write(self, sizes):
        """Prints the rows, and returns the ratios."""
        print(f"{self.title}, {sizes}: what is taken, and its ratio to what plain Rust takes")
        ratios = []
        for row, figures in self.rows.items():
            of_plain = PLAIN[self.title][row]
            against = [taken / plain for taken, plain in zip(figures, of_plain)]
            ratios += against
            costs = "".join(f"{it:13.1f}" for it in figures)
            print(f"  {row:50}{costs}" + "".join(f"{it:7.2f}" for it in against), flush=True)
        return ratios


def invocations(line, drawn):
    """Returns what begins an operation of each of two processes."""
    values = TOWERS[line][2]
    if line.startswith("matrix"):
        return [f"w {it} {next(drawn) % values}" if next(drawn) % 2 else f"r {it}" for it in (0, 1)]
    return [f"w 0 {next(drawn) % values}", "r 1"]


def given_steps(line):
    """Yields steps of pairs of operations, one in five overlapping, with too many actions."""
    (actions, least, _), drawn = TOWERS[line], numbers()
    for pair in range(LENGTHS[-1] // least + 1):
        first, second = (
            [it] + [f"g {process} {next(drawn) % 2}" for _ in range(actions)]
            for process, it in enumerate(invocations(line, drawn))
        )
        if pair % 5 == 0:
            while first or second:
                yield (first if first and (not second or next(drawn) % 2) else second).pop(0)
        else:
            yield from first + second if next(drawn) % 2 else second + first


def steps_without_void(line, scratch):
    """Returns the steps of the longest branch: of the given ones those that aren't void."""
    given = list(given_steps(line))
    command = [
        runs.PROGRAM,
        runs.tower_file(line, given, len(given), scratch),
        "--cells",
        str(len(given)),
    ]
    how = {"stdin": subprocess.PIPE, "stdout": subprocess.PIPE, "text": True}
    with subprocess.Popen(command, **how) as program:
        program.stdin.write(f"0 history main {len(given)}\n")
        program.stdin.close()
        void = {int(it.split(maxsplit=1)[0]) for it in program.stdout if " void " in it}
    return [it for at, it in enumerate(given) if at not in void][: LENGTHS[-1]]


def edits_of(steps):
    """Yields rows of edits: their name, the edits, and the steps that each adds."""
    places = (("front", 5), ("middle", len(steps) // 2), ("end", len(steps) - 8 * EDITS))
    for name, first in places:
        chosen = [it for it in range(first, len(steps)) if steps[it].startswith("g")][:EDITS]
        turned = ((at, *steps[at].split()[1:]) for at in chosen)
        lines = [f"0 replace main {at} g {who} {1 - int(choice)}\n" for at, who, choice in turned]
        yield f"a replacement near the {name}", lines, 0
    yield "an insert near the front", ["0 insert main 5 r 1\n"] * EDITS, 1


def add_looks_and_edits(steps, line, table):
    """Adds what a branch of these steps costs: its opening, looks, and edits."""
    look, edits = f"0 state main {len(steps)}\n", list(edits_of(steps))
    pieces = [look, look]
    for _, lines, adds in edits:
        for count, it in enumerate(lines, 1):
            pieces += [it, f"0 state main {len(steps) + adds * count}\n"]
    path = runs.tower_file(line, steps, len(steps), table.scratch)
    taken = costs_of([path, *WORDS], pieces, table.scratch)
    for row in ("opening", "the first look at the end", "the same look again"):
        table.add(row, taken.pop(0))
    for at, (row, *_) in enumerate(edits):
        its = taken[2 * EDITS * at : 2 * EDITS * (at + 1)]
        table.add(row, sum(its[::2]) / EDITS)
        table.add(f"{row}: the look after it", sum(its[1::2]) / EDITS)


def shared_by_few(steps, scratch):
    """Inserts of steps that 200 forks share: the first ones, the next ones, and the last ones."""
    table = Table("instructions, safe 0, inserts that 200 forks share", scratch)
    path = runs.tower_file("safe 0", steps, FEW_STEPS, scratch)
    forks = "".join(f"0 fork main {FEW_STEPS} a{i}\n" for i in range(FEW))
    for name in ("0", "any place"):
        drawn, count, pieces = numbers(), FEW_STEPS, [forks]
        for more in INSERTS:
            places = [0 if name == "0" else next(drawn) % (count + i) for i in range(more)]
            pieces.append("".join(f"0 insert main {it} r 1\n" for it in places))
            count += more
        for cost, more in zip(costs_of([path, *WORDS], pieces, scratch)[2:], INSERTS):
            table.add(f"an insert at {name}", cost / more)
    return table.write("of the first 5,000, the next 5,000, the last 10,000")


def edits_that_many_share(places):
    """Yields rows of lines: forks at these places, edits that all share, and looks."""
    drawn, half = numbers(2), MANY_STEPS // 2
    spread = [next(drawn) % half for _ in range(2 * SHARED_EDITS)]
    yield "a fork", [f"0 fork main {at} a{i}\n" for i, at in enumerate(places)]
    replaced, inserted = spread[:SHARED_EDITS], spread[SHARED_EDITS:]
    yield "a replacement that all share", [f"0 replace main {it} r 1\n" for it in replaced]
    yield "an insert at 0", ["0 insert main 0 g 0 0\n"] * SHARED_EDITS
    yield "an insert at any place", [f"0 insert main {it} g 0 0\n" for it in inserted]
    yield "a removal at 0", ["0 remove main 0\n"] * SHARED_EDITS
    yield "a look at `main` after these", [f"0 state main {MANY_STEPS}\n"]
    yield "a look at the 500th fork then", [f"0 state a499 {half}\n"]


def shared_by_many(steps, scratch):
    """Edits of steps that 1,000 forks share, and looks after them."""
    table = Table("instructions, safe 0, 1,000 forks", scratch)
    path = runs.tower_file("safe 0", steps, MANY_STEPS, scratch)
    drawn, half = numbers(3), MANY_STEPS // 2
    for places in ([MANY_STEPS] * MANY, [half + next(drawn) % half for _ in range(MANY)]):
        rows = dict(edits_that_many_share(places))
        pieces = [f"0 state main {MANY_STEPS}\n", *("".join(it) for it in rows.values())]
        for (row, lines), cost in zip(rows.items(), costs_of([path, *WORDS], pieces, scratch)[2:]):
            table.add(row, cost / len(lines))
    return table.write("at the end, and each at a place of its own")


def resident(steps, scratch):
    """Bytes of the resident memory of a fork."""
    table = Table("bytes that are resident, safe 0", scratch)
    for count in LENGTHS[1:]:
        words = [runs.tower_file("safe 0", steps, count, scratch), *WORDS]
        look, taken = f"0 state main {count}\n", []
        # A refused fork has a log entry, and nothing else; plain Rust's program has no log
        for line in (f"0 fork main {count} a%d\n", "0 fork main 0 main\n"):
            forks = "".join(line.replace("%d", str(i)) for i in range(MANY))
            _, before, after = residents(words, [look, forks])
            taken.append((after - before) / MANY)
        table.add("a fork", taken[0])
        table.add("a fork, less its log entry", taken[0] - taken[1])
    return table.write("1,000 forks of 100,000 and 1,000,000 steps")


def random(scratch):
    """Prints the tables, and how many of the ratios are at most 1.0."""
    ratios = []
    for line in TOWERS:
        steps, table = steps_without_void(line, scratch), Table(f"instructions, {line}", scratch)
        for count in LENGTHS:
            add_looks_and_edits(steps[:count], line, table)
        ratios += table.write("10,000, 100,000 and 1,000,000 steps")
        if line == "safe 0":
            for part in (shared_by_few, shared_by_many, resident):
                ratios += part(steps, scratch)
    print(f"  at most 1.0: {sum(it < runs.ROUNDED_TO_ONE for it in ratios)} of {len(ratios)}")
