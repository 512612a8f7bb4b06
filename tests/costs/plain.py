"""The costs against those of the same program in plain Rust."""
import os
import random

from costs.runs import SHORT_WRITES, TOWERS, instructions, tower_file
from costs.steps import OPERATIONS, whole_operations

# Instructions of the same program in plain Rust, which wrote the same bytes: each of its segments
# knows the one above, it stores runs, has early cutoff and threads, and proves nothing. Of a
# replayed step; and of each row of `plain` but a fill's and a seek's, on random operations, and of
# `stamped 4 15` in place of `stamped 4 3`. (`random` has both programs on the same files.)
PLAIN_STEPS = {
    "safe 0": 50,
    "copies 4 0": 53,
    "regular 4 0": 57,
    "unary 8 2 0": 98,
    "stamped 4 3": 97,
    "matrix 2 2 1 3": 119,
}
PLAIN_FIRST_LOOK = {"safe 0": 54, "stamped 4 3": 114, "matrix 2 2 1 3": 179}
SEED = 5


class Plain:
    """The table of `plain`. Each row: what the program takes, what plain Rust takes, and their
    ratio."""

    def __init__(self, scratch):
        self.scratch, self.ratios = scratch, []

    def row(self, name, taken, of_plain):
        self.ratios.append(taken / of_plain)
        print(f"  {name:64}{taken:12.0f}{of_plain:12}{taken / of_plain:8.2f}", flush=True)

    def cost(self, words, script):
        return instructions(
            [*words, "--cells", "2000000", "--branches", "1024"], script, self.scratch
        )

    def each(self, words, before, script, count):
        return (self.cost(words, before + script) - self.cost(words, before)) / count

    def file_of(self, line, cycle, count, name):
        path = f"{self.scratch}/{name}"
        os.replace(tower_file(line, cycle, count, self.scratch), path)
        return path

    def sum_up(self):
        past = ", ".join(
            f"past {most}: {sum(it > most for it in self.ratios)}" for most in (1.5, 1.3)
        )
        print(
            f"  {past}, at most 1.0: {sum(it <= 1 for it in self.ratios)}, of {len(self.ratios)} rows"
        )


def plain(scratch):
    print("instructions, those of plain Rust, and the ratio of the two")
    table = Plain(scratch)
    for part in (plain_steps, plain_first_looks, plain_edits, plain_long_branch, plain_shared):
        part(table)
    table.sum_up()


def plain_steps(table):
    for line in OPERATIONS:
        path = whole_operations(line, table.scratch)
        count = sum(1 for _ in open(path)) - 2
        first = count // 256 * 128
        page, fill = f"0 state main {first + 11}\n", "".join(
            f"0 state main {place}\n" for place in range(2, 68, 2)
        )
        # The middle one of seven, as the lens sometimes rebuilds its table, which costs more than
        # the steps
        places = range(first + 11, first + 124, 16)
        figures = [
            instructions([path], page + f"0 state main {place}\n{fill}" * 20, table.scratch)
            for place in places
        ]
        step = sorted(far - near for near, far in zip(figures, figures[1:]))[3] / (20 * 16)
        table.row(f"a replayed step of {line}", step, PLAIN_STEPS[line])


def plain_first_looks(table):
    # Plain Rust has no figures for a fill and a seek: they are compared with a first look, which
    # stores as much, and with a replayed step; a fill stores 64 runs of a branch at most, and 8,000
    # steps are 63 segments
    count, most = 10_000, 8_000
    for line, of_plain in PLAIN_FIRST_LOOK.items():
        path = table.file_of(line, TOWERS[line], count, "first")
        look = table.each([path], "", f"0 state main {count}\n", count)
        table.row(f"a step of the first look at the end of 10,000 of {line}", look, of_plain)
        filled = table.file_of(line, TOWERS[line], most, "filled")
        table.row(
            f"  a step of a fill of {most:,}",
            table.each([filled], "", "0 fill main\n", most),
            of_plain,
        )
        begun = f"0 state main {count}\n0 join\n0 break returns 9\n"
        table.row(
            "  a step of a seek past all of their events",
            table.each([path], begun, "0 seek\n", count),
            PLAIN_STEPS[line],
        )


def plain_edits(table):
    path, looked = table.file_of("safe 0", SHORT_WRITES, 10_000, "short"), "0 state main 10000\n"
    table.row("opening a file of 10,000 steps", table.cost([path], ""), 2_993_446)
    for where, place, edit, look in (
        ("front", 0, 3_806, 15_832),
        ("middle", 5_000, 2_909, 15_685),
        ("end", 9_999, 2_659, 10_492),
    ):
        edits = [f"0 replace main {place} g 0 {i % 2}\n" for i in range(20)]
        alone = table.each([path], looked, "".join(edits), 20)
        table.row(f"a replacement at the {where} of 10,000 steps", alone, edit)
        both = table.each([path], looked, "".join(it + looked for it in edits), 20)
        table.row("  the look at the end after it", both - alone, look)
    chance = random.Random(SEED)
    for where, place, few, many in (
        ("0", lambda i: 0, 3_644, 6_187),
        ("the end", lambda i: i, 1_902, 1_901),
        ("a random place", lambda i: chance.randrange(i + 1), 3_153, 4_102),
    ):
        lines = [f"0 insert main {place(i)} r 1\n" for i in range(20_000)]
        table.row(
            f"an insert at {where}, of the first 5,000",
            table.each([], "", "".join(lines[:5_000]), 5_000),
            few,
        )
        last = table.each([], "".join(lines[:10_000]), "".join(lines[10_000:]), 10_000)
        table.row(f"an insert at {where}, of the last 10,000 of 20,000", last, many)


def plain_long_branch(table):
    short, looked = table.file_of("safe 0", SHORT_WRITES, 10_000, "short"), "0 state main 10000\n"
    long, end = table.file_of("safe 0", SHORT_WRITES, 1_000_000, "long"), "0 state main 1000000\n"
    table.row("a step of opening 1,000,000", table.cost([long], "") / 1e6, 267)
    table.row("a step of the first look at their end", table.each([long], "", end, 1e6), 50)
    table.row(
        "the same look again, at 10,000 steps", table.each([short], looked, looked * 10, 10), 4_440
    )
    table.row(
        "the same look again, at 1,000,000 steps", table.each([long], end, end * 10, 10), 4_520
    )
    replaced = table.each([long], "", "0 replace main 999999 g 0 1\n" * 20, 20)
    table.row("a replacement at the end of 1,000,000 steps", replaced, 2_753)
    both = table.each([long], end, f"0 replace main 500000 g 0 1\n{end}", 1)
    table.row("a replacement in their middle, and the look at their end", both, 502_000)


def plain_shared(table):
    path, n = table.file_of("safe 0", SHORT_WRITES, 100_000, "shared"), 100_000
    own = [f"0 fork main {i * 97 + 1} a{i}\n" for i in range(1_000)]
    at_end = [f"0 fork main {n} a{i}\n" for i in range(1_000)]
    table.row(
        "a fork at the end of 100,000 steps",
        table.each([path], "", "".join(at_end[:100]), 100),
        3_150,
    )
    table.row(
        "a fork at a place of its own, of the first 250",
        table.each([path], "", "".join(own[:250]), 250),
        7_700,
    )
    last = table.each([path], "".join(own[:500]), "".join(own[500:]), 500)
    table.row("a fork at a place of its own, of the last 500 of 1,000", last, 11_400)
    many = "".join(at_end)
    chance = random.Random(SEED)
    spread = "".join(f"0 insert main {chance.randrange(n)} r 1\n" for _ in range(50))
    table.row(
        "an insert at a random place that 1,000 forks share",
        table.each([path], many, spread, 50),
        11_500,
    )
    table.row(
        "an insert at 0 that 1,000 forks share",
        table.each([path], many, "0 insert main 0 r 1\n" * 50, 50),
        13_100,
    )
    table.row(
        "a removal at 0 that 1,000 forks share",
        table.each([path], many, "0 remove main 0\n" * 50, 50),
        13_200,
    )
    look = table.each([path], f"0 state main {n}\n" + many, f"0 state a499 {n}\n", 1)
    table.row("the look at the end of the 500th of 1,000 forks", look, 20_123)
