"""What edits at a desk cost, and fills."""
import subprocess
import time

import built
from costs.runs import (
    CALLGRIND,
    SHORT_WRITES,
    TOWERS,
    instructions,
    reported_instructions,
    tower_file,
)


def desk(scratch):
    """Edits at a desk against edits on a book, and by two threads against one."""
    program = built.build("thread_tests")

    def counted(test):
        how = {"stdout": subprocess.DEVNULL, "stderr": subprocess.PIPE, "text": True, "check": True}
        return reported_instructions(
            subprocess.run([*CALLGRIND, program, f"desks::many_edits::{test}"], **how).stderr
        )

    def clocked(test):
        begun = time.monotonic()
        subprocess.run(
            [program, f"desks::many_edits::{test}"], stdout=subprocess.DEVNULL, check=True
        )
        return time.monotonic() - begun

    book, at_desk = counted("on_a_book"), counted("at_a_desk")
    print(
        f"instructions of 20,000 edits: {book} on a book, {at_desk} at a desk, {at_desk / book:.3f} times as many"
    )
    pairs = [
        (clocked("twice_as_many_by_one_thread"), clocked("as_many_by_each_of_two_threads"))
        for _ in range(5)
    ]
    one, two = (sorted(it)[2] for it in zip(*pairs))
    print(
        f"milliseconds of 40,000 edits: {one * 1000:.1f} by one thread, {two * 1000:.1f} by two, {two / one:.2f} times as long"
    )


def fills(scratch):
    fills_apart(scratch)
    fills_shared(scratch)
    fills_along_main(scratch)


def fills_apart(scratch):
    """Eight branches that share nothing: four fills, and a page of each branch after them,
    twice."""
    line, count = "matrix 2 2 1 3", 12_500
    path = tower_file(line, TOWERS[line], count, scratch)
    others = [f"b{k}" for k in range(7)]
    apart = "".join(f"0 fork main {count} {name}\n0 detach {name}\n" for name in others)
    # A fill of 64 rounds stores 64 runs of each branch, and a branch has some 98 or up to twice as
    # many segments
    script = apart + "0 fill main\n" * 4

    def spent(workers, text):
        return instructions([path, "--cells", "200000", "--workers", str(workers)], text, scratch)

    without_workers, with_four = (
        spent(workers, script) - spent(workers, apart) for workers in (0, 4)
    )
    print(
        f"instructions of filling eight branches of {count} steps of {line}: {without_workers} with no worker, {with_four} with 4: {with_four / without_workers:.2f}"
    )
    totals = [spent(0, script)]
    for name in ["main", *others, "main", *others]:
        script += f"0 state {name} {count}\n"
        totals.append(spent(0, script))
    pages = [after - before for before, after in zip(totals, totals[1:])]
    print(f"instructions of a page of each branch after them: {' '.join(map(str, pages[:8]))}")
    print(f"the same pages again: {' '.join(map(str, pages[8:]))}")


def fills_shared(scratch):
    """Branches that share all cells: the first fill, of 64 rounds, and all fills that it takes."""
    print("instructions of fills of branches that share all steps of safe 0")
    for branches, count in (
        (1_000, 25_000),
        (1_000, 50_000),
        (250, 100_000),
        (500, 100_000),
        (1_000, 100_000),
    ):
        path = tower_file("safe 0", SHORT_WRITES, count, scratch)
        words = [path, "--cells", "200000", "--branches", "1024"]
        forks = "".join(f"0 fork main {count} b{k}\n" for k in range(branches - 1))
        opened = instructions(words, forks, scratch)
        segments = count // 128 + 1
        needed = segments // 64 + 1
        first, all_of_them = (
            instructions(words, forks + "0 fill main\n" * times, scratch) - opened
            for times in (1, needed)
        )
        print(
            f"  {branches} branches of {count}: {first} the first fill, {all_of_them} all {needed}"
        )


def fills_along_main(scratch):
    """Branches forked along `main`: the first fill after a look at its end, and after an edit
    too."""
    branches, own, path = 400, 300, f"{scratch}/along"
    print(f"instructions of the first fill of {branches} branches of {own} steps, by main's length")
    taken = []
    for count in (25_000, 50_000, 100_000):
        steps = "".join(f"{SHORT_WRITES[at % len(SHORT_WRITES)]}\n" for at in range(count))
        with open(path, "w", encoding="ascii") as file:
            file.write(f"bench 1\nsafe 0\nbranch main 0 0\n{steps}")
            for at in range(branches):
                place = count * (at + 1) // (branches + 1)
                shared = place - place % len(SHORT_WRITES)
                file.write(f"branch b{at} 0 {shared}\n")
                file.writelines(f"{SHORT_WRITES[it % len(SHORT_WRITES)]}\n" for it in range(own))
        words = [path, "--cells", "2000000", "--branches", "1024"]
        look, edit = f"0 state main {count}\n", "0 replace main 1 g 0 1\n"
        taken.append(
            [
                instructions(words, f"{before}0 fill main\n", scratch)
                - instructions(words, before, scratch)
                for before in (look, look + edit)
            ]
        )
        print(f"  {count}: {taken[-1][0]} after a look, {taken[-1][1]} after an edit")
    growths = [f"{last / first - 1:.1%}" for first, last in zip(taken[0], taken[-1])]
    print(f"  growth from the shortest to the longest: {growths[0]}, {growths[1]}")
