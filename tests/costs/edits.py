"""What inserts cost, forks, and edits of what many branches share."""
import os
import random

from costs.runs import PAD, SHORT_WRITES, heap_at_reads, instructions, tower_file

WORDS = ["--cells", "2000000", "--branches", "1024"]
LENGTHS = (50_000, 100_000, 200_000)
SEED = 5


def inserts(scratch):
    chance = random.Random(SEED)
    places = {
        "start": lambda i: 0,
        "middle": lambda i: i // 2,
        "end": lambda i: i,
        "random": lambda i: chance.randrange(i + 1),
    }
    print("instructions of an insert, of 25,000, 50,000 and 100,000")
    for name, place in places.items():
        figures = []
        for count in (25_000, 50_000, 100_000):
            script = "".join(f"0 insert main {place(i)} r 1\n" for i in range(count))
            figures.append(instructions(["--cells", "200000"], script, scratch) / count)
        print(f"  {name:16}" + "".join(f"{it:10.0f}" for it in figures))
    script = "0 insert main 0 r 1\n" * 20_000
    print(f"  20,000 at the start: {instructions([], script, scratch)} in all")


def each_in(scratch):
    """Returns a function that gives the instructions of each of `count` lines of a script, after
    others."""

    def each(path, before, script, count):
        return (
            instructions([path, *WORDS], before + script, scratch)
            - instructions([path, *WORDS], before, scratch)
        ) / count

    return each


def row(name, figures):
    print(f"  {name:48}" + "".join(f"{it:11.0f}" for it in figures))


def shared(scratch):
    paths = [(count, f"{scratch}/{count}") for count in LENGTHS]
    for count, path in paths:
        os.replace(tower_file("safe 0", SHORT_WRITES, count, scratch), path)
    shared_by_length(paths, each_in(scratch))
    shared_by_forks(*paths[1], each_in(scratch))
    bytes_of_a_fork(paths, scratch)


def shared_by_length(paths, each):
    print("instructions, of a branch of 50,000, 100,000 and 200,000 steps")
    row(
        "a fork at its end",
        [
            each(path, "", "".join(f"0 fork main {n} a{i}\n" for i in range(100)), 100)
            for n, path in paths
        ],
    )
    row(
        "a replacement at its end",
        [each(path, "", f"0 replace main {n - 1} g 0 1\n" * 100, 100) for n, path in paths],
    )

    def inserts_from(at):
        return "".join(f"0 insert main {at + i} r 1\n" for i in range(100))

    row("an insert at its end", [each(path, "", inserts_from(n), 100) for n, path in paths])
    row("an insert in its middle", [each(path, "", inserts_from(n // 2), 100) for n, path in paths])
    settled = [(n, path, f"0 state main {n}\n") for n, path in paths]
    row("the same page again", [each(path, page, page * 10, 10) for _, path, page in settled])
    replaced = [
        each(path, page, f"0 replace main {n // 2} g 0 1\n{page}" * 10, 10)
        for n, path, page in settled
    ]
    row("a replacement in its middle, and the page", replaced)


def shared_by_forks(n, path, each):
    forks = (250, 500, 1000)
    print(f"instructions, of 250, 500 and 1,000 forks of a branch of {n} steps")
    row(
        "a fork at a place of its own",
        [
            each(path, "", "".join(f"0 fork main {i * 97 + 1} a{i}\n" for i in range(k)), k)
            for k in forks
        ],
    )
    many = {k: "".join(f"0 fork main {n} a{i}\n" for i in range(k)) for k in forks}
    chance = random.Random(SEED)
    spread = "".join(f"0 insert main {chance.randrange(n)} r 1\n" for _ in range(50))
    row(
        "an insert at a random place that all share",
        [each(path, many[k], spread, 50) for k in forks],
    )
    row(
        "an insert at 0 that all share",
        [each(path, many[k], "0 insert main 0 r 1\n" * 50, 50) for k in forks],
    )
    row(
        "a removal at 0 that all share",
        [each(path, many[k], "0 remove main 0\n" * 50, 50) for k in forks],
    )
    looked = {k: "".join(f"0 state a{i} {n}\n" for i in range(k)) for k in forks}
    row(
        "a look at the end of each",
        [each(path, f"0 state main {n}\n" + many[k], looked[k], k) for k in forks],
    )


def bytes_of_a_fork(paths, scratch):
    figures = []
    for count, path in paths:
        script = PAD + "".join(f"0 fork main {count} a{i}\n" for i in range(1000)) + PAD
        held = [now for now, _ in heap_at_reads([path, *WORDS], script, scratch)]
        figures.append((held[-1] - held[0]) / 1000)
    print("bytes of the heap, of 1,000 forks of a branch of 50,000, 100,000 and 200,000 steps")
    row("a fork", figures)
