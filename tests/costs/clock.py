"""What workers gain, by the clock: run this alone, on a machine that does nothing else.

A fill is timed from its line to its answer, so without the opening. The numbers of workers are
tried one after the other, over and over, each time from the next one on. 0 is there twice: the
ratio of these two says how far the others can be trusted.
"""
import os
import statistics
import time

from costs import pieces, runs

LINE = "matrix 2 2 1 3"
# Branches that share nothing, and the steps of each. A fill has at most 64 rounds, of 128 steps of
# each branch, and a round starts a thread for each 16,384 of its steps. So 16 branches start none,
# however long they are: what workers seem to change there shows how little the clock can say.
SIZES = ((16, 60_000), (128, 8_192), (256, 8_192), (1_000, 4_096))
WORKERS = (0, 0, 1, 2, 3, 4)
# Each fill is run at least 6 and at most 60 times, and after 300 seconds in all only 6 times.
LEAST, MOST, SECONDS = 6, 60, 300


def bench_file(branches, steps, scratch):
    """Writes a bench file of branches that share nothing, and returns its path."""
    path, cycle = f"{scratch}/apart", runs.TOWERS[LINE]
    own = "".join(f"{cycle[at % len(cycle)]}\n" for at in range(steps))
    with open(path, "w", encoding="ascii") as file:
        file.write(f"bench 1\n{LINE}\n")
        for name in ("main", *(f"b{it}" for it in range(1, branches))):
            file.write(f"branch {name} 0 0\n{own}")
    return path


def seconds(words):
    """Returns how long a fill takes, from its line to its answer."""
    times = [
        time.monotonic() for _ in pieces.run_by_pieces([runs.PROGRAM, *words], ["0 fill main\n"])
    ]
    return times[1] - times[0]


def fills(words, until):
    """Returns how long the fills took, for each place in `WORKERS`."""
    taken = [[] for _ in WORKERS]
    while len(taken[0]) < LEAST or len(taken[0]) < MOST and time.monotonic() < until:
        first = len(taken[0]) % len(WORKERS)
        for place in (*range(first, len(WORKERS)), *range(first)):
            taken[place].append(seconds([*words, "--workers", str(WORKERS[place])]))
    return taken


def clock(scratch):
    load, processors = os.getloadavg()[0], os.cpu_count()
    print(f"the load of the last minute: {load:.2f}, on {processors} processors")
    print("medians of one fill by the clock: seconds with no worker, and ratios to them")
    begun = time.monotonic()
    for at, (branches, steps) in enumerate(SIZES, 1):
        words = [bench_file(branches, steps, scratch), "--branches", "1024"]
        words += ["--cells", str(branches * steps)]
        taken = fills(words, begun + SECONDS * at / len(SIZES))
        without_workers, *others = (statistics.median(it) for it in taken)
        ratios = [f"{it}: {of / without_workers:.2f}" for it, of in zip(WORKERS[1:], others)]
        print(
            f"  {branches} branches of {steps}: {without_workers:.4f}; {', '.join(ratios)};"
            f" of {len(taken[0])} runs each",
            flush=True,
        )
