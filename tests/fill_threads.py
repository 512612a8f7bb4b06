"""How many threads fills start: one for each 16,384 steps of a round, at most as many as there are
workers, so none in a small round.

A preloaded library counts them (tests/count_threads.c). Branches that share nothing have a segment
of 128 steps each, and so one round of as many jobs.
"""
import os
import shutil
import subprocess

import cases

SOURCE = "tests/count_threads.c"
# How many steps each branch has
STEPS = 128
# Branches, workers, and how many threads are started: 128 segments have 16,384 steps.
EXPECTED = (
    (16, 4, 0),
    (127, 4, 0),
    (128, 0, 0),
    (128, 4, 1),
    (255, 4, 1),
    (256, 4, 2),
    (900, 4, 4),
    (900, 1, 1),
)


def bench_file(branches, scratch):
    """Writes a bench file of branches that share nothing, and returns its path."""
    path = f"{scratch}/threads-{branches}.bench"
    steps = [("w 0 1", "g 0 0", "g 0 0")[it % 3] for it in range(STEPS)]
    names = ["main", *(f"b{it}" for it in range(1, branches))]
    with open(path, "w", encoding="ascii") as file:
        for lines in (["bench 1", "safe 0"], *([f"branch {it} 0 0", *steps] for it in names)):
            file.writelines(f"{it}\n" for it in lines)
    return path


def threads_started(program, counter, branches, workers, scratch):
    """Returns how many threads a fill starts at a bench of that many branches; counter: the path of
    the library that counts them."""
    mark = f"{scratch}/threads-{branches}-{workers}"
    words = [bench_file(branches, scratch), "--workers", str(workers)]
    words += ["--branches", "1024", "--cells", str(branches * STEPS)]
    environment = {**os.environ, "LD_PRELOAD": counter, "THREADS_MARK": mark}
    ran = cases.run(program, words, b"0 fill main\n", environment)
    if (ran.status, ran.output) != (0, b"0: filled\n"):
        raise cases.Failure(f"a fill of {branches} branches: {ran}")
    return os.path.getsize(mark) if os.path.exists(mark) else 0


def fault(program, scratch):
    """Returns what is wrong with the numbers of threads, or nothing."""
    counter = f"{scratch}/count_threads.so"
    subprocess.run(["cc", "-O2", "-shared", "-fPIC", "-o", counter, SOURCE, "-ldl"], check=True)
    faults = []
    for branches, workers, wanted in EXPECTED:
        got = threads_started(program, counter, branches, workers, scratch)
        if got != wanted:
            faults.append(f"{branches} branches, {workers} workers: {got} threads, not {wanted}")
    return "; ".join(faults) or None


def is_available():
    return shutil.which("cc") is not None
