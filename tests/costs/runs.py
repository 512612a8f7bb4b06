"""Runs of the built program, what they cost, and the files that they are over."""
import os
import subprocess
import sys

TOP = os.path.dirname(os.path.dirname(os.path.dirname(os.path.realpath(__file__))))
PROGRAM = f"{TOP}/crates/program/out/program"
# Operations with more actions than they have on some towers: the steps after their ends are void.
READ = ["r 1"] + ["g 1 0"] * 11
WRITE = ["w 0 1"] + ["g 0 0"] * 11
# Towers, each with a cycle of steps.
TOWERS = {
    "safe 0": WRITE + READ,
    "copies 4 0": WRITE + READ,
    "regular 4 0": WRITE + READ,
    "unary 8 2 0": WRITE + READ,
    "stamped 4 3": WRITE + READ,
    "matrix 2 2 1 3": ["r 0"] + ["g 0 0"] * 23 + ["r 1"] + ["g 1 0"] * 23,
}
SHORT_WRITES = ["w 0 1", "g 0 0", "g 0 0", "w 0 0", "g 0 0", "g 0 0"]
# A ratio below this is shown as 1.00, and counts as at most 1.0.
ROUNDED_TO_ONE = 1.005
CALLGRIND = ("valgrind", "--tool=callgrind", "--callgrind-out-file=/dev/null")
# A comment that fills a read, so that the next one, which reports the heap, follows the lines
# before it.
PAD = "#" * 4096 + "\n"


def run(words, script, scratch, prefix=(), env=None):
    """Returns what a run of the program writes on standard error, with its answers left out."""
    path = f"{scratch}/script"
    with open(path, "w") as file:
        file.write(script)
    with open(path) as script_file:
        done = subprocess.run(
            [*prefix, PROGRAM, *words],
            stdin=script_file,
            stdout=subprocess.DEVNULL,
            stderr=subprocess.PIPE,
            text=True,
            env=env,
            check=False,
        )
    if done.returncode != 0:
        sys.exit(f"tests/cost: the program ended with {done.returncode}: {done.stderr}")
    return done.stderr


def reported_instructions(text):
    """Returns the instructions that callgrind reports."""
    return int(next(line.split()[-1] for line in text.splitlines() if "Collected" in line))


def instructions(words, script, scratch):
    """Returns the instructions that a run of the program takes."""
    return reported_instructions(run(words, script, scratch, CALLGRIND))


def heap_counter(scratch):
    """Returns the path of the library that counts the heap's bytes, made if it must be."""
    library = f"{scratch}/count.so"
    if not os.path.exists(library):
        source = f"{TOP}/tests/count_heap.c"
        subprocess.run(["cc", "-O2", "-shared", "-fPIC", "-o", library, source, "-ldl"], check=True)
    return library


def heap_at_reads(words, script, scratch):
    """Returns the bytes that a run holds on the heap at each read of its script, and the most since
    the read before."""
    text = run(words, script, scratch, env={**os.environ, "LD_PRELOAD": heap_counter(scratch)})
    return [
        tuple(int(it) for it in line.split()[1:])
        for line in text.splitlines()
        if line.startswith("heap ")
    ]


def tower_file(line, cycle, count, scratch):
    """Writes a tower file of `count` steps, a cycle over and over, and returns its path. Each call
    writes to the same path."""
    path = f"{scratch}/tower"
    with open(path, "w") as file:
        file.write(
            f"tower 1\n{line}\n" + "".join(f"{cycle[i % len(cycle)]}\n" for i in range(count))
        )
    return path


def varied(cycle, count):
    """Returns `count` steps of a cycle, with choices by a fixed sequence, so that no two runs of
    them are equal."""
    made, state = [], 1
    for i in range(count):
        step, state = cycle[i % len(cycle)], state * 1103515245 + 12345 & 0x7FFFFFFF
        made.append(f"{step[:-1]}{state >> 30}" if step.startswith("g") else step)
    return made
