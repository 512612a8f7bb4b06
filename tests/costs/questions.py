"""What the search for all answers costs: states, instructions, and bytes of the heap, of
`towerbench-answers`."""
import os
import subprocess
import sys

from costs.runs import CALLGRIND, TOP, heap_counter, reported_instructions

PROGRAM = f"{TOP}/crates/answers_program/out/answers_program"
# Questions, with the instructions that a plain Rust program takes which searches the same states,
# breadth first with a set of states as lists of numbers; it follows both choices only if a read is
# hit, and makes no schedule easier to read. Its figures were taken once.
QUESTIONS = (
    ("safe 0; process 0 w 1 w 0; process 1 r r", 559_632),
    ("safe 0; process 0 w 1 w 0; process 1 r r; stop 0", 836_466),
    ("copies 2 0; process 0 w 1; process 1 r; process 2 r", 798_642),
    ("regular 2 0; process 0 w 1 w 0; process 1 r r; process 2 r r", 7_774_088),
    ("unary 4 1 0; process 0 w 3 w 1; process 1 r r", 1_029_546),
    ("unary 8 1 0; process 0 w 7 w 3; process 1 r r", 1_475_683),
    ("unary 8 2 0; process 0 w 7 w 3; process 1 r r; process 2 r r", 194_523_901),
    ("stamped 2 1; process 0 w 1; process 1 r r", 600_677),
    ("stamped 4 3; process 0 w 1 w 2 w 3; process 1 r r r", 11_174_166),
    (
        "stamped 2 31; process 0 w 1 w 0 w 1 w 0 w 1 w 0; process 1 r r r r r r",
        359_119_219,
    ),
    ("matrix 2 2 1 3; process 0 w 1; process 1 w 0", 4_363_091),
    ("matrix 2 2 1 3; process 0 w 1 r; process 1 w 0 r", 189_131_794),
    ("matrix 3 2 1 3; process 0 w 1; process 1 w 0; process 2 r", None),
)
# Only the resident memory is taken of these, as callgrind would take an hour
LARGE = (
    "regular 4 0; process 0 w 1 w 0; "
    + "; ".join(f"process {reader} r r" for reader in range(1, 5)),
    "matrix 3 2 2 3; process 0 w 1; process 1 w 0; process 2 r r",
)
# Runs a program, and prints how many KiB it had resident at most. Linux counts at least what the
# starting process had, so a small process starts it.
RESIDENT = """
import resource, subprocess, sys
subprocess.run(sys.argv[1:], check=True)
print(resource.getrusage(resource.RUSAGE_CHILDREN).ru_maxrss)
"""


def run(path, scratch, prefix=(), env=None):
    """Returns what a run of the program writes on standard output and on standard error."""
    words = [*prefix, PROGRAM, path]
    done = subprocess.run(words, capture_output=True, text=True, env=env, check=False, cwd=scratch)
    if done.returncode != 0:
        sys.exit(f"tests/cost: the program ended with {done.returncode}: {done.stderr}")
    return done.stdout, done.stderr


def most_held(path, scratch):
    """Returns the most bytes that a run holds on the heap."""
    env = {**os.environ, "LD_PRELOAD": heap_counter(scratch), "HEAP_AT_END": "1"}
    said = run(path, scratch, env=env)[1].splitlines()[-1].split()
    return int(said[2])


def resident_at_most(path, scratch):
    """Returns how many states a run finds, and the most bytes that it has resident."""
    lines = run(path, scratch, (sys.executable, "-c", RESIDENT))[0].splitlines()
    return int(lines[0].split()[1]), int(lines[-1]) * 1024


def instructions_in(path, function):
    """Returns the instructions that callgrind's output file reports of calls of a function, with
    all that it calls."""
    names, total, callee = {}, 0, ""
    with open(path, encoding="utf-8", errors="replace") as file:
        lines = iter(file)
        for line in lines:
            key, _, value = line.partition("=")
            if key in ("fn", "cfn"):
                number, _, name = value.strip().partition(" ")
                callee = names.setdefault(number, name)
            elif key == "calls" and callee.startswith(function):
                total += int(next(lines).split()[-1])
    return total


def question_file(line, scratch):
    """Writes a question file, whose lines are separated by semicolons here; returns its path."""
    path = f"{scratch}/question"
    with open(path, "w", encoding="ascii") as file:
        file.write(line.replace("; ", "\n") + "\n")
    return path


def questions(scratch):
    subprocess.run([f"{TOP}/tools/prove", "answers_program"], stdin=subprocess.DEVNULL, check=True)
    print(
        "states; instructions in thousands, of which the search; its ratio to plain Rust's; bytes a state"
    )
    for line, of_plain in QUESTIONS:
        path = question_file(line, scratch)
        output, said = run(path, scratch, (*CALLGRIND[:2], f"--callgrind-out-file={scratch}/calls"))
        states, cost = int(output.split()[1]), reported_instructions(said)
        tidied = instructions_in(f"{scratch}/calls", "answers::tidy::tidy::")
        if tidied == 0:
            sys.exit("tests/cost: the program has no function that makes schedules easy to read")
        search = cost - tidied
        ratio = f"{search / of_plain:8.2f}" if of_plain else "       -"
        held = most_held(path, scratch) / states
        costs = f"{cost / 1000:12.0f}{search / 1000:12.0f}"
        print(f"  {line:72}{states:8}{costs}{ratio}{held:8.0f}", flush=True)
    print("states; megabytes that are resident at most")
    for line in LARGE:
        states, most = resident_at_most(question_file(line, scratch), scratch)
        print(f"  {line:84}{states:8}{most / 1e6:8.0f}", flush=True)
