"""Fills by four workers, and chairs on threads of their own, under valgrind's memcheck and
helgrind."""
import re
import shutil
import subprocess

import built
from runs import SECONDS, end_of_run, program, shown

# How many seconds a run may take under valgrind.
UNDER_VALGRIND = 40 * SECONDS
TOOLS = {
    "memcheck": ["--tool=memcheck", "--leak-check=full", "--errors-for-leak-kinds=definite"],
    "helgrind": ["--tool=helgrind"],
}
ROUNDS = 3
# A round has a segment of each branch, and four threads are started for 65,536 steps.
BRANCHES, STEPS = 520, 128
LIMITS = ["--branches", "1024", "--cells", "200000"]
CYCLE = ["w 0 1", "r 1"] + ["g 0 0", "g 1 1"] * 11
TOWERS = ("safe 0", "regular 2 0", "matrix 2 2 1 3")
# After a script that ends well the program leaves its desk's memory to the end of its process, so
# that a loss can't be seen. After a fault it gives that back: so memcheck has it read a script
# that is too long (`crates/conversation/src/limits.rt`), whose whole lines are answered first.
MOST_BYTES = 1 << 24
TOO_LONG = b"towerbench: script too long\n"
# A call that was refused: not what a history says of an operation.
REFUSED = re.compile(rb"^(?:line )?[0-9]+: refused ", re.MULTILINE)
# The crate with the tests of chairs, and the tests that are run, each with its tools. Helgrind
# knows pthread's locks alone, and would take what two threads do by turns for races: the turn is
# made of atomics.
CHAIRS = "thread_tests"
TESTS = {
    "desks::two_chairs::two_chairs": ("memcheck", "helgrind"),
    "desks::threads::two_threads": ("memcheck",),
    "desks::guarded::fifty_guarded_edits_each": ("memcheck",),
    "desks::crossings::crossing_install": ("memcheck", "helgrind"),
}


def tower_file(scratch, line):
    """Writes a tower file of a cycle of steps, and returns its path."""
    path = f"{scratch}/tower"
    steps = (CYCLE * (STEPS // len(CYCLE) + 1))[:STEPS]
    with open(path, "w", encoding="ascii") as file:
        file.write("\n".join(["tower 1", line, *steps, ""]))
    return path


def script():
    """Returns a script of fills of branches, two of which share steps, and edits between them."""
    names = [f"b{i}" for i in range(BRANCHES)]
    lines = [f"0 fork main {STEPS} {name}" for name in names]
    lines += [f"0 detach {name}" for name in names[1:]]
    for number in range(ROUNDS):
        lines += [f"0 fill {names[number]}"]
        lines += [f"0 insert {name} {STEPS // 3 + number} g 0 1" for name in names]
        lines += [f"0 state {name} {STEPS // 4}" for name in names[::50]]
    lines += ["0 fill main", f"0 history main {STEPS}", "0 branches"]
    return "".join(f"{line}\n" for line in lines).encode()


def fault_in(log):
    """Returns what a tool's log says of errors and losses, or None."""
    end = shown(log[-2000:].encode())
    if "ERROR SUMMARY: 0 errors" not in log:
        return f"errors were found: {end}"
    for kind in ("definitely", "indirectly"):
        lost = re.search(rf"{kind} lost: ([\d,]+) bytes", log)
        if lost and lost.group(1) != "0":
            return f"{lost.group(0)}: {end}"
    return None


def check(counts, name, tool, words, given, want, log, fault=b""):
    """Runs a command under a tool, and holds it to no error, and to its answers and its fault, if
    given."""
    valgrind = ["valgrind", *TOOLS[tool], f"--log-file={log}"]
    how = {"stdout": subprocess.PIPE, "stderr": subprocess.PIPE, "timeout": UNDER_VALGRIND}
    try:
        done = subprocess.run([*valgrind, *words], input=given, check=False, **how)
    except subprocess.TimeoutExpired:
        counts.count(f"{name}, {tool}", "it has no end")
        return
    with open(log, encoding="utf-8", errors="replace") as file:
        counts.count(f"{name}, {tool}: its errors", fault_in(file.read()))
    is_same = done.returncode == bool(fault) and (
        want is None or (done.stdout, done.stderr) == (want, fault)
    )
    got = f"status {done.returncode}, {shown(done.stdout)}, {shown(done.stderr)}"
    counts.count(f"{name}, {tool}: its answers", None if is_same else got)


def fills(counts, scratch):
    counts.begin("threads: fills by four workers")
    for line in TOWERS:
        path = tower_file(scratch, line)
        alone = end_of_run([path, *LIMITS], script())
        is_good = alone.status == 0 and not alone.errors and not REFUSED.search(alone.output)
        counts.count(f"{line}, by none", None if is_good else f"{alone}")
        words = [program(), path, *LIMITS, "--workers", "4"]
        too_long = script() + b"#" * MOST_BYTES
        check(counts, line, "memcheck", words, too_long, alone.output, f"{scratch}/log", TOO_LONG)
        check(counts, line, "helgrind", words, script(), alone.output, f"{scratch}/log")
    counts.end()


def chairs(counts, scratch):
    """Two chairs in one thread and in two, and at a gate, by the tests of them."""
    counts.begin("threads: two chairs")
    lack = built.lack_of(CHAIRS)
    if lack:
        counts.skip("all of it", lack)
        return
    for test, tools in TESTS.items():
        for tool in tools:
            words = [built.tests_of(CHAIRS), test]
            check(counts, test, tool, words, b"", None, f"{scratch}/log")
    counts.end()


def run(counts, scratch):
    counts.begin("threads")
    if not shutil.which("valgrind"):
        counts.skip("all of it", "there is no valgrind (Debian's package of that name)")
        return
    fills(counts, scratch)
    chairs(counts, scratch)
