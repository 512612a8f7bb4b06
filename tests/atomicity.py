#!/usr/bin/env python3
"""Atomic registers of many processes, outside the prover.

usage: tests/atomicity.py definition         compares the ranks of Ranks.antt with linearizability
                                             (Herlihy and Wing 1990), on each history of two
                                             processes and up to four operations
       tests/atomicity.py histories PROGRAM  checks that histories of matrix towers, which PROGRAM
                                             prints, are linearizable: 100,000 random ones
       tests/atomicity.py order NAME         searches a matrix that isn't atomic, and prints the
                                             shortest schedule that shows it
       tests/atomicity.py orders             searches each of those matrices, and two that are
                                             atomic

The first two also plant wrong answers, which they must find. Status 1 if something is wrong.
"""
import collections
import concurrent.futures
import functools
import os
import random
import re
import subprocess
import sys
import tempfile

# An event: its process, its kind, and the value of an invoked write or a returned read.
Event = collections.namedtuple("Event", "process kind value")
READ, WRITE, GOT, WROTE, REFUSED = "read", "write", "got", "wrote", "refused"
VALUES = (0, 1)

# What is known of the ranks, as in Ranks.antt; `values` lists the value of each rank, if it has
# one.
Ranking = collections.namedtuple("Ranking", "top values floor mine")
# What a planted wrong definition allows.
PLANTED = ("a refused write has a rank", "a read's rank falls", "a returned write has no rank")


def first_ranking(processes, most):
    """Returns what is known before any event. most: how many operations there may be."""
    return Ranking(0, (0,) + (None,) * most, (0,) * processes, (None,) * processes)


def with_item(index, item, items):
    """Returns a tuple with another item at an index."""
    return items[:index] + (item,) + items[index + 1 :]


def rankings_after(r, event, planted=None):
    """Returns what may be known after an event, by the ranks that its operation may have."""
    p, ranks = event.process, range(len(r.values))
    if event.kind == READ:
        return [r._replace(floor=with_item(p, r.top, r.floor), mine=with_item(p, None, r.mine))]
    if event.kind == WRITE:
        begun = r._replace(floor=with_item(p, r.top, r.floor), mine=with_item(p, None, r.mine))
        own = [n for n in ranks if n > r.top and r.values[n] is None]
        taken = [(with_item(n, event.value, r.values), with_item(p, n, r.mine)) for n in own]
        return [begun] + [begun._replace(values=values, mine=mine) for values, mine in taken]
    if event.kind == GOT:
        low = 0 if planted == PLANTED[1] else r.floor[p]
        fit = [n for n in ranks if n >= low and r.values[n] == event.value]
        return [r._replace(top=max(r.top, n)) for n in fit]
    if event.kind == WROTE:
        if r.mine[p] is None:
            return [r] if planted == PLANTED[2] else []
        return [r._replace(top=max(r.top, r.mine[p]), mine=with_item(p, None, r.mine))]
    is_refusable = r.mine[p] is None or planted == PLANTED[0]
    return [r] if is_refusable else []


# An operation: the value that it writes or has read, and when it was invoked and returned, or None.
Operation = collections.namedtuple("Operation", "is_write value invoked returned")


def operations(history):
    """Returns the operations of a history without the refused ones and the pending reads."""
    found, current = [], {}
    for index, event in enumerate(history):
        if event.kind in (READ, WRITE):
            current[event.process] = Operation(event.kind == WRITE, event.value, index, None)
            continue
        begun = current.pop(event.process)
        if event.kind != REFUSED:
            value = begun.value if begun.is_write else event.value
            found.append(begun._replace(value=value, returned=index))
    return found + [it for it in current.values() if it.is_write]


def is_linearizable(history):
    """Returns whether the returned operations and some pending writes have an order by which a
    history is linearizable.

    It searches as Wing and Gong do: an operation may be next if no other that isn't placed yet
    returned before it was invoked.
    """
    its = operations(history)
    returned = sum(1 << i for i, it in enumerate(its) if it.returned is not None)
    seen, left = {(0, 0)}, [(0, 0)]
    while left:
        placed, value = left.pop()
        if placed & returned == returned:
            return True
        free = [i for i in range(len(its)) if not placed >> i & 1]
        ends = [its[i].returned for i in free if its[i].returned is not None]
        for i in free:
            it = its[i]
            if it.invoked < min(ends) and (it.is_write or it.value == value):
                after = placed | 1 << i, it.value
                if after not in seen:
                    seen.add(after)
                    left.append(after)
    return False


def next_events(history, processes, most):
    """Returns the events that can follow; processes are numbered as they first invoke something."""
    last = {it.process: it for it in history}
    count = sum(it.kind in (READ, WRITE) for it in history)
    for p in range(min(processes, len(last) + 1)):
        kind = last[p].kind if p in last else WROTE
        if kind == READ:
            yield from (Event(p, GOT, v) for v in VALUES)
        elif kind == WRITE:
            yield Event(p, WROTE, None)
        elif count < most:
            yield Event(p, READ, None)
            yield from (Event(p, WRITE, v) for v in VALUES)
        if kind in (READ, WRITE):
            yield Event(p, REFUSED, None)


def compare(processes, most, planted=None):
    """Returns how many histories were compared, and the first on which the definitions differ.

    What follows a history that is bad by both isn't compared: it is bad by both, too.
    """
    count, left = 0, [((), {first_ranking(processes, most)})]
    while left:
        history, rankings = left.pop()
        for event in next_events(history, processes, most):
            longer = (*history, event)
            after = {it for r in rankings for it in rankings_after(r, event, planted)}
            count += 1
            if bool(after) != is_linearizable(longer):
                return count, longer
            if after:
                left.append((longer, after))
    return count, None


def spelled(history):
    """Returns a history in words."""
    return "; ".join(
        f"p{p} {kind}" + f" {value}" * (value is not None) for p, kind, value in history
    )


def check_definition():
    """Returns on which history the ranks and linearizability differ, or which wrong definition
    isn't found, or None."""
    count, different = compare(2, 4)
    if different:
        return f"the definitions differ on: {spelled(different)}"
    for planted in PLANTED:
        if compare(2, 3, planted)[1] is None:
            return f"it isn't found that {planted}"
    print(f"{count} histories, by both definitions the same")
    return None


# Towers, numbers of values and of processes: tags and stamps are spent in some.
TOWERS = (
    ("matrix 2 2 1 3", 2, 2),
    ("matrix 2 2 3 7", 2, 2),
    ("matrix 3 2 1 3", 3, 2),
    ("matrix 4 2 1 3", 4, 2),
)
BRANCHES, STEPS, FILES = 500, 240, 200
# One history in this many also has a wrong read planted.
HISTORIES_PER_PLANT = 10
EVENT_LINE = re.compile(
    r" +\d+ p(\d) (invoke|return|refused)(?: (read|written|write (\d+)|(\d+)|.*))?"
)


def blocks_of(processes, rng):
    """Returns steps of each process, in pieces of different lengths."""
    goes = [f"g {p} {choice}\n" for p in range(processes) for choice in (0, 1)]
    return [
        [
            ("".join(rng.choices(goes[2 * p : 2 * p + 2], k=length)), length)
            for length in (1, 2, 3, 5, 8, 13, 21, 34)
        ]
        for p in range(processes)
    ]


def random_schedule(processes, values, blocks, rng):
    """Returns a random schedule, in which processes take turns and one may stop, and its length."""
    found, count, most = [], 0, rng.choice((2, 4, 8))
    stopped = rng.randrange(processes) if rng.random() < 0.25 else None
    while count < STEPS:
        p = rng.randrange(processes)
        is_read = rng.random() < 0.4
        found.append(f"r {p}\n" if is_read else f"w {p} {rng.randrange(values)}\n")
        piece, length = blocks[p][rng.randrange(most)]
        found.append(piece)
        count += 1 + length
        if p == stopped and count > STEPS // 2:
            found.append(f"x {p}\n")
            count += 1
            stopped = None
    return "".join(found), count


def event_of(line):
    """Returns the event that a line of a history has; None: nothing that is compared."""
    found = EVENT_LINE.match(line)
    if not found:
        return None
    p, kind, rest, written, got = found.groups()
    if kind == "invoke":
        return Event(int(p), READ, None) if rest == "read" else Event(int(p), WRITE, int(written))
    if kind == "refused":
        # A step that isn't enabled is refused too
        return Event(int(p), REFUSED, None) if rest.startswith("spent") else None
    return Event(int(p), WROTE, None) if rest == "written" else Event(int(p), GOT, int(got))


def histories_of(program, tower, processes, values, seed, scratch):
    """Returns the histories of one bench file's branches."""
    rng = random.Random(seed)
    blocks = blocks_of(processes, rng)
    names = ["main"] + [f"b{i}" for i in range(1, BRANCHES)]
    bench, script = f"{scratch}/{seed}.bench", ""
    with open(bench, "w", encoding="ascii") as file:
        file.write(f"bench 1\n{tower}\n")
        for name in names:
            steps, count = random_schedule(processes, values, blocks, rng)
            file.write(f"branch {name} 0 0\n{steps}")
            script += f"0 history {name} {count}\n"
    words = [program, bench, "--cells", "67108864", "--branches", "1024"]
    ran = subprocess.run(words, input=script, stdout=subprocess.PIPE, text=True, check=True)
    os.unlink(bench)
    found = []
    for line in ran.stdout.splitlines():
        if line.startswith("0: history"):
            found.append([])
        else:
            event = event_of(line)
            if event:
                found[-1].append(event)
    if len(found) != BRANCHES:
        raise ValueError(f"{tower}: {len(found)} histories, not {BRANCHES}: {ran.stdout[:100]}")
    return found


def with_changed_read(history, rng):
    """Returns the history with one read's value changed, or None if no read returned."""
    reads = [i for i, it in enumerate(history) if it.kind == GOT]
    if not reads:
        return None
    at = rng.choice(reads)
    return [*history[:at], history[at]._replace(value=1 - history[at].value), *history[at + 1 :]]


def counts_of_file(program, seed, scratch):
    """Returns counts of one file: histories, returned, refused, planted and found; or raises
    ValueError."""
    tower, processes, values = TOWERS[seed % len(TOWERS)]
    rng, counts = random.Random(seed), collections.Counter()
    for history in histories_of(program, tower, processes, values, seed, scratch):
        counts["histories"] += 1
        counts["returned"] += sum(it.kind in (GOT, WROTE) for it in history)
        counts["refused"] += sum(it.kind == REFUSED for it in history)
        if not is_linearizable(history):
            raise ValueError(f"{tower}: not linearizable: {spelled(history)}")
        is_planted = counts["histories"] % HISTORIES_PER_PLANT == 0
        planted = with_changed_read(history, rng) if is_planted else None
        if planted:
            counts["planted"] += 1
            counts["found"] += not is_linearizable(planted)
    return counts


def check_histories(program):
    """Returns that too few planted reads are found in histories of matrices, or None; one that
    isn't linearizable is a ValueError."""
    counts = collections.Counter()
    with tempfile.TemporaryDirectory() as scratch, concurrent.futures.ProcessPoolExecutor() as pool:
        work = [pool.submit(counts_of_file, program, seed, scratch) for seed in range(FILES)]
        for it in work:
            counts += it.result()
    # a changed value may be that of an overlapping write, so that not every one is wrong
    if 3 * counts["found"] < counts["planted"] or not counts["refused"] or not counts["planted"]:
        return f"too little is found: {dict(counts)}"
    print(
        ", ".join(
            f"{it} {counts[it]}" for it in ("histories", "returned", "refused", "planted", "found")
        )
    )
    return None


# A matrix of atomic registers, of which each step reads or writes one. `writes_back`: whether a
# read writes its row; `refuses`: whether a register may refuse any write as it is invoked.
Matrix = collections.namedtuple("Matrix", "processes writes_back refuses")
# A code, in the order of codes. A process in an operation: the value that it writes, or None; the
# number of registers that it has read and written; and its code. An idle one is None.
Code = collections.namedtuple("Code", "tag writer value")
Working = collections.namedtuple("Working", "value read written code")
# parts: codes by row and column; works: each process's Working; begun: whether each has invoked its
# operation; ranks: what may be known of the ranks, as a set
State = collections.namedtuple("State", "parts works begun ranks")


def all_rankings_after(ranks, event):
    """Returns what may be known after an event, by whatever may be known before it."""
    return frozenset(it for r in ranks for it in rankings_after(r, event))


def first_state(matrix):
    """Returns the state of a matrix before any operation."""
    n = matrix.processes
    ranks = frozenset([first_ranking(n, n)])
    return State(((Code(0, 0, 0),) * n,) * n, (None,) * n, (False,) * n, ranks)


def invoked_states(matrix, state, p):
    """Returns the states in which p has invoked its only operation, a read or a write of 1: this
    state alone if the operation is pending, and none if it has ended."""
    if state.works[p] or state.begun[p]:
        return [state] if state.works[p] else []
    found = []
    for value in (None, 1):
        ranks = all_rankings_after(state.ranks, Event(p, READ if value is None else WRITE, value))
        work = Working(value, 0, 0, Code(0, 0, 0))
        works = with_item(p, work, state.works)
        found.append(State(state.parts, works, with_item(p, True, state.begun), ranks))
    return found


def code_in_words(code):
    return f"{code.value} with tag {code.tag}"


def state_after(matrix, state, p, work):
    """Returns the state in which p's operation has come as far as `work`, and what is said if that
    ends it."""
    has_read = work.read == matrix.processes and work.value is None
    if work.written < matrix.processes and (matrix.writes_back or not has_read):
        return state._replace(works=with_item(p, work, state.works)), ""
    kind, value = (WROTE, None) if work.value is not None else (GOT, work.code.value)
    ranks = all_rankings_after(state.ranks, Event(p, kind, value))
    said = " and returns" + (f" {value}" if kind == GOT else "")
    return state._replace(works=with_item(p, None, state.works), ranks=ranks), said


def steps_of(matrix, state, p):
    """Returns p's next steps: what each does, and the state after it."""
    work, n = state.works[p], matrix.processes
    name = f"p{p} " + ("read" if work.value is None else f"write {work.value}")
    if work.read < n:
        code = state.parts[work.read][p]
        best = max(work.code, code)
        moved = work._replace(read=work.read + 1, code=best)
        if moved.read == n and work.value is not None:
            moved = moved._replace(code=Code(best.tag + 1, p, work.value))
        after, said = state_after(matrix, state, p, moved)
        return [(name, f"reads R[{work.read}][{p}]: {code_in_words(code)}{said}", after)]
    at = work.written
    row = with_item(at, work.code, state.parts[p])
    written = state._replace(parts=with_item(p, row, state.parts))
    after, said = state_after(matrix, written, p, work._replace(written=at + 1))
    found = [(name, f"writes R[{p}][{at}]: {code_in_words(work.code)}{said}", after)]
    if matrix.refuses:
        ranks = all_rankings_after(state.ranks, Event(p, REFUSED, None))
        refused = state._replace(works=with_item(p, None, state.works), ranks=ranks)
        found.append((name, f"is refused R[{p}][{at}], and so is refused", refused))
    return found


def shortest_schedule(matrix):
    """Returns the shortest schedule after which the operations have no ranks, or None."""
    first = first_state(matrix)
    before, left = {first: None}, collections.deque([first])
    while left:
        state = left.popleft()
        for p in range(matrix.processes):
            for working in invoked_states(matrix, state, p):
                for name, said, after in steps_of(matrix, working, p):
                    if after not in before:
                        before[after] = state, name, said
                        left.append(after)
                    if not after.ranks:
                        return schedule_to(before, after)
    return None


def schedule_to(before, state):
    """Returns the steps that lead to a state; before: of each state the one before it and the step,
    as they were first found."""
    found = []
    while before[state]:
        state, name, said = before[state]
        found.append((name, said))
    return found[::-1]


# The matrices that are searched, and how many steps are found, if any. A process has one operation.
ORDERS = {
    "reads-without-rows": (Matrix(3, False, False), 10),
    "refused-in-a-row": (Matrix(2, True, True), 8),
    "reads-without-rows-of-two": (Matrix(2, False, False), None),
    "whole": (Matrix(3, True, False), None),
}


def check_order(name):
    """Prints the shortest schedule that shows that a matrix isn't atomic, and returns what is wrong
    with its length, or None."""
    matrix, length = ORDERS[name]
    steps = shortest_schedule(matrix)
    if (steps and len(steps)) != length:
        return f"{name}: {len(steps) if steps else 'no'} steps are found, not {length or 'none'}"
    print(f"{len(steps)} steps" if steps else "every schedule is linearizable")
    for i, (process, said) in enumerate(steps or [], 1):
        print(f"{i:3}  {process:10}  {said}")
    return None


def check_orders():
    return next(filter(None, map(check_order, ORDERS)), None)


def tests(program):
    """Returns the work of each of these checks, by name: it returns what is wrong, or nothing."""
    kinds = (["definition"], ["orders"], ["histories", program])
    return {it[0]: functools.partial(fault_of, it) for it in kinds}


def fault_of(words):
    """Runs a check as a process of its own, so that it doesn't hold up those in this one."""
    ran = subprocess.run(
        [sys.executable, __file__, *words], capture_output=True, text=True, check=False
    )
    return None if ran.returncode == 0 else (ran.stdout + ran.stderr)[-500:]


def main(words):
    if words == ["definition"]:
        fault = check_definition()
    elif words == ["orders"]:
        fault = check_orders()
    elif words[:1] == ["order"] and words[1:] and words[1] in ORDERS:
        fault = check_order(words[1])
    elif words[:1] == ["histories"] and len(words) == 2:
        fault = check_histories(words[1])
    else:
        print(__doc__, end="", file=sys.stderr)
        return 2
    if fault:
        print(fault)
    return 1 if fault else 0


if __name__ == "__main__":
    sys.exit(main(sys.argv[1:]))
