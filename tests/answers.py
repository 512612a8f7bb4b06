#!/usr/bin/env python3
"""All answers, outside the prover: what `towerbench-answers` lists is compared with runs of
`towerbench`.

usage: tests/answers.py BENCH ANSWERS            all of it; the paths are those of the two built
                                                 programs
       tests/answers.py BENCH ANSWERS SCHEDULES  tries that number of random schedules, not 100,000

- own: each listed schedule, run by `towerbench`, has no void step, and gives just its answers; the
  lists are in the order of their lengths, and none is listed twice;
- random: random schedules of a question, of which `towerbench` says how they went, have only listed
  answers, and none is shorter than listed;
- whole: all schedules of a small question, found step by step by `towerbench`, with no set of the
  states that were met, have just the listed answers, and the shortest ones the listed lengths.

Each check also has to find planted wrong answers. Status 1 if something is wrong.
"""
import collections
import functools
import os
import random
import re
import sys
import tempfile

from commands import output_of

# Questions on all six towers, each as its file's lines. They have at most 20,000 states.
QUESTIONS = (
    "safe 0; process 0 w 1; process 1 r",
    "safe 0; process 0 w 0; process 1 r",
    "safe 0; process 0 w 1 w 0; process 1 r r",
    "copies 2 0; process 0 w 1; process 1 r; process 2 r",
    "copies 2 0; process 0 w 1; process 1 r; process 2 r; after 2 0 1 0",
    "regular 1 0; process 0 w 1; process 1 r r",
    "regular 2 0; process 0 w 1 w 0; process 1 r r; process 2 r",
    "regular 3 1; process 0 w 0; process 1 r; process 2 r; process 3 r",
    "unary 2 1 0; process 0 w 1; process 1 r r",
    "unary 4 1 0; process 0 w 3 w 1; process 1 r r",
    "unary 8 1 0; process 0 w 7 w 3; process 1 r r",
    "unary 4 2 2; process 0 w 0 w 3; process 1 r r; process 2 r",
    "unary 2 2 0; process 0 w 1; process 1 r; process 2 r; after 2 0 1 0",
    "stamped 2 1; process 0 w 1; process 1 r r",
    "stamped 2 1; process 0 w 1 w 0; process 1 r r",
    "stamped 4 3; process 0 w 1 w 2; process 1 r r",
    "stamped 4 3; process 0 w 1 w 2 w 3; process 1 r r r",
    "matrix 2 2 1 3; process 0 w 1; process 1 r",
    "matrix 2 2 1 3; process 0 w 1; process 1 w 0",
    "matrix 2 2 1 3; process 0 w 1; process 1 w 0 r",
    "matrix 2 2 1 3; process 0 w 1 r; process 1 w 0; after 0 1 1 0",
    "matrix 2 2 1 0; process 0 w 1; process 1 r r",
    "safe 0; process 0 w 1 w 0; process 1 r r; stop 0",
    "regular 2 0; process 0 w 1; process 1 r; process 2 r; after 1 0 2 0; stop 0",
    "unary 4 1 0; process 0 w 3 w 1; process 1 r r; stop 0",
    "stamped 2 2; process 0 w 1 w 0; process 1 r r; stop 0; stop 1",
    "matrix 2 2 1 3; process 0 w 1; process 1 r; stop 0",
)
# Questions of which all schedules are tried, each with at most 10,000.
SMALL = (
    "safe 0; process 0 w 1; process 1 r",
    "safe 0; process 0 w 0; process 1 r",
    "safe 0; process 0 w 1 w 0; process 1 r r",
    "regular 1 0; process 0 w 1; process 1 r r",
    "unary 2 1 0; process 0 w 1; process 1 r r",
    "unary 4 1 0; process 0 w 3; process 1 r",
    "unary 3 1 0; process 0 w 2 w 1; process 1 r",
    "stamped 2 1; process 0 w 1; process 1 r",
    "stamped 2 1; process 0 w 1; process 1 r r",
    "stamped 2 1; process 0 w 1 w 0; process 1 r",
    "safe 0; process 0 w 1; process 1 r r; stop 0",
    "copies 2 0; process 0 w 1; process 1 r; process 2 r",
    "regular 2 0; process 0 w 1; process 1 r; process 2 r; after 2 0 1 0",
)
# Of these the quick test of the gate tries all schedules.
QUICK = SMALL[:2] + SMALL[3:4]
SCHEDULES, QUICK_SCHEDULES = 100_000, 2_700
# How many schedules one run of `towerbench` is given, each as a branch.
BRANCHES = 1_000
SEED = 80

# operations: of each process the steps that invoke them; after: pairs of (process, index)
Question = collections.namedtuple("Question", "text tower operations after stops")
# A list of answers: of each process its outcomes; and the steps of its schedule.
Listed = collections.namedtuple("Listed", "answers steps")
# What a schedule leads to: of each process the outcomes; those with a pending operation; how many
# steps were void; whether the operations were invoked in order, each after those that it follows;
# whether its last step chose a value; and the processes that stopped.
Result = collections.namedtuple("Result", "answers pending voids is_allowed has_chosen stopped")


def question_of(line):
    """Returns a question, given its file's lines, separated by semicolons."""
    tower, *others = line.split("; ")
    operations, after, stops = {}, [], []
    for word, *numbers in (it.split() for it in others):
        if word == "process":
            p, ops = int(numbers[0]), re.findall(r"w \d+|r", " ".join(numbers[1:]))
            operations[p] = [f"w {p} {it[2:]}" if it != "r" else f"r {p}" for it in ops]
        elif word == "after":
            p, i, q, j = map(int, numbers)
            after.append(((p, i), (q, j)))
        else:
            stops.append(int(numbers[0]))
    return Question(line.replace("; ", "\n") + "\n", tower, operations, after, stops)


def listed_in(output):
    """Returns the number of states, and the lists of answers, in the output of the program."""
    counts, *blocks = output.split("\n\n")
    found = []
    for block in blocks:
        head, *steps = block.rstrip("\n").split("\n")
        answers = {}
        for word in head.split()[1:]:
            if word.startswith("p"):
                outcomes = answers.setdefault(int(word[1:]), [])
            elif word != "none":
                outcomes.append(word)
        found.append(Listed(answers, steps))
    states, lists = re.fullmatch(r"states (\d+)\nlists (\d+)\n?", counts).groups()
    if int(lists) != len(found):
        raise ValueError(f"{lists} lists are said to be there, and {len(found)} are")
    return int(states), found


def ask(program, text):
    """Returns what the program lists for the text of a question."""
    with tempfile.NamedTemporaryFile("w", encoding="ascii") as file:
        file.write(text)
        file.flush()
        return listed_in(output_of([program, file.name]))[1]


def branch_name(number):
    """Returns the name of the branch with a number: a, b, .. z, ba, .."""
    name = ""
    while True:
        name = chr(ord("a") + number % 26) + name
        number //= 26
        if not number:
            return name


def histories_of(bench, tower, schedules):
    """Returns the lines of each schedule's history, as `towerbench` prints them."""
    lines, script = ["bench 1", tower], []
    for number, steps in enumerate(schedules):
        lines += [f"branch {branch_name(number)} 0 0", *steps]
        script.append(f"0 history {branch_name(number)} {len(steps)}")
    with tempfile.NamedTemporaryFile("w", encoding="ascii", suffix=".bench") as file:
        file.write("\n".join(lines) + "\n")
        file.flush()
        words = [bench, file.name, "--cells", "20000000", "--branches", "1024"]
        output = output_of(words, "\n".join(script) + "\n")
    return [it.splitlines()[1:] for it in re.split(r"(?m)^0: ", output)[1:]]


def result_of(question, steps, lines):
    """Returns how a schedule went, given the lines of its history."""
    answers = {p: [] for p in question.operations}
    begun, stopped, voids, is_allowed, chosen = collections.Counter(), set(), 0, True, None
    for line in lines:
        if line.strip() == "none":
            continue
        index, process, kind, *words = line.split()
        p = int(process[1:])
        if kind == "void":
            voids += 1
        elif kind == "invoke":
            its = question.operations.get(p, [])
            is_next = begun[p] < len(its) and its[begun[p]] == steps[int(index)]
            waits = [b for a, b in question.after if a == (p, begun[p])]
            is_allowed &= is_next and all(len(answers[q]) > j for q, j in waits)
            begun[p] += 1
        elif kind == "return":
            answers[p].append(words[0])
        elif kind == "refused":
            answers[p].append("-".join(words))
        elif kind == "stop":
            stopped.add(p)
            is_allowed &= p in question.stops
        elif kind == "chosen":
            chosen = int(index)
    pending = {p for p, its in answers.items() if begun[p] > len(its)}
    return Result(answers, pending, voids, is_allowed, chosen == len(steps) - 1, stopped)


def results_of(bench, question, schedules):
    """Returns how each schedule went."""
    found = []
    for first in range(0, len(schedules), BRANCHES):
        batch = schedules[first : first + BRANCHES]
        pages = histories_of(bench, question.tower, batch)
        found += [result_of(question, steps, lines) for steps, lines in zip(batch, pages)]
    return found


def is_complete(question, it):
    """Returns whether each process that hasn't stopped has ended all its operations."""
    return all(
        p in it.stopped or len(it.answers[p]) == len(its) for p, its in question.operations.items()
    )


def key_of(answers):
    """Returns a list of answers as a tuple, by which lists are compared."""
    return tuple((p, *its) for p, its in sorted(answers.items()))


def spelled(key):
    """Returns a list of answers as `towerbench-answers` prints it."""
    return " ".join(" ".join([f"p{p}", *(its or ["none"])]) for p, *its in key)


def fault_of_own(bench, question, listed):
    """Returns what is wrong with the schedules that are listed, or None."""
    keys = [key_of(it.answers) for it in listed]
    lengths = [len(it.steps) for it in listed]
    if len(set(keys)) < len(keys):
        return "a list of answers is there twice"
    if lengths != sorted(lengths):
        return "the lists aren't in the order of their lengths"
    for key, it in zip(keys, results_of(bench, question, [it.steps for it in listed])):
        if it.voids or not it.is_allowed or not is_complete(question, it):
            return f"the schedule of {spelled(key)} isn't one of what is asked"
        if key_of(it.answers) != key:
            return f"the schedule of {spelled(key)} gives {spelled(key_of(it.answers))}"
    return None


def random_schedule(question, most, rng):
    """Returns a random schedule: each process invokes its operations in order, among steps of the
    others. most: how many actions an operation is given at most."""
    queues = {}
    for p, its in question.operations.items():
        queue = queues[p] = []
        for it in its:
            queue.append(it)
            length = rng.randint(most // 2, most)
            queue += [f"g {p} {rng.randrange(2)}" for _ in range(length)]
        if p in question.stops and rng.random() < 0.5:
            queue.insert(rng.randint(0, len(queue)), f"x {p}")
        queue.reverse()
    steps, most_at_once = [], rng.choice((1, 2, 4, 8, 16))
    while queues:
        p = rng.choice(list(queues))
        for _ in range(rng.randint(1, most_at_once)):
            if queues[p]:
                steps.append(queues[p].pop())
        if not queues[p]:
            del queues[p]
    return steps


def fault_and_least_lengths(listed, question, its):
    """Returns what differs between the lists and how schedules went, or None; and the least
    lengths."""
    lengths, least = {key_of(it.answers): len(it.steps) for it in listed}, {}
    for steps, it in its:
        if not it.is_allowed or not is_complete(question, it):
            continue
        key, length = key_of(it.answers), len(steps) - it.voids
        if key not in lengths:
            return f"{spelled(key)} isn't listed, but {', '.join(steps)} gives it", least
        if length < lengths[key]:
            return f"{spelled(key)} is listed with {lengths[key]} steps, and has {length}", least
        least[key] = min(length, least.get(key, length))
    return None, least


def fault_of_random(bench, question, listed, count):
    """Returns how `count` random schedules differ from what is listed, or None."""
    rng = random.Random(f"{SEED} {question.text}")
    # No operation in a listed schedule is longer
    most = max(
        sum(step.startswith(f"g {p} ") for step in it.steps)
        for it in listed
        for p in question.operations
    )
    for first in range(0, count, BRANCHES):
        batch = [random_schedule(question, most, rng) for _ in range(min(BRANCHES, count - first))]
        fault, _ = fault_and_least_lengths(
            listed, question, zip(batch, results_of(bench, question, batch))
        )
        if fault:
            return fault
    return None


def one_step_longer(question, steps, it):
    """Returns the schedules with one step more; a choice is made only when a read is hit."""
    found = []
    for p, its in question.operations.items():
        if p in it.stopped or (len(it.answers[p]) == len(its) and p not in it.pending):
            continue
        if p in question.stops:
            found.append([*steps, f"x {p}"])
        if p in it.pending:
            found.append([*steps, f"g {p} 0"])
            continue
        now = len(it.answers[p])
        waits = [b for a, b in question.after if a == (p, now)]
        if all(len(it.answers[q]) > j for q, j in waits):
            found.append([*steps, its[now]])
    return found


def all_schedules(bench, question):
    """Returns all schedules of a question, with how each went, step by step."""
    ended, front = [], [([], result_of(question, [], []))]
    while front:
        ended += [(steps, it) for steps, it in front if is_complete(question, it)]
        after = [
            steps
            for front_steps, it in front
            for steps in one_step_longer(question, front_steps, it)
        ]
        its = results_of(bench, question, after) if after else []
        others = [[*s[:-1], s[-1][:-1] + "1"] for s, it in zip(after, its) if it.has_chosen]
        its += results_of(bench, question, others) if others else []
        front = list(zip([*after, *others], its))
    return ended


def fault_of_whole(bench, question, listed):
    """Returns how all schedules of a question differ from what is listed, or None."""
    fault, least = fault_and_least_lengths(listed, question, all_schedules(bench, question))
    if fault:
        return fault
    for it in listed:
        key = key_of(it.answers)
        if least.get(key) != len(it.steps):
            return f"{spelled(key)} is listed with {len(it.steps)} steps, and has {least.get(key)}"
    return None


def wrong_lists(question, listed):
    """Returns wrong lists, by what is wrong with them."""
    first, last = listed[0], listed[-1]
    reader = max(question.operations)
    wrong = {p: [*its] for p, its in first.answers.items()}
    wrong[reader][-1] = "7"
    return {
        "a list is left out": listed[:-1],
        "a list is there twice": [*listed, last],
        "a list has another list's schedule": [Listed(wrong, first.steps), *listed[1:]],
        "a schedule is longer than it has to be": [*listed[:-1], last._replace(steps=padded(last))],
        "a schedule isn't whole": [first._replace(steps=first.steps[:-1]), *listed[1:]],
    }


def padded(listed):
    """Returns a list's steps with one that does nothing."""
    return [*listed.steps, f"g {listed.steps[0].split()[1]} 0"]


def fault_of_plants(bench, answers):
    """Returns a planted wrong answer that no check finds, or None."""
    question = question_of(SMALL[3])
    for what, listed in wrong_lists(question, ask(answers, question.text)).items():
        checks = (fault_of_own(bench, question, listed), fault_of_whole(bench, question, listed))
        if not any(checks):
            return f"it isn't found that {what}"
    missing = ask(answers, question.text)[:-1]
    if not fault_of_random(bench, question, missing, BRANCHES):
        return "random schedules don't find that a list is left out"
    return None


def fault_of_question(bench, answers, line, count):
    """Returns what is wrong with the answers to a question, by its own and random schedules, or
    None."""
    question = question_of(line)
    listed = ask(answers, question.text)
    return fault_of_own(bench, question, listed) or fault_of_random(bench, question, listed, count)


def fault_of_small(bench, answers, line):
    """Returns what is wrong with the answers to a small question, by all its schedules, or None."""
    question = question_of(line)
    return fault_of_whole(bench, question, ask(answers, question.text))


def tests(bench, answers, count=QUICK_SCHEDULES, small=QUICK):
    """Returns the tests by their names, each a call that returns what is wrong, or None."""
    count_of_each = -(-count // len(QUESTIONS))
    found = {
        it: functools.partial(fault_of_question, bench, answers, it, count_of_each)
        for it in QUESTIONS
    }
    for it in small:
        found[f"all schedules of {it}"] = functools.partial(fault_of_small, bench, answers, it)
    found["planted wrong answers"] = functools.partial(fault_of_plants, bench, answers)
    return found


def main(words):
    if len(words) not in (2, 3):
        print(__doc__, end="", file=sys.stderr)
        return 2
    bench, answers = map(os.path.abspath, words[:2])
    count = int(words[2]) if len(words) == 3 else SCHEDULES
    failed = 0
    for name, work in tests(bench, answers, count, SMALL).items():
        fault = work()
        failed += bool(fault)
        print(f"{name}: {fault or 'the same'}", flush=True)
    print(f"{failed} failed")
    return 1 if failed else 0


if __name__ == "__main__":
    sys.exit(main(sys.argv[1:]))
