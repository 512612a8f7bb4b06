"""Growths of memory, refused in turn: the first, the second, the third .. up to the last.

One is refused in a run, or several in a row, and each one after them is granted. The result of a
script may be
- the ample answers (a fill does without what memory was refused for);
- the ample answers, but of lines that are answered the refusal of memory, no more of them than
  growths were refused: the answers of the other lines are then those of a run of the script without
  these lines, which is run too;
- a prefix of such answers, and the fault `towerbench: memory` with status 1;
- nothing at all, and the fault of the file or of the opening, `40 Memory`, with status 1;
- if the branches are saved, the whole answers, and the fault `towerbench: memory` with status 1.
Nothing else; and if a look or a fill has another refusal due, it isn't answered `40 Memory`. The
saved file is the one with ample memory, unless a line was refused; if a run ends by a fault, the
file is as it was. Rows through the calls of the desk and of the chart are tried by the built tests
of their crates (tests/built.py), which say themselves what may be answered.
"""
import collections
import os
import re
import shutil
import subprocess
import tempfile

import cases

# Rows of one look or fill, which has a refusal due: it is never answered 40 Memory.
REFUSED_OTHERWISE = (
    "first-fill-without-branch",
    "first-look-without-branch",
    "first-look-without-place",
    "first-look-without-session",
)
# The rows that are tried, and all examples: with these numbers of workers if their words give none.
ROWS = (
    "thousand-steps-filled",
    "thousand-steps-by-workers",
    "first-run-and-edits",
    "bench-file",
    "bench-file-a-branch-dropped",
    "breaks",
    "cells-full",
    "detach-replace",
    "late-run",
    "refusals",
    "script-lines",
    "shared-insert",
    *REFUSED_OTHERWISE,
)
NUMBERS_OF_WORKERS = (0, 4)
# How many growths are refused in a row if it isn't one, and on which rows.
MORE_IN_A_ROW = {
    2: (
        "bench-file",
        "breaks",
        "detach-replace",
        "first-run-and-edits",
        "late-run",
        "shared-insert",
        "thousand-steps-filled",
    ),
    6: (
        "bench-file",
        "breaks",
        "late-run",
        "script-lines",
        "shared-insert",
        "thousand-steps-filled",
    ),
}
# A crate whose tests are tried if no source is newer than they are, a test's name, and how many
# growths are refused in a row: some tests repeat a call that was refused memory, more often than
# that.
TESTS = (
    ("thread_tests", "desks::out_of_memory::two_chairs_out_of_memory", (1,)),
    ("thread_tests", "desks::out_of_memory::two_chairs_asking_again", (1, 2, 6)),
    ("thread_tests", "desks::out_of_memory::thousand_steps_out_of_memory", (1, 2, 6)),
    ("thread_tests", "desks::out_of_memory::thousand_steps_by_four_out_of_memory", (1, 2, 6)),
    ("thread_tests", "desks::crossings::crossing_out_of_memory", (1, 2, 6)),
    ("thread_tests", "desks::limbs::limbs_out_of_memory", (1, 2, 6)),
    ("branch_tests", "charts::out_of_memory::late_run_out_of_memory", (1, 2, 6)),
    ("branch_tests", "charts::out_of_memory::thousand_steps_out_of_memory", (1, 2, 6)),
    ("branch_tests", "charts::out_of_memory::last_run_of_thousand_steps_out_of_memory", (1, 2, 6)),
)
SOURCE = "tests/refuse_growth.c"
# How many growths were refused, by trial: threads may grow more or less often, so those with
# workers aren't counted.
REFUSED_BY_TRIAL = {}
# Past the last growth, this many runs in a row refuse none: threads may grow more or less often.
RUNS_PAST_THE_LAST = 8
MOST_GROWTHS = 4096
REFUSED = b": refused 40 Memory\n"
MEMORY = re.compile(rb"^towerbench: memory$", re.MULTILINE)
UNOPENED = re.compile(rb"^towerbench: (file line 0:|open refused) 40 Memory$", re.MULTILINE)

# name: that of a case; words: more of them; in_a_row: how many growths are refused in a row
Trial = collections.namedtuple("Trial", "name words in_a_row")


def compiled(scratch):
    """Returns the path of the library that refuses growths; None: there is no C compiler here."""
    if shutil.which("cc") is None:
        return None
    target = f"{scratch}/refuse.so"
    subprocess.run(["cc", "-O2", "-shared", "-fPIC", "-o", target, SOURCE], check=True)
    return target


def words_of_trials(name):
    """Returns the lists of words that a case is tried with, before its own: fewer numbers of
    workers than it is run with (tests/cases.py)."""
    words = cases.read(f"{name}.words") if os.path.exists(f"{name}.words") else b""
    if b"--workers" in words:
        return [[]]
    return [["--workers", str(it)] for it in NUMBERS_OF_WORKERS]


def trials(names, of_rows):
    """Returns the trials of the named cases and of the rows, of_rows giving a row's name."""
    wanted = [(it, 1) for it in [*map(of_rows, ROWS), *names]]
    wanted += [(of_rows(it), count) for count, rows in MORE_IN_A_ROW.items() for it in rows]
    return [Trial(name, words, count) for name, count in wanted for words in words_of_trials(name)]


def remark():
    """Returns how many growths were refused one by one, as tests/floors reads it."""
    return f"growths refused: {sum(REFUSED_BY_TRIAL.values())}"


def each_refused(refuse, mark, in_a_row, work):
    """Calls `work` once for each growth, with its number, an environment in which `in_a_row`
    growths from that one on are refused, and a call that returns how many were refused.

    `work` returns whether all came out as with ample memory. Returns how many growths were refused
    in all.
    """
    number = total = past = 0

    def refused():
        return os.path.getsize(mark) if os.path.exists(mark) else 0

    while past < RUNS_PAST_THE_LAST:
        number += 1
        if number > MOST_GROWTHS:
            raise cases.Failure(f"there are more than {MOST_GROWTHS} growths")
        if os.path.exists(mark):
            os.remove(mark)
        given = {"LD_PRELOAD": refuse, "REFUSED_GROWTH": str(number), "REFUSED_MARK": mark}
        given["REFUSED_COUNT"] = str(in_a_row)
        is_ample = work(number, {**os.environ, **given}, refused)
        total += refused()
        past = past + 1 if is_ample and not refused() else 0
    if total == 0:
        raise cases.Failure("no growth was refused")
    return total


class Answers:
    """What the lines of a script are answered with ample memory, if some of them are left out."""

    def __init__(self, run, script):
        """Run gives the output of a script."""
        self.run, self.lines, self.prefixes = run, script.splitlines(keepends=True), {}

    def prefix(self, count, left_out):
        """Returns the answers to the first `count` lines if the lines `left_out` are left out."""
        key = count, frozenset(it for it in left_out if it < count)
        if key not in self.prefixes:
            kept = [b"\n" if k in key[1] else it for k, it in enumerate(self.lines[:count])]
            self.prefixes[key] = self.run(b"".join(kept))
        return self.prefixes[key]

    def rest(self, count, left_out):
        """Returns the answers to the lines after the first `count`, without the lines
        `left_out`."""
        return self.prefix(len(self.lines), left_out)[len(self.prefix(count, left_out)) :]

    def fault(self, output, is_whole, most_refused):
        """Returns what is wrong with an output, or with a prefix of one; None: nothing.

        At most `most_refused` lines may be refused memory.
        """
        left_out, place = frozenset(), 0
        for k, line in enumerate(self.lines):
            came, ample = output[place:], self.rest(k, left_out)
            if came == ample or (not is_whole and ample.startswith(came)):
                break
            own = ample[: len(ample) - len(self.rest(k + 1, left_out))]
            # A line that calls nothing can't be refused memory
            refusal = line.split()[0] + REFUSED if own and not own.startswith(b"line ") else None
            if refusal and (
                came.startswith(refusal) or (not is_whole and refusal.startswith(came))
            ):
                left_out, place = left_out | {k}, place + len(refusal)
            elif came.startswith(own):
                place += len(own)
            else:
                refused = f"the refused lines {[it + 1 for it in sorted(left_out)]}"
                return f"line {k + 1} has another answer in a run without {refused}"
        else:
            if output[place:]:
                return "there is more after the last answer"
        is_more = len(left_out) > most_refused
        return f"{len(left_out)} lines are refused by {most_refused} growths" if is_more else None


def fault_of_run(ran, answers, refused):
    """Returns what is wrong with a run in which `refused` growths were refused, or None."""
    if ran.status == 0:
        return answers.fault(ran.output, True, refused)
    if ran.status != 1 or refused == 0:
        return "it may not end so"
    if MEMORY.search(ran.errors):
        # The last growth in the count was refused after the last line
        return answers.fault(ran.output, False, refused - 1)
    if ran.output or not UNOPENED.search(ran.errors):
        return "its fault isn't of memory"
    return None


def fault_of_order(trial, ran):
    """Returns that a look or fill with another refusal due was refused memory, if one was, or
    None."""
    is_due = os.path.basename(trial.name) in REFUSED_OTHERWISE
    return "another refusal is due" if is_due and REFUSED in ran.output else None


def fault_of_save(case, ran):
    """Returns what is wrong with what a run saved, or None."""
    if not case.save:
        return None
    if ran.status != 0:
        return cases.fault_of_kept(case.save)
    is_ample = ran.output == case.output
    return "something else is saved" if is_ample and cases.saved_by(case) != case.saved else None


def fault_of_script(trial, program, refuse, scratch):
    """Refuses each growth of a case's run in turn; returns what is wrong, or None."""
    # Other trials of the case make the same files at the same time
    temporary = tempfile.mkdtemp(dir=scratch)
    case = cases.case_of(trial.name, temporary)
    words = [*trial.words, *case.words]
    ran = cases.run(program, words, case.script)
    if cases.difference(case, ran):
        return cases.difference(case, ran)
    own = [it for it in case.words if it not in ("--save", case.save)]
    ample = Answers(lambda script: cases.run(program, own, script).output, cases.read(case.script))

    def work(number, environment, refused):
        if case.save:
            cases.put_kept(case.save)
        ran = cases.run(program, words, case.script, environment)
        wrong = fault_of_run(ran, ample, refused())
        wrong = wrong or fault_of_order(trial, ran) or fault_of_save(case, ran)
        if wrong:
            raise cases.Failure(
                f"from growth {number} on, {refused()} refused: {wrong}: {end_in_words(ran)}"
            )
        return ran.status == 0 and ran.output == case.output

    total = each_refused(refuse, f"{temporary}/mark", trial.in_a_row, work)
    if trial.words == ["--workers", "0"]:
        REFUSED_BY_TRIAL[name_of(trial)] = total
    return None


def name_of(trial):
    """Returns a trial's name."""
    more = f", {trial.in_a_row} in a row" * (trial.in_a_row > 1)
    return " ".join([trial.name, *trial.words]) + more


def end_in_words(ran):
    """Returns in one line how a run ended."""
    ends = [repr(it[-cases.BYTES_SHOWN :])[1:] for it in (ran.output, ran.errors)]
    return f"status {ran.status}, output to its end {ends[0]}, standard error {ends[1]}"


def fault_of_test(path, test, in_a_row, refuse, scratch):
    """Refuses each growth of a built test in turn; returns what is wrong, or None."""

    def work(number, environment, _):
        ran = cases.run(path, [test], b"", environment)
        if ran.status != 0:
            raise cases.Failure(f"from growth {number} on: not allowed: {end_in_words(ran)}")
        return True

    each_refused(refuse, f"{tempfile.mkdtemp(dir=scratch)}/mark", in_a_row, work)
    return None
