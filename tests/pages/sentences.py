"""What the page says of a read, under node, held to the definitions by a judge of its own.

Each history of one or two writes and one or two reads is tried: every order of their beginnings and
ends, with every value, by one reader or two, with a last write that is whole, goes on or is
refused, or ends in the step in which it begins. These are all that a tower with one writer can do
with such operations, and more. Three writes of two values are tried with one reader.
"""
import collections
import itertools
import json
import re
import shutil
import tempfile

from commands import output_of
from pages import build
from trials import Test, in_short

VALUES = range(3)
INITIAL = 0
NEVER = 10**9
# ended: NEVER if it goes on; value: what is written or what is returned
Operation = collections.namedtuple(
    "Operation", "process kind value begun ended is_refused", defaults=[False]
)
# What the page may say of a fresh read, in parts
SOURCE = re.compile(
    r"Fresh: (?:write (\d+) returned at step (\d+), the last write to return|no write had returned) before the read "
    r"began at step (\d+)(?:, and (\d+) is the initial value)?\.(?: (.*))?"
)
NEWER = re.compile(
    r"Fresh doesn't mean newest: write (\d+) overlaps the read, which returned the older value\."
)
SAME = re.compile(r"write (\d+), which overlaps the read, wrote that value too\.")
INVERSION = re.compile(
    r"This is a new-old inversion: p(\d) had already read (\d+), at step (\d+)\."
)
OVERLAP = re.compile(
    r"Overlap: write (\d+) began at step (\d+)(?: and hadn't returned when the read began at step (\d+)|"
    r", before the read returned at step (\d+))\."
)
STRAY = re.compile(
    r"Stray: no write of (\d+) overlaps the read, and (?:write (\d+) was the last write before it|no write had returned "
    r"before it, and (\d+) isn't the initial value)\."
)


class Judge:
    """What is so of a read, by the definitions alone."""

    def __init__(self, operations, read):
        self.operations, self.read = operations, read
        writes = [it for it in operations if it.kind == "write" and not it.is_refused]
        self.overlapping = [it for it in writes if it.begun < read.ended and it.ended > read.begun]
        self.last = max(
            (it for it in writes if it.ended < read.begun), key=lambda it: it.begun, default=None
        )
        self.fresh = self.last.value if self.last else INITIAL

    @property
    def verdict(self):
        if self.read.value == self.fresh:
            return "fresh"
        return "overlap" if any(it.value == self.read.value for it in self.overlapping) else "stray"

    @property
    def sources(self):
        """The steps at which writes began that the value can be of; the initial value's is -1."""
        found = [it.begun for it in self.overlapping if it.value == self.read.value]
        return found + [self.last.begun if self.last else -1] * (self.read.value == self.fresh)

    @property
    def inversions(self):
        """The earlier reads that are of a newer write, whichever writes both are of."""
        reads = (it for it in self.operations if it.kind == "read" and it.ended < self.read.begun)
        judged = ((it, Judge(self.operations, it).sources) for it in reads)
        return [
            it for it, found in judged if found and self.sources and min(found) > max(self.sources)
        ]

    def newer(self, value):
        """Returns whether a write of a value overlaps the read and is newer than whatever it is
        of."""
        return any(it.value == value and it.begun > max(self.sources) for it in self.overlapping)


def fault_of_fresh(judge, words):
    """Returns what is untrue of what is said of a fresh read; None: nothing."""
    found, read = SOURCE.fullmatch(words), judge.read
    if not found:
        return "it has no reason"
    value, ended, began, initial, more = found.groups()
    last = (
        (str(judge.last.value), str(judge.last.ended), None)
        if judge.last
        else (None, None, str(INITIAL))
    )
    if (value, ended, initial) != last or int(began) != read.begun or read.value != judge.fresh:
        return "its source is another"
    is_newer = any(judge.newer(it) for it in VALUES)
    if not more:
        return "it leaves out a write" if judge.overlapping else None
    if it := NEWER.fullmatch(more):
        return (
            None
            if judge.newer(int(it[1])) and not judge.inversions
            else "it isn't so that a newer write overlaps it"
        )
    if it := SAME.fullmatch(more):
        is_there = any(each.value == int(it[1]) == read.value for each in judge.overlapping)
        return (
            None
            if is_there and not is_newer and not judge.inversions
            else "no write wrote that value too"
        )
    if it := INVERSION.fullmatch(more):
        wanted = [(each.process, each.value, each.ended) for each in judge.inversions]
        return None if tuple(map(int, it.groups())) in wanted else "there is no inversion"
    return "it says what isn't known"


def fault_of_overlap(judge, words):
    found, read = OVERLAP.fullmatch(words), judge.read
    if not found:
        return "it has no reason"
    value, begun, began, ended = (None if it is None else int(it) for it in found.groups())
    is_there = any(
        (it.value, it.begun) == (value, begun) and value == read.value for it in judge.overlapping
    )
    if began is not None:
        return None if is_there and begun < began == read.begun else "no such write overlaps it"
    return (
        None
        if is_there and read.begun < begun < ended == read.ended
        else "no such write overlaps it"
    )


def fault_of_stray(judge, words):
    found = STRAY.fullmatch(words)
    if not found:
        return "it has no reason"
    value, last, initial = (None if it is None else int(it) for it in found.groups())
    wanted = (judge.last.value, None) if judge.last else (None, value)
    is_so = (
        value == judge.read.value
        and (last, initial) == wanted
        and all(it.value != value for it in judge.overlapping)
    )
    return None if is_so and value != judge.fresh else "it isn't stray so"


FAULTS = {"fresh": fault_of_fresh, "overlap": fault_of_overlap, "stray": fault_of_stray}


def orders(threads):
    """Yields each order of some lists that keeps the order of each."""
    if not any(threads):
        yield ()
        return
    for index, each in enumerate(threads):
        if each:
            rest = [it[1:] if at == index else it for at, it in enumerate(threads)]
            yield from ((each[0], *order) for order in orders(rest))


def histories_of(writes, readers, ending, values=VALUES):
    """Yields the histories of some writes and reads. readers: the process of each read; ending: of
    the last write."""
    names = [("w", it) for it in range(writes)], *(
        [("r", it) for it, who in enumerate(readers) if who == p] for p in sorted(set(readers))
    )
    is_short = ending in ("refused", "at once")
    last, threads = ("w", writes - 1), []
    for names_of_one in names:
        ends = [
            [(it, "begin")] + [(it, "end")] * (it != last or ending == "whole")
            for it in names_of_one
        ]
        threads.append([event for it in ends for event in it])
    for order in orders(threads):
        steps = {event: step for step, event in enumerate(order)}
        for given in itertools.product(values, repeat=writes + len(readers)):
            made = []
            for at in range(writes):
                begun, is_last = steps[("w", at), "begin"], ("w", at) == last
                ended = begun if is_last and is_short else steps.get((("w", at), "end"), NEVER)
                made.append(
                    Operation(0, "write", given[at], begun, ended, is_last and ending == "refused")
                )
            for at, who in enumerate(readers):
                made.append(
                    Operation(
                        who,
                        "read",
                        given[writes + at],
                        steps[("r", at), "begin"],
                        steps[("r", at), "end"],
                    )
                )
            yield sorted(made, key=lambda it: it.begun), len(order)


def histories():
    """Yields each history and how many steps it has."""
    for writes, readers in itertools.product((1, 2), ((1,), (1, 1), (1, 2))):
        for ending in ("whole", "goes on", "refused", "at once"):
            yield from histories_of(writes, readers, ending)
    yield from histories_of(3, (1, 1), "whole", VALUES[:2])


def pages_of(operations, length):
    """Returns the lines of the pages `history` and `verdict`, and the number of steps."""
    events, verdicts = [], []
    for it in operations:
        name = f"write {it.value}" if it.kind == "write" else "read"
        events.append((it.begun, 0, f"{it.begun} p{it.process} invoke {name}"))
        if it.ended == NEVER:
            continue
        end = (
            "refused spent stamped"
            if it.is_refused
            else f"return {'written' if it.kind == 'write' else it.value}"
        )
        events.append((it.ended, 1, f"{it.ended} p{it.process} {end}"))
        if it.kind == "read":
            verdicts.append(
                (it.ended, f"{it.ended} p{it.process} {it.value} {Judge(operations, it).verdict}")
            )
    return [it[-1] for it in sorted(events)], [it[-1] for it in sorted(verdicts)], length


def sentences(lines):
    """Returns what the page says of each history's reads, by the step at which each begins."""
    with tempfile.TemporaryDirectory() as scratch:
        build.put_modules(scratch, "sentences.mjs")
        output = output_of(["node", f"{scratch}/sentences.mjs"], "".join(lines))
    return [json.loads(it) for it in output.splitlines()]


def fault_of_history(operations, faults, said):
    """Returns what is wrong in what is said of the reads of a history; None: nothing."""
    if faults:
        return faults[0]
    by_step = dict(said)
    for read in (it for it in operations if it.kind == "read"):
        judge, words = Judge(operations, read), by_step[read.begun]
        fault = FAULTS[judge.verdict](judge, words)
        if not fault and judge.verdict == "fresh" and judge.inversions and "inversion" not in words:
            fault = "it leaves out the inversion"
        if fault:
            return f"{fault}: {words} {operations}"
    return None


def fault_of_sentences():
    """Returns what is untrue of what the page says; None: nothing."""
    made = list(histories())
    lines = [f"{json.dumps(pages_of(*it))}\n" for it in made]
    said = sentences(lines)
    if len(said) != len(made):
        return f"{len(made)} histories have {len(said)} answers"
    faults = [it for it in map(lambda it, words: fault_of_history(it[0], *words), made, said) if it]
    kinds = collections.Counter(words.split(":")[0] for _, reads in said for _, words in reads)
    has_all = set(kinds) == {"Fresh", "Overlap", "Stray"} and any(
        "inversion" in words for _, reads in said for _, words in reads
    )
    if not has_all:
        return f"of {len(made)} histories it says {dict(kinds)}"
    return in_short(faults, f"{len(made)} histories")


def tests():
    return [
        Test(
            "sentences of every small history", fault_of_sentences if shutil.which("node") else None
        )
    ]
