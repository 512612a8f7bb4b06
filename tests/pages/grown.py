"""The page's branches after each change, under node: byte for byte those that the program saves.

Scripts change at random, as by gestures and by undo, on branches that share steps; the native
program says what is saved. After steps at the ends of branches, or once these are undone, the page
has asked for one run, which saved nothing.
"""
import collections
import functools
import json
import os
import random
import re
import shutil
import tempfile
from concurrent.futures import ThreadPoolExecutor

import cases
from commands import output_of
from pages import build
from trials import Test, in_short

SEED, CHAINS, CHANGES = 5, 40, 40
TOWERS = {
    "safe 0": ("w 0 1", "r 1", "g 0 0", "g 1 1", "x 0"),
    "copies 2 1": ("w 0 0", "r 2", "g 0 0", "g 2 0", "x 1"),
    "regular 2 0": ("w 0 1", "r 1", "g 0 1", "g 1 0", "x 2"),
    "unary 3 1 2": ("w 0 2", "r 1", "g 0 0", "g 1 1", "x 0"),
    "stamped 2 1": ("w 0 1", "r 1", "g 0 0", "g 1 0", "x 1"),
    "matrix 2 2 1 3": ("w 1 1", "r 0", "g 1 0", "g 0 1", "x 1"),
}
# how often there is a change of each kind, next to the others
KINDS = {"ends": 40, "undo": 20, "idle": 6, "refused": 8, "mixed": 10, "insert": 8, "fork": 8}
KINDS.update({"remove": 4, "replace": 4, "detach": 2, "drop": 2})
MIXED = ("ends", "ends", "refused", "insert", "fork", "remove", "replace", "detach", "drop")
QUIET = ("ends", "idle")
IDLE = ("# a remark", "", "0 join", "1 join", "0 go main 0", "7 branches", "0 help")
# Names of dropped branches are used again
NAMES = ("main", *"abcde")
BAD_STEP = "w 0 9"
FORKS = "0 fork main 1 a\n0 insert a 1 r 1\n0 fork a 2 b\n"
FIXED = (
    # a branch grows at whose end another one begins
    ("tower 2\nsafe 0\nr 1\n", (FORKS, f"{FORKS}0 insert a 2 x 1\n0 insert b 2 x 0\n")),
    # a refused line in place of another one
    ("tower 2\nsafe 0\nr 1\n", ("", "0 insert main 0 w 0 9\n", "0 insert main 0 w 0 8\n")),
    # a document of another tower after this one's
    ("tower 2\nsafe 0\n", ("0 join\n0 insert main 0 r 1\n",)),
    ("tower 2\nsafe 1\n", ("0 join\n",)),
)
LISTED = re.compile(r"^  ([a-z]+) ([0-9]+)$", re.M)

# saved: the branches as bytes; is_quiet: the page needs nothing saved after the script before
Link = collections.namedtuple("Link", "script saved is_quiet")


class Chain:
    """A file, and scripts over it, one after the other."""

    def __init__(self, program, scratch, file, scripts=()):
        self.program, self.scratch, self.file = program, tempfile.mkdtemp(dir=scratch), file
        self.links = [self.link(it, False) for it in scripts]

    def link(self, script, is_quiet):
        """Returns a script with what it saves, and keeps how long branches are and its edits."""
        path, saved = cases.written(f"{self.scratch}/file", self.file), f"{self.scratch}/saved"
        asked = f"{script}0 branches\n".encode()
        ran = cases.run(self.program, [path, "--save", saved], asked)
        if ran.status:
            raise ValueError(f"the program ended with status {ran.status}: {ran.errors.decode()}")
        listed = ran.output.decode().rpartition("branches")[2]
        self.lengths = {name: int(length) for name, length in LISTED.findall(listed)}
        self.edits = ran.output.count(b": edit ")
        return Link(script, cases.read(saved), is_quiet)


class Changing(Chain):
    """A chain of scripts each of which is a random change of the one before."""

    def __init__(self, program, scratch, seed):
        self.chance = random.Random(seed)
        tower, self.steps = self.chance.choice(list(TOWERS.items()))
        steps = [f"{self.step()}\n" for _ in range(self.chance.randrange(6))]
        super().__init__(program, scratch, f"tower 2\n{tower}\n{''.join(steps)}")
        if self.chance.random() < 0.5:
            forks = "0 fork main 0 d\n0 fork main 0 e\n0 drop d\n"
            self.file = self.link(forks, False).saved.decode()
        # each line, and whether it needs no saving
        self.lines = [("0 join", True)]
        self.links = [self.next_link(False)]
        self.links += [self.next_changed() for _ in range(CHANGES)]

    def next_link(self, is_quiet):
        return self.link("".join(f"{it}\n" for it, _ in self.lines), is_quiet)

    def next_changed(self):
        """Returns the next script, whose last lines are others."""
        (kind,) = self.chance.choices(list(KINDS), KINDS.values())
        if kind == "undo":
            count = min(self.chance.randrange(1, 8), len(self.lines) - 1)
            taken = [self.lines.pop() for _ in range(count)]
            return self.next_link(all(is_quiet for _, is_quiet in taken))
        is_quiet = kind in QUIET
        kinds = self.chance.choices(MIXED, k=3) if kind == "mixed" else [kind]
        self.lines += [(line, is_quiet) for it in kinds for line in self.lines_of(it)]
        return self.next_link(is_quiet)

    def step(self):
        return self.chance.choice(self.steps)

    def end(self):
        """Returns an insert at a branch's end, as long as all lines before it are done."""
        name, guard = self.chance.choice(list(self.lengths)), self.chance.random() < 0.2
        line = f"0 {f'@{self.edits} ' * guard}insert {name} {self.lengths[name]} {self.step()}"
        self.lengths[name] += 1
        self.edits += 1
        return [line, *[f"0 go {name} {self.lengths[name]}"] * (self.chance.random() < 0.7)]

    def lines_of(self, kind):
        """Returns the lines of a kind of change."""
        if kind == "ends":
            return [it for _ in range(self.chance.choice((1, 1, 1, 2, 5))) for it in self.end()]
        if kind == "idle":
            return [self.chance.choice(IDLE)]
        name, other = self.chance.choice(list(self.lengths)), self.chance.choice(NAMES)
        length = self.lengths[name]
        place = self.chance.choice((0, length, self.chance.randrange(length + 1)))
        if kind == "refused":
            return [
                self.chance.choice(
                    (
                        f"0 insert {name} {length} {BAD_STEP}",
                        f"0 insert {name} {length + 1} {self.step()}",
                        f"0 insert none {length} {self.step()}",
                        f"0 @{self.edits + 1} insert {name} {length} {self.step()}",
                        f"16 insert {name} {length} {self.step()}",
                        f"0 insert  {name} {length} {self.step()}",
                    )
                )
            ]
        words = {
            "insert": f"{place} {self.step()}",
            "replace": f"{place} {self.step()}",
            "remove": place,
            "fork": f"{place} {other}",
        }
        return [f"0 {kind} {name} {words.get(kind, '')}".rstrip()]


def fault_of_link(link, found):
    """Returns what is wrong with what the page makes of a script; None: nothing."""
    bench, runs, saves, fault = found
    if bench.encode() != link.saved:
        return cases.first_difference(link.saved, bench.encode())
    if link.is_quiet and (runs, saves) != (1, 0):
        return f"{runs} runs, of which {saves} saved"
    return fault or None


def fault_of_branches(program):
    """Returns after which scripts the page has other branches; None: after none."""
    with tempfile.TemporaryDirectory() as scratch, ThreadPoolExecutor(os.cpu_count()) as pool:
        seeds = range(SEED, SEED + CHAINS)
        chains = list(pool.map(lambda it: Changing(program, scratch, it), seeds))
        chains += [Chain(program, scratch, *it) for it in FIXED]
        build.put_modules(scratch, "grown.mjs")
        with open(f"{scratch}/chains", "w", encoding="ascii") as file:
            for it in chains:
                print(json.dumps([it.file, [link.script for link in it.links]]), file=file)
        words = ["node", f"{scratch}/grown.mjs", build.made_module(), f"{scratch}/chains"]
        found = [json.loads(it) for it in output_of(words).splitlines()]
    links = [link for it in chains for link in it.links]
    if len(found) != len(links) or sum(it.is_quiet for it in links) < len(links) // 3:
        return f"{len(found)} of {len(links)} scripts, {sum(it.is_quiet for it in links)} quiet"
    faults = [
        f"{link.script[-200:]!r}: {fault}"
        for link, each in zip(links, found)
        for fault in [fault_of_link(link, each)]
        if fault
    ]
    return in_short(faults, len(links))


def tests(program):
    name, work = "grown branches", functools.partial(fault_of_branches, program)
    return [Test(name, work if shutil.which("node") else None)]
