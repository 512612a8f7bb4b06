"""The crates of this repository, and work on them side by side.

`rt` lets one run at a time into a crate and all below it, so two crates over one library wait for
each other. Here each crate is worked on in a tree of its own, a scratch folder that has the crate's
files and the libraries below it as they are built; its products are then put back. Needs Python
3.8, as `rt` does.
"""
import collections
import fcntl
import os
import re
import shutil
import signal
import subprocess
import sys
import tempfile
import threading
import time
from concurrent.futures import FIRST_COMPLETED, ThreadPoolExecutor, wait

TOP = os.path.dirname(os.path.dirname(os.path.realpath(__file__)))
PARTS = ("src", "specs", "proofs")
# By one processor a check takes 0.8 to 2.3 GB, and that of the program 3.6.
MEMORY_OF_A_CHECK = 2 * 10**9
# A check gains little from more than 4 processors.
JOBS_OF_A_CHECK = 4
# A check also loads the crates below: this many of their lines take as long as one of its own.
LINES_LOADED_AS_ONE = 7
# The last in the queue for a processor, as `nice` counts.
NICEST = 19
SECONDS_BETWEEN_REPORTS = 60
# Whether crates are built in the other order, each by one processor: their bytes have to be the
# same (tools/twice).
IS_BACKWARD = os.environ.get("TOWERBENCH_ORDER") == "backward"
LINES_SHOWN = 20
# What a check says of a place, of a function or a goal that isn't proved, and of what can't be
# read.
FAULT_LINE = re.compile(
    r"(note: )?\S+:\d+:\d+: |fn .*: (?!proved$)|note: `.* (must prove|may be false)|.*\berror\b"
)

# waits: the keys of the tasks that have to go well first; lines: about how long it takes;
# most_jobs: how many processors it can use; work: is given how many it may use and its niceness,
# and returns whether it went well.
Task = collections.namedtuple("Task", "waits lines most_jobs work")


def say(text):
    print(f"towerbench: {text}", file=sys.stderr, flush=True)


def crate_lines():
    """Returns the line of each crate in crates.txt, by its name."""
    found = {}
    with open(f"{TOP}/crates.txt", encoding="utf-8") as file:
        for line in file:
            head, colon, libraries = line.partition("#")[0].strip().partition(":")
            if head:
                found[head.split()[0]] = head + colon + libraries
    return found


def libraries_in(line):
    """Returns the libraries that a crate's line of crates.txt names, the kit's too."""
    return line.partition(":")[2].replace(",", " ").split()


def listed_crates():
    """Returns each crate of crates.txt, with the crates of the repository directly below it."""
    libraries = {name: libraries_in(line) for name, line in crate_lines().items()}
    return {name: [it for it in below if it in libraries] for name, below in libraries.items()}


def all_below(crates, name):
    """Returns all crates below one, each after those below itself."""
    found = []
    for it in crates[name]:
        found += [lower for lower in [*all_below(crates, it), it] if lower not in found]
    return found


def lines_in(name):
    """Returns how many lines a crate's files have."""
    count = 0
    for part in PARTS:
        for folder, _, files in os.walk(f"{TOP}/crates/{name}/{part}"):
            for it in files:
                with open(f"{folder}/{it}", "rb") as file:
                    count += file.read().count(b"\n")
    return count


def lines_of_check(crates, name):
    """Returns about how long the check of a crate takes, as lines."""
    return lines_in(name) + sum(map(lines_in, all_below(crates, name))) // LINES_LOADED_AS_ONE


def is_program(name):
    return os.path.isfile(f"{TOP}/crates/{name}/src/main.rt")


def link_or_copy(source, target):
    try:
        os.link(source, target)
    except OSError:
        shutil.copy2(source, target)


class Tree:
    """A scratch tree for work on one crate, which nothing else works on meanwhile. Used by
    `with`."""

    # has_out: whether it has what is built of the crate itself, too
    def __init__(self, crates, name, has_out=True):
        self.name, self.below, self.has_out = name, all_below(crates, name), has_out
        self.top = tempfile.mkdtemp(prefix="towerbench-")
        self.folder, self.home = f"{self.top}/crates/{name}", f"{TOP}/crates/{name}"
        self.held = {}

    def __enter__(self):
        try:
            # In the order of `rt`, so that neither waits for the other in a ring
            for it in sorted([*self.below, self.name]):
                self.held[it] = lock(
                    f"{TOP}/crates/{it}", fcntl.LOCK_EX if it == self.name else fcntl.LOCK_SH
                )
            self.fill()
        except BaseException:
            self.__exit__()
            raise
        for it in self.below:
            os.close(self.held.pop(it))
        return self

    def __exit__(self, *_):
        shutil.rmtree(self.top, ignore_errors=True)
        for it in self.held.values():
            os.close(it)

    def fill(self):
        """Copies what the work needs: sources, the libraries below, and what was built before."""
        with open(f"{self.top}/crates.txt", "w", encoding="utf-8") as listed:
            listed.writelines(
                f"{line}\n" for it, line in crate_lines().items() if it in (*self.below, self.name)
            )
        for it in [*self.below, self.name]:
            for part in PARTS:
                self.bring(f"crates/{it}/{part}", shutil.copy2)
            # A built library is only read, so a link to it is enough
            if it != self.name:
                self.bring(f"crates/{it}/out/rlib", link_or_copy)
        if self.has_out:
            self.bring(f"crates/{self.name}/out", link_or_copy)
        os.makedirs(f"{self.folder}/out", exist_ok=True)

    def bring(self, path, copy):
        if os.path.isdir(f"{TOP}/{path}"):
            shutil.copytree(f"{TOP}/{path}", f"{self.top}/{path}", copy_function=copy)

    def put_back(self):
        """Puts the products in out/ back into the crate."""
        shutil.rmtree(f"{self.home}/out", ignore_errors=True)
        shutil.move(f"{self.folder}/out", f"{self.home}/out")


def lock(folder, kind):
    """Waits until no other run works in the folder, and returns a descriptor that keeps others out
    until it is closed."""
    held, has_said = os.open(folder, os.O_RDONLY), False
    while not PROCESSES.are_ended:
        try:
            fcntl.flock(held, kind | fcntl.LOCK_NB)
            break
        except BlockingIOError:
            if not has_said:
                say(f"waiting for another run to finish in {os.path.relpath(folder)}")
            has_said = True
            time.sleep(0.2)
        except OSError:
            # Some file systems have no locks.
            break
    return held


class Processes:
    """The commands that are running, so that all can be ended at once."""

    def __init__(self):
        self.running, self.are_ended, self.turn = set(), False, threading.Lock()

    def call(self, words, folder, log):
        """Runs a command with no input, and returns whether it ended with status 0."""
        with open(log, "wb") as out:
            with self.turn:
                if self.are_ended:
                    return False
                how = {"stdin": subprocess.DEVNULL, "stdout": out, "stderr": subprocess.STDOUT}
                process = subprocess.Popen(words, cwd=folder, **how)
                self.running.add(process)
            status = process.wait()
            with self.turn:
                self.running.discard(process)
        return status == 0

    def end_all(self):
        with self.turn:
            self.are_ended = True
            for it in self.running:
                it.terminate()


PROCESSES = Processes()


def prove_by_rt(crates, name, jobs, niceness):
    """Proves and builds one crate by `rt`, in a tree of its own, and returns whether it is
    proved."""
    with Tree(crates, name) as tree:
        # `rt run` builds a program and also runs it, here on no input
        verb = "run" if is_program(name) else "lib"
        log = f"{tree.folder}/out/prove.log"
        is_proved = PROCESSES.call(
            ["nice", "-n", str(niceness), "rt", verb, "--jobs", str(jobs)], tree.folder, log
        )
        has_failed = not is_proved and not PROCESSES.are_ended
        tree.put_back()
    if has_failed:
        show_failure(f"{TOP}/crates/{name}/out/prove.log", name)
    return is_proved


def said_of_failure(log, name):
    """Returns the lines that say why a crate isn't proved: those of its log that name a fault, or
    the last ones if none does."""
    with open(log, encoding="utf-8", errors="replace") as it:
        lines = it.read().splitlines()
    faults = [it for it in lines if FAULT_LINE.match(it)]
    how = "in part:" if faults else "which ends:"
    said = f"{name} is not proved; all that its proof said is in {os.path.relpath(log)}, {how}"
    left = len(faults) - LINES_SHOWN
    more = [f"(and {left} more line{'s' * (left > 1)} of faults)"] if left > 0 else []
    return [said, *(faults[:LINES_SHOWN] or lines[-LINES_SHOWN:]), *more]


def show_failure(log, name):
    """Prints why a crate isn't proved, by the log of its proof."""
    said, *lines = said_of_failure(log, name)
    say(said)
    print(*lines, sep="\n", file=sys.stderr, flush=True)


def proof_tasks(crates, names, prove_one=prove_by_rt):
    """Returns the tasks that prove these crates and all below them, by their names."""
    wanted = {it for name in names for it in [*all_below(crates, name), name]}
    return {
        name: Task(
            crates[name],
            lines_of_check(crates, name),
            JOBS_OF_A_CHECK,
            lambda jobs, niceness, it=name: prove_one(crates, it, jobs, niceness),
        )
        for name in crates
        if name in wanted
    }


def text_of(path):
    """Returns the text of a file; None: it can't be read."""
    try:
        with open(path, encoding="utf-8") as file:
            return file.read()
    except OSError:
        return None


def number_in(path, pattern):
    """Returns the number that a pattern finds in a file; None: it finds none."""
    found = re.search(pattern, text_of(path) or "")
    return int(found.group(1)) if found else None


def processors():
    """Returns how many processors there are for this run, at least one."""
    count = len(os.sched_getaffinity(0))
    quota, period = (number_in("/sys/fs/cgroup/cpu.max", it) for it in (r"^(\d+)", r" (\d+)"))
    return max(1, min(count, quota // period) if quota and period else count)


def lanes():
    """Returns how many checks may run side by side: as many as memory holds, at most two for each
    processor, and at least one."""
    free = 1024 * (number_in("/proc/meminfo", r"MemAvailable:\s+(\d+)") or 0)
    limit = number_in("/sys/fs/cgroup/memory.max", r"(\d+)")
    held = number_in("/sys/fs/cgroup/memory.stat", r"anon (\d+)")
    if limit and held is not None:
        free = min(free, limit - held)
    # A check uses one processor for half of its time, so more checks than processors keep these
    # busy
    return max(1, min(2 * processors(), free // MEMORY_OF_A_CHECK))


def chains(tasks):
    """Returns for each task the lines of the longest chain of tasks that begins with it."""
    found = {}

    def chain_from(key):
        if key not in found:
            above = [it for it, task in tasks.items() if key in task.waits]
            found[key] = tasks[key].lines + max(map(chain_from, above), default=0)
        return found[key]

    for key in tasks:
        chain_from(key)
    return found


def run_side_by_side(tasks, show):
    """Runs the tasks, those with the longest chain after them first, and returns whether all went
    well.

    The one that the longest chain waits for may use all processors. The others share them, and the
    shorter the chain after one, the lower its priority if processors are short. Once one fails, the
    others are ended. `show` is given those that are done and those that run, each with its seconds,
    whenever that changes and once a minute."""
    all_processors, all_lanes, chain = processors(), lanes(), chains(tasks)
    left = sorted(tasks, key=lambda it: chain[it] if IS_BACKWARD else -chain[it])
    running, done = {}, {}
    is_well = True
    with ThreadPoolExecutor(all_lanes) as pool:
        try:
            while running or (left and is_well):
                ready = [
                    it for it in left if is_well and all(below in done for below in tasks[it].waits)
                ]
                head = max(chain[it] for it in [*left, *(it for it, _ in running.values())])
                # A check on several processors costs more in all, so only the longest chain's gets
                # all of them
                share = all_processors // (len(running) + len(ready) or 1)
                for key in ready[: all_lanes - len(running)]:
                    most = all_processors if chain[key] == head else share
                    jobs = 1 if IS_BACKWARD else max(1, min(tasks[key].most_jobs, most))
                    niceness = round(NICEST * (1 - chain[key] / head))
                    left.remove(key)
                    running[pool.submit(tasks[key].work, jobs, niceness)] = key, time.monotonic()
                now = time.monotonic()
                show(done, {key: now - since for key, since in running.values()})
                for it in wait(running, SECONDS_BETWEEN_REPORTS, FIRST_COMPLETED).done:
                    key, since = running.pop(it)
                    if it.result():
                        done[key] = time.monotonic() - since
                    elif is_well:
                        is_well = False
                        PROCESSES.end_all()
        except BaseException:
            PROCESSES.end_all()
            raise
    if is_well:
        show(done, {})
    return is_well


def end_by_signals():
    """Makes a signal that ends the run also end its commands and remove its scratch trees."""

    def end(*_):
        raise SystemExit(130)

    for it in (signal.SIGINT, signal.SIGTERM, signal.SIGHUP):
        signal.signal(it, end)
