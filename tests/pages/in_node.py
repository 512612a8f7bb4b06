"""The program's module, as the page runs it, under node: on the rows, examples and lessons, and on
random scripts and files.

A row about a file of the machine, such as /dev/full, is tried with a substitute for that file.
"""
import base64
import collections
import errno
import functools
import json
import os
import shutil
import subprocess
import tempfile
import threading
from concurrent.futures import ThreadPoolExecutor

import cases
from pages import build, random_inputs
from trials import Test

# In place of files of the machine: bytes, or how page/machine.js is to fail
SUBSTITUTES = {
    "/": {"error": errno.EISDIR},
    "/dev": {"error": errno.EISDIR},
    "/dev/full": {"error": errno.ENOSPC},
    "/dev/null": "",
    "/no/such/folder/kept": {"refused": errno.ENOENT},
}
SEED, COUNT, SHOWN = 20, 2000, 3
# little more than the module begins with
LITTLE_MEMORY = 17 * 2**20

# words, files and input: as page/machine.js takes them; most_memory: bytes, or None
Run = collections.namedtuple("Run", "words files input most_memory", defaults=[None])
# fault: a sentence, if there is no status; written: the bytes of each file, by its path
Ended = collections.namedtuple("Ended", "status output errors written fault")


def base64_of(data):
    return base64.b64encode(data).decode()


def ended_in(line):
    """Returns how a run ended, by the line that tests/pages/runs.mjs prints of it."""
    it = json.loads(line)
    if "fault" in it:
        return Ended(None, b"", b"", {}, it["fault"])
    output, errors = (base64.b64decode(it[key]) for key in ("output", "errors"))
    return Ended(
        it["status"],
        output,
        errors,
        {path: base64.b64decode(text) for path, text in it["written"].items()},
        None,
    )


def run_all(runs):
    """Returns how each run of the module ended."""
    with tempfile.NamedTemporaryFile("w", encoding="ascii") as file:
        for it in runs:
            files = {
                path: base64_of(text) if isinstance(text, bytes) else text
                for path, text in it.files.items()
            }
            given = {
                "words": [base64_of(word) for word in it.words],
                "files": files,
                "input": base64_of(it.input),
            }
            print(
                json.dumps({**given, "mostMemory": it.most_memory} if it.most_memory else given),
                file=file,
            )
        file.flush()
        words = [
            "node",
            f"{build.TOP}/tests/pages/runs.mjs",
            f"{build.TOP}/page/machine.js",
            build.made_module(),
            file.name,
        ]
        done = subprocess.run(
            words, stdout=subprocess.PIPE, stderr=subprocess.PIPE, text=True, check=False
        )
    if done.returncode:
        raise ValueError(f"node ended with status {done.returncode}: {done.stderr.strip()[-300:]}")
    return [ended_in(line) for line in done.stdout.splitlines()]


def run_of(case):
    """Returns a case's run in the module."""
    words = [*cases.words_of_workers(case)[0], *case.words]
    files = {
        it: text if isinstance(text, dict) else text.encode()
        for it, text in SUBSTITUTES.items()
        if it in words
    }
    files.update(
        {
            it: cases.read(it)
            for it in words
            if it not in SUBSTITUTES and it != case.save and os.path.isfile(it)
        }
    )
    return Run([b"towerbench", *map(os.fsencode, words)], files, cases.read(case.script))


class CasesInModule:
    """All cases in the module, which are run at once when the first is asked for."""

    def __init__(self, names, scratch):
        self.names, self.scratch = names, f"{scratch}/module"
        self.found, self.turn = None, threading.Lock()

    def all_found(self):
        with self.turn:
            if self.found is None:
                os.makedirs(self.scratch, exist_ok=True)
                made = [cases.case_of(it, self.scratch) for it in self.names]
                self.found = dict(zip(self.names, zip(made, run_all([run_of(it) for it in made]))))
        return self.found

    def fault_of(self, name):
        """Returns what is wrong with what the module makes of a case; None: nothing."""
        case, got = self.all_found()[name]
        if got.fault:
            return got.fault
        if case.save:
            with open(case.save, "wb") as file:
                file.write(got.written.get(case.save, b""))
        return cases.difference(case, cases.Ran(got.output, got.status, got.errors))


def run_native(program, given, folder):
    """Returns what the native program makes of a random input."""
    words = []
    if given.tower is not None:
        with open(f"{folder}/tower", "wb") as file:
            file.write(given.tower)
        words.append(f"{folder}/tower")
    if given.is_saved:
        words += ["--save", f"{folder}/saved"]
    ran = cases.run(program, ["--workers", "0", *words], given.script)
    written = {"saved": cases.read(f"{folder}/saved")} if os.path.exists(f"{folder}/saved") else {}
    return Ended(ran.status, ran.output, ran.errors, written, None)


def run_of_input(given):
    """Returns a random input's run in the module."""
    words = [
        b"towerbench",
        b"--workers",
        b"0",
        *[b"tower"] * (given.tower is not None),
        *[b"--save", b"saved"] * given.is_saved,
    ]
    return Run(words, {} if given.tower is None else {"tower": given.tower}, given.script)


def fault_of_random_inputs(names, program):
    """Returns where the module and the native program differ on random inputs; None: nowhere."""
    inputs = random_inputs.inputs_of(names, SEED, COUNT)
    with tempfile.TemporaryDirectory() as scratch, ThreadPoolExecutor(os.cpu_count()) as pool:
        folders = [f"{scratch}/{index}" for index in range(COUNT)]
        for it in folders:
            os.mkdir(it)
        wanted = list(pool.map(lambda it: run_native(program, *it), zip(inputs, folders)))
    got = run_all(map(run_of_input, inputs))
    odd = [index for index in range(COUNT) if wanted[index] != got[index]]
    statuses = collections.Counter(it.status for it in wanted)
    if not {0, 1} <= set(statuses):
        return f"not both statuses 0 and 1 occur: {dict(statuses)}"
    shown = [
        f"number {it}: {cases.first_difference(wanted[it].output, got[it].output) or (wanted[it], got[it])}"[
            :300
        ]
        for it in odd[:SHOWN]
    ]
    return f"{len(odd)} differ: {'; '.join(shown)}" if odd else None


def fault_of_little_memory(names, scratch):
    """Returns which runs don't end with a status if memory is refused; None: all do, and some say
    that memory is short."""
    os.makedirs(f"{scratch}/little", exist_ok=True)
    runs = [
        run_of(cases.case_of(it, f"{scratch}/little"))._replace(most_memory=LITTLE_MEMORY)
        for it in names
    ]
    found = dict(zip(names, run_all(runs)))
    faults = [f"{name}: {it.fault}" for name, it in found.items() if it.fault]
    are_short = any(b"40 Memory" in it.output or b"memory" in it.errors for it in found.values())
    return "; ".join(faults[:SHOWN]) or (None if are_short else "no run is short of memory")


def tests(names, shown_name, program, scratch, makes=True):
    """Returns the tests of these cases. shown_name: gives what a case is called; makes: whether the
    module is made if it has to be."""
    if not shutil.which("node"):
        return [Test("module: node isn't here", None)]
    if not makes and not build.has_module():
        return [Test("module: it isn't made from these sources (tools/page makes it)", None)]
    its = CasesInModule(names, scratch)
    found = [Test(f"module {shown_name(it)}", functools.partial(its.fault_of, it)) for it in names]
    found.append(
        Test("module with little memory", functools.partial(fault_of_little_memory, names, scratch))
    )
    return [
        Test(
            f"module {COUNT} random inputs",
            functools.partial(fault_of_random_inputs, names, program),
        ),
        *found,
    ]
