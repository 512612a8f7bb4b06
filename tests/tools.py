"""Tests of the tools that prove, build and count, in scratch folders, with substitutes for the
prover and the program: nothing is proved.

Each tool is loaded for each test by itself, and works on a repository of three crates: `over` is
above `low`, `tool` is a program over both. Expected values are written by hand.
"""
import contextlib
import io
import itertools
import os
import shutil
import subprocess
import sys
import tempfile
import types

import cases
import documents
import wrong_bodies
from cases import expect_equal
from scratch import TOP, loaded, write_text
from trials import Test

LISTED = "# the crates\nlow: std\nover: low std  # above it\ntool: low, over\n"
SOURCES = {
    "low/src/lib.rt": 7,
    "low/proofs/Low.antt": 14,
    "over/src/lib.rt": 3,
    "over/specs/Over.antt": 2,
    "tool/src/main.rt": 1,
}
# What `rt try` adds after a program that ended with a status.
ENDED = "checked: all\nrun=ended status={} steps=1\n"


@contextlib.contextmanager
def repository():
    """Makes a scratch folder with three crates; its path."""
    with tempfile.TemporaryDirectory() as top:
        write_text(f"{top}/crates.txt", LISTED)
        for path, lines in SOURCES.items():
            write_text(f"{top}/crates/{path}", "line\n" * lines)
        yield top


def side_at(top):
    side = loaded("tools/side_by_side.py")
    side.TOP = top
    return side


def crates_and_lines():
    with repository() as top:
        side = side_at(top)
        crates = side.listed_crates()
        expect_equal(crates, {"low": [], "over": ["low"], "tool": ["low", "over"]}, "crates")
        expect_equal(side.all_below(crates, "tool"), ["low", "over"], "below tool")
        expect_equal(side.lines_in("low"), 21, "lines of low")
        # Its own 5, and a seventh of the 21 below
        expect_equal(side.lines_of_check(crates, "over"), 8, "lines of the check of over")
        expect_equal([it for it in crates if side.is_program(it)], ["tool"], "programs")


def tree_of_a_crate():
    with repository() as top:
        side = side_at(top)
        write_text(f"{top}/crates/low/out/rlib/low.rlib", "built")
        write_text(f"{top}/crates/over/out/before", "kept")
        with side.Tree(side.listed_crates(), "over") as tree:
            found = sorted(
                os.path.relpath(f"{at}/{it}", tree.top)
                for at, _, files in os.walk(tree.top)
                for it in files
            )
            write_text(f"{tree.folder}/out/after", "made")
            tree.put_back()
        expect_equal(
            found,
            [
                "crates.txt",
                "crates/low/out/rlib/low.rlib",
                "crates/low/proofs/Low.antt",
                "crates/low/src/lib.rt",
                "crates/over/out/before",
                "crates/over/specs/Over.antt",
                "crates/over/src/lib.rt",
            ],
            "files of the tree",
        )
        expect_equal(sorted(os.listdir(f"{top}/crates/over/out")), ["after", "before"], "products")
        expect_equal(os.path.exists(tree.top), False, "the tree is left")


def ran_side_by_side(failing=None):
    """Returns in which order four tasks ran, one at a time, and whether all went well."""
    side, order = loaded("tools/side_by_side.py"), []
    side.lanes = side.processors = lambda: 1

    def task(name, waits, lines):
        return side.Task(
            waits, lines, 4, lambda jobs, niceness: (order.append((name, jobs)), name != failing)[1]
        )

    tasks = {
        "short": task("short", [], 3),
        "first": task("first", [], 1),
        "then": task("then", ["first"], 5),
        "last": task("last", ["then"], 1),
    }
    expect_equal(side.chains(tasks), {"short": 3, "first": 7, "then": 6, "last": 1}, "chains")
    return side.run_side_by_side(tasks, lambda *_: None), order


def order_of_tasks():
    expect_equal(
        ran_side_by_side(),
        (True, [("first", 1), ("then", 1), ("short", 1), ("last", 1)]),
        "all tasks",
    )
    expect_equal(
        ran_side_by_side("then"), (False, [("first", 1), ("then", 1)]), "a task that fails"
    )


# What a check prints of a function that isn't proved, among what it prints of others.
UNPROVED = """rt: chose --jobs 2 for low
fn low::most: proved
note: src/lib.rt:7:1: it is not proved that what the function ensures holds (`returns`)
note: to see how far a `search` got, write `search rules` in place of that hole
fn low::more: no proof: expected answers in ./proofs/more/Answers.antt
help: write ./proofs/more/Answers.antt with these lines, and check again
    returns c = ?
note: `returns` of proofs/more/Answers.antt must prove: c.args.x + 1 ≡ c.args.x + 2
  names you can use, by step:
note: `returns` of proofs/more/Answers.antt may be false: the known facts allow `c.args.x` = `0`
statements std: modules loaded=21 checked=0
logic=not-proved
"""


def shown_of(log):
    """Returns the lines that are shown of a failed proof with this log, after the first."""
    with repository() as top:
        write_text(f"{top}/prove.log", log)
        return side_at(top).said_of_failure(f"{top}/prove.log", "low")[1:]


def faults_of_failures():
    said = UNPROVED.splitlines()
    expect_equal(shown_of(UNPROVED), [said[it] for it in (2, 4, 7, 9)], "what isn't proved")
    lost = "src/lib.rt:11:11: error[unknown-name]: cannot find value `y` in this scope"
    expect_equal(shown_of(f"rt: chose\n{lost}\nstatements\n"), [lost], "what can't be read")
    expect_equal(shown_of("killed\n" * 30), ["killed"] * 20, "no such line")
    many = shown_of(f"{lost}\n" * 21)
    expect_equal(many, [lost] * 20 + ["(and 1 more line of faults)"], "more than are shown")


def statements_at(top):
    """Returns the module over a kit in /kit, and the commands that it gives; each makes the file
    that it names."""
    statements, given = loaded("tools/statements.py"), []
    statements.side = side_at(top)
    statements.said_by_rt = {"doc": "/kit/START.md", "version": "kit 1"}.__getitem__

    def call(words, folder, _):
        given.append((os.path.relpath(folder, top), words))
        write_text(os.path.join(folder, words[words.index("-o") + 1]), "made")
        return True

    statements.side.PROCESSES.call = call
    return statements, given


def words_of_a_library():
    with repository() as top:
        statements, _ = statements_at(top)
        crates = statements.side.listed_crates()
        words = " ".join(statements.steps_of(crates, "over", 2)[0]).replace(top, "TOP")
        expect_equal(
            words,
            (
                "/kit/bin/rattle build --crate-name over src/lib.rt --extern std=/kit/rlibs/std.rlib --extern std=/kit/rlibs/std.rlib"
                " --extern low=TOP/crates/low/out/statements/low.rlib -L dependency=/kit/rlibs"
                " -L dependency=TOP/crates/low/out/statements --antt-project /kit/rattle/logic/antt-project.json"
                " --logic-built /kit/logic_built --links over= --jobs 2 --statements -o TOP/crates/over/out/statements/over.rlib"
            ),
            "words",
        )


def built_once():
    with repository() as top:
        statements, given = statements_at(top)
        crates = statements.side.listed_crates()
        made = [statements.prove(crates, it, 1, 0) for it in ("low", "low", "over", "tool")]
        expect_equal(made, [True] * 4, "proved")
        # A program is compiled, and then linked
        expect_equal(
            [folder for folder, _ in given],
            ["crates/low", "crates/over", "crates/tool", "crates/tool"],
            "built",
        )
        expect_equal(
            os.path.exists(f"{top}/crates/tool/out/tool"), True, "the program is where rt builds it"
        )
        write_text(f"{top}/crates/over/specs/Over.antt", "another line\n")
        expect_equal([it for it in crates if statements.is_current(crates, it)], ["low"], "current")


def sums_after_a_new_layer():
    """Adds a layer to a copy of the crates: own_register under another name, in frames too."""
    with tempfile.TemporaryDirectory() as top:
        statements, _ = statements_at(top)
        side = statements.side
        shutil.copy(f"{TOP}/crates.txt", top)
        for name, part in itertools.product(side.listed_crates(), side.PARTS):
            if os.path.isdir(f"{TOP}/crates/{name}/{part}"):
                shutil.copytree(f"{TOP}/crates/{name}/{part}", f"{top}/crates/{name}/{part}")
        before = sums_of(statements)
        write_text(
            f"{top}/crates.txt",
            f"{side.text_of(f'{top}/crates.txt')}another: layers frames safe_bit\n",
        )
        for at, _, files in os.walk(f"{top}/crates/own_register"):
            for path in [f"{at}/{file}" for file in files]:
                text = side.text_of(path).replace("own_register", "another")
                text = text.replace("LayerName(b't', b'w', b'o')", "LayerName(b'a', b'n', b'o')")
                write_text(path.replace("/own_register/", "/another/"), text)
        after = sums_of(statements)
        expect_equal(
            [it for it in after if before.get(it) != after[it]], ["another"], "to be proved"
        )
        expect_equal(
            "b'a', b'n', b'o'" in side.text_of(f"{top}/crates/another/src/task.rt"),
            True,
            "its name",
        )
        write_text(f"{top}/crates/layers/specs/Added.antt", "-- a definition\n")
        crates = side.listed_crates()
        changed = [statements.crate_sum(crates, it) != after[it] for it in ("another", "frames")]
        expect_equal(changed, [True, False], "proved again if layers changes: another, frames")


def sums_of(statements):
    """Returns the sum of each crate, by its name."""
    crates = statements.side.listed_crates()
    return {it: statements.crate_sum(crates, it) for it in crates}


def words_of_first_run():
    first = loaded("tools/first_run")
    for words, place in (
        ([], None),
        (["a"], 0),
        (["--workers", "4", "a"], 2),
        (["--workers=4", "a"], 1),
        (["--save", "s"], None),
        (["--", "-a"], 1),
    ):
        expect_equal(first.place_of_file(words), place, f"file of {words}")
    for words, left in (
        (["a", "--save", "s"], ["a"]),
        (["--save=s", "a"], ["a"]),
        (["--save"], ["--save"]),
        (["--", "--save", "s"], ["--", "--save", "s"]),
    ):
        expect_equal(first.without_save(words), left, f"{words} without its save")
    twice = ["--save", "s", "--save=t"]
    expect_equal(first.without_save(twice), twice, "two saves")
    with tempfile.TemporaryDirectory() as temporary:
        first.keep(io.BytesIO(b"abcdef"), f"{temporary}/kept", 3)
        expect_equal(cases.read(f"{temporary}/kept"), b"abcd", "kept of a long stream")
        expect_equal(first.keep_file(temporary, f"{temporary}/none"), False, "a folder is kept")


def first_run(early, program, words=(), has_rt=True):
    """Runs tools/first_run between substitutes, which are shell: for `rt try`, and for the program,
    or None: it isn't proved."""
    with repository() as top:
        os.makedirs(f"{top}/crates/program")
        for it in ("first_run", "side_by_side.py"):
            write_text(f"{top}/tools/{it}", "")
            shutil.copy(f"{TOP}/tools/{it}", f"{top}/tools/{it}")
        write_text(f"{top}/built", f"#!/bin/sh\n{program}\n", 0o755)
        write_text(
            f"{top}/tools/program",
            "#!/bin/sh\n" + (f"echo '{top}/built'\n" if program else "exit 1\n"),
            0o755,
        )
        if has_rt:
            write_text(f"{top}/bin/rt", f"#!/bin/sh\n{early}\n", 0o755)
        path = {"PATH": f"{top}/bin:/usr/bin:/bin" if has_rt else f"{top}/bin"}
        ran = subprocess.run(
            [sys.executable, f"{top}/tools/first_run", *words],
            input=b"0 join\n",
            capture_output=True,
            env={**os.environ, **path},
            check=False,
        )
        return ran.returncode, ran.stdout.decode(), ran.stderr.decode().split("\n")


def answers_twice():
    early = "cat; printf '%s' '" + ENDED.format(0) + "' >&2"
    status, output, said = first_run(early, "cat")
    expect_equal(
        (status, output, said[-2]),
        (0, "0 join\n", "towerbench: proved, and the proved program answers the same"),
        "the same answers",
    )
    status, output, said = first_run(early, "cat; echo more; exit 1")
    expect_equal(
        (status, output, said[-3:]),
        (3, "0 join\n", ["+more", "towerbench: the status was 0, and is 1", ""]),
        "other answers",
    )
    status, output, said = first_run("echo stuck >&2", "cat; exit 1")
    expect_equal((status, output, "stuck" in said), (1, "0 join\n", True), "no unproved answers")
    expect_equal(first_run(early, None)[:2], (1, "0 join\n"), "no proof")
    expect_equal(first_run(early, "cat", has_rt=False)[:2], (1, ""), "no rt")


def answers_and_saves():
    early = "cat; echo \"$@\"; printf '%s' '" + ENDED.format(0) + "' >&2"
    proved = "cat; echo try --; echo towerbench: save failed >&2; exit 1"
    status, output, said = first_run(early, proved, ["--save", "s"])
    wanted = [
        "towerbench: proved, and the proved program answers the same, but the branches aren't saved",
        "towerbench: save failed",
        "",
    ]
    expect_equal((status, output, said[-3:]), (1, "0 join\ntry --\n", wanted), "a save that fails")


def table_of_processor_times():
    parts = {
        1: ("low", "proof", ""),
        2: ("low", "wrong bodies", "lost"),
        3: ("over", "proof", ""),
        4: None,
        5: ("low", "wrong bodies", ""),
    }
    crates = {"low": [], "another": ["low"], "over": ["low"]}
    expect_equal(
        loaded(".ci/processor_times").written(parts, {1: 120, 2: 24, 3: 60, 4: 600, 5: 6}, crates),
        (
            "processor minutes                proof         tests  wrong bodies    in all\n"
            "low                                2.0           0.0           0.5       2.5\n"
            "over                               1.0           0.0           0.0       1.0\n"
            "in all                             3.0           0.0           0.5       3.5\n"
            "(tests + wrong bodies) over proofs: 0.17\n"
            "longest chain of proofs: 3.0, low over\n"
            "   0.4 low/lost\n"
        ),
        "table",
    )


def edits_of_copies():
    tool = loaded(".ci/processor_times")
    with tempfile.TemporaryDirectory() as temporary:
        for folder, text in (("crate", "is well\n"), ("other", "is lost\n"), ("same", "is well\n")):
            os.makedirs(f"{temporary}/{folder}/src")
            with open(f"{temporary}/{folder}/src/lib.rt", "w") as file:
                file.write(text)
        with open(f"{temporary}/lost.edit", "w") as file:
            file.write("file: src/lib.rt\nold: well\nnew: lost\n")
        found = [
            tool.is_made_by(f"{temporary}/lost.edit", f"{temporary}/crate", f"{temporary}/{it}")
            for it in ("other", "same")
        ]
        expect_equal(found, [True, False], "copies that an edit made")


def processor_times_of(command):
    """Returns the status of a command under .ci/processor_times, and the lines of its table, if there is
    one."""
    with tempfile.TemporaryDirectory() as temporary:
        status = subprocess.run(
            [f"{TOP}/.ci/processor_times", f"{temporary}/table", "bash", "-c", command], check=False
        ).returncode
        return (
            status,
            cases.read(f"{temporary}/table").decode().splitlines()
            if os.path.exists(f"{temporary}/table")
            else [],
        )


def processor_times_of_commands():
    expect_equal(processor_times_of("exit 7"), (7, []), "a command that ends")
    expect_equal(processor_times_of("kill -9 $$"), (137, []), "a command that is killed")
    # Once a second it looks at what the command has started
    prover = (
        f"exec -a rattle '{sys.executable}' -c 'import time; time.sleep(3)' --crate-name low --test"
    )
    status, lines = processor_times_of(f"({prover}); exit 0")
    expect_equal(
        (status, [it.split()[0] for it in lines[1:-3]]), (0, ["low"]), "the prover's crates"
    )
    expect_equal(
        lines[-2:-1],
        ["(tests + wrong bodies) over proofs: no proofs in this run"],
        "the prover's ratio",
    )
    after = lambda first: subprocess.run(
        [f"{TOP}/.ci/processor_times", "/dev/null", *first, "--", "false"], check=False
    ).returncode
    expect_equal(
        (after(["true"]), after(["bash", "-c", "exit 7"])), (1, 7), "a command after another"
    )


SOURCE = """//! Cells.

impl<R: Register> Model for Cell<R> {
    fn clone(&self) -> Cell<R> {
        *self
    }
}

impl<R: Register> Cell<R> {
    pub(crate) fn value(&self) -> u32
        ensures { result ≡ self.now.value }
    {
        self.value
    }
}

const MOST: u32 = 4;

fn most() -> u32 {
    MOST
}
"""


def places_of_changes():
    at = lambda text, file="src/store/cell.rt": wrong_bodies.module_and_function(
        file, SOURCE, SOURCE.index(text)
    )
    expect_equal(at("self.value\n"), ("store::cell", "Cell::value"), "a method")
    expect_equal(at("*self"), ("store::cell", "CellModel::clone"), "a method of an impl of a trait")
    expect_equal(at("u32 = 4"), ("store::cell", ""), "a constant")
    expect_equal(at("MOST\n"), ("store::cell", "store::cell::most"), "a function")
    expect_equal(at("MOST\n", "src/lib.rt"), ("", "most"), "a function of a library's root")


def selections_of_edits():
    with tempfile.TemporaryDirectory() as temporary:
        write_text(f"{temporary}/src/cell.rt", SOURCE)
        write_text(f"{temporary}/src/lib.rt", "pub mod cell;\n")

        def of(*lines):
            write_text(f"{temporary}/edit", "\n".join(lines) + "\n")
            return wrong_bodies.selections(f"{temporary}/edit", temporary)

        method, value = ["file: src/cell.rt", "old:         self.value", "new:         0"], [
            "old:     MOST",
            "new:     self",
        ]
        expect_equal(
            of(*method), [["Cell::value"], ["cell"], []], "a method, its module, the crate"
        )
        expect_equal(
            of(*method, *value), [["Cell::value", "cell::most"], ["cell"], []], "two functions"
        )
        expect_equal(
            of("file: src/cell.rt", "old:         *self", "new:         Cell { value: 0 }"),
            [["CellModel::clone"], ["cell"], []],
            "a method of a trait",
        )
        expect_equal(
            of("file: src/lib.rt", "old: pub mod cell;", "new: mod cell;"), [[]], "no function"
        )
        definition = ["file: specs/Cells.antt", "old: one", "new: two"]
        write_text(f"{temporary}/specs/Cells.antt", "one\n")
        expect_equal(of(*definition), [[]], "a definition")
        expect_equal(of("only: laws::safe", *definition), [["laws::safe"], []], "what it refuses")


def checks_that_refuse():
    said = "note: src/cell.rt:12:5: it is not proved that what the function ensures holds"
    rt = types.SimpleNamespace(unread=lambda line, texts: "not in scope" in line)
    of = lambda status, *lines: wrong_bodies.line_that_refuses(
        rt, types.SimpleNamespace(returncode=status, stdout="\n".join(lines) + "\n"), {}
    )
    expect_equal(of(1, said, "only=2 proved=1"), said, "some functions")
    expect_equal(of(1, said, "logic=not-proved functions=2"), said, "a crate")
    expect_equal(of(0, "only=2 proved=2"), None, "all proved")
    expect_equal(of(1, "error[type-mismatch]: src/cell.rt:12:5"), None, "not compiled")
    expect_equal(
        of(1, "src/cell.rt:12:5: error: `x` is not in scope", "only=2 proved=1"), None, "not read"
    )


def names_of_impls():
    for head, name in (
        ("Cell<'_, R>", "Cell"),
        ("fmt::Display for Cell<R>", "CellDisplay"),
        ("Work<Journal<R>> for Act<'_>", "ActWorkJournal"),
        ("Named for R", "AnyNamed"),
        ("Register: Behaves + Copy", "Register"),
    ):
        expect_equal(wrong_bodies.name_of_impl(head), name, head)


def bodies_of_edits():
    with tempfile.TemporaryDirectory() as temporary:
        write_text(f"{temporary}/src/cell.rt", SOURCE)

        def of(*pairs):
            text = SOURCE
            for old, new in pairs:
                text = text.replace(old, new)
            return [it.name for it in wrong_bodies.bodies_of({"src/cell.rt": text}, temporary)]

        body = ("        self.value\n", "        0\n")
        expect_equal(of(body), ["Cell::value"], "a body")
        expect_equal(
            of(("  MOST", "  3"), ("*self", "Cell { value: 0 }")),
            ["CellModel::clone", "cell::most"],
            "two",
        )
        for what, *pair in (
            ("a contract", "result ≡", "0 ≡"),
            ("a constant", "u32 = 4", "u32 = 5"),
            ("a signature", "fn most() -> u32", "fn most() -> u64"),
            ("an item in a body", "    MOST\n", "    const LEAST: u32 = 3; LEAST\n"),
            ("a comment", "//! Cells", "//! Bits"),
        ):
            expect_equal(of(body, pair), [], f"{what} and a body")


# What a check says of the functions of SOURCE, each edited.
CELL = "src/cell.rt:{}: it is not proved that what the function ensures holds"
UNPROVED_CALL = "; it calls `cells::cell::Cell::value`, which is not proved"


def checks_of_cells(said):
    """Returns a substitute for the prover: `said` has what it says of a function, by its name; and
    the list of what it is asked."""
    asked = []

    def read_edit(edit, crate):
        texts = {}
        for path, text, at in wrong_bodies.places_changed(edit, crate):
            texts[path] = text[: at + 1] + "  // edited" + text[at + 1 :]
        return texts, None

    def checked(_, texts, flags, __):
        names = flags[len(wrong_bodies.FLAGS) + 1 :: 2]
        asked.append((names, texts["src/cell.rt"].count("  // edited")))
        lines = [line for it in names if it in said for line in said[it](names)]
        is_proved = all(it.endswith(": proved") for it in lines)
        last = f"only={len(names)}" if names else "logic=proved"
        return types.SimpleNamespace(
            returncode=0 if is_proved else 1, stdout="\n".join([*lines, last]) + "\n"
        )

    unread = lambda line, _: "not in scope" in line
    return types.SimpleNamespace(read_edit=read_edit, checked=checked, unread=unread), asked


def tried_with(said):
    """Tries three edits of SOURCE, and returns the results, and what was checked: the functions,
    and how many edits were in the copy."""
    rt, asked = checks_of_cells(said)
    with tempfile.TemporaryDirectory() as temporary:
        write_text(f"{temporary}/src/cell.rt", SOURCE)
        edits = {"clone": "        *self", "most": "    MOST", "value": "        self.value"}
        for name, old in edits.items():
            write_text(f"{temporary}/{name}", f"file: src/cell.rt\nold: {old}\nnew: edited\n")
        crate = types.SimpleNamespace(folder=temporary)
        paths = [f"{temporary}/{it}" for it in edits]
        results = wrong_bodies.all_tried(rt, crate, paths, temporary)
        return [result.said for _, result in results], asked


def edits_tried_together():
    fn = lambda name, said: f"fn cells::cell::{name}: {said}"
    value = f"note: {CELL.format('11:9')}"
    value_is_lost = lambda _: [value, fn("Cell::value", "not proved")]
    clone = "./proofs/cell/CellModel/clone/Answers.antt:4:1: error: expected type `a`"
    all_three = ["CellModel::clone", "cell::most", "Cell::value"]
    expect_equal(
        tried_with(
            {
                "Cell::value": value_is_lost,
                "CellModel::clone": lambda _: [clone, fn("CellModel::clone", "no proof: `c`")],
                "cell::most": lambda _: [f"note: {CELL.format('20:5')}", fn("most", "not proved")],
            }
        ),
        (
            [f"refused: {it}" for it in (clone, f"note: {CELL.format('20:5')}", value)],
            [(all_three, 3)],
        ),
        "all are refused",
    )
    is_with_value = lambda names: UNPROVED_CALL if "Cell::value" in names else ""
    expect_equal(
        tried_with(
            {
                "Cell::value": value_is_lost,
                "CellModel::clone": lambda names: [
                    clone,
                    fn("CellModel::clone", f"not proved{is_with_value(names)}"),
                ],
                "cell::most": lambda _: [fn("most", "proved")],
            }
        ),
        (
            [f"refused: {clone}", "NOT REFUSED", f"refused: {value}"],
            [
                (all_three, 3),
                (["CellModel::clone"], 1),
                (["cell::most"], 1),
                (["cell"], 1),
                ([], 1),
            ],
        ),
        "one is proved, and one calls another",
    )
    unread = "src/cell.rt:20:5: error: `x` is not in scope"
    expect_equal(
        tried_with(
            {
                "Cell::value": value_is_lost,
                "CellModel::clone": lambda _: [clone, fn("CellModel::clone", "not proved")],
                "cell::most": lambda _: [unread, fn("most", "not proved")],
            }
        )[0],
        [f"refused: {clone}", "NOT REFUSED", f"refused: {value}"],
        "one can't be read",
    )


def edits_of_callers():
    twice = "\nfn twice() -> u32 {\n    once()\n}\n\nfn once() -> u32 {\n    most()\n}\n"
    with tempfile.TemporaryDirectory() as temporary:
        write_text(f"{temporary}/src/cell.rt", SOURCE + twice)
        edits = {"most": "    MOST", "twice": "    once()", "value": "        self.value"}
        for name, old in edits.items():
            write_text(f"{temporary}/{name}", f"file: src/cell.rt\nold: {old}\nnew: edited\n")
        rt, crate = checks_of_cells({})[0], types.SimpleNamespace(folder=temporary)
        changes = wrong_bodies.body_changes(rt, crate, [f"{temporary}/{it}" for it in edits])
        found = [
            [os.path.basename(it.edit) for it in batch]
            for batch in wrong_bodies.batches_of(changes)
        ]
        expect_equal(found, [["most", "value"], ["twice"]], "a caller apart")


def faults_of_other_functions():
    body = wrong_bodies.Body("Cell::value", "src/cell.rt", 8, 12)
    of = lambda fault, *said: wrong_bodies.own_fault(
        [fault, *[f"fn cells::cell::{it}" for it in said]], [fault], body
    )
    own, other = f"note: {CELL.format('11:9')}", f"note: {CELL.format('14:1')}"
    expect_equal(of(own, "Cell::value: not proved"), own, "its own fault")
    expect_equal(of(other, "Cell::value: not proved"), None, "another's fault")
    answer = "./proofs/cell/Cell/most/Answers.antt:4:1: error: expected type `a`"
    expect_equal(of(answer, "Cell::value: not proved"), None, "a fault in another's proof")
    lost = "./proofs/cell/Cell/value/Answers.antt:4:1: error: `c` has no field `x`"
    expect_equal(of(lost, "Cell::value: not proved"), None, "a name that is gone")
    expect_equal(of(own, "Cell::value: proved"), None, "proved")
    expect_equal(
        of(own, "Cell::value: not proved; it calls `cells::f`, which is not"), None, "a callee"
    )
    expect_equal(of(own, "Cell::most: not proved"), None, "not named")
    expect_equal(
        of(own, "Cell::value: not proved", "a::Cell::value: not proved"), None, "two of a name"
    )


def floors_of_proofs():
    tool = loaded("tests/floors")
    of = lambda *lines: len([*tool.faults_of_proofs("\n".join(lines) + "\n", 30, 54)])
    proved, turn = (
        "30 passed, 0 failed",
        "wrong bodies: turn 7 of 8 tries 70 besides those of each gate",
    )
    expect_equal(of(proved, turn, "wrong bodies: 124 refused, 0 not"), 0, "all")
    expect_equal(
        of("29 passed, 0 failed", turn, "wrong bodies: 124 refused, 0 not"), 1, "a crate less"
    )
    expect_equal(
        of("30 passed, 1 failed", turn, "wrong bodies: 124 refused, 0 not"), 1, "a failure"
    )
    expect_equal(of(proved, turn, "wrong bodies: 123 refused, 0 not"), 1, "a wrong body less")
    expect_equal(
        of(proved, turn, "wrong bodies: 123 refused, 1 not"), 1, "a wrong body that is proved"
    )
    expect_equal(of(""), 2, "nothing")


def quotes_of_files():
    with tempfile.TemporaryDirectory() as temporary:
        write_text(f"{temporary}/lib.rt", "one\ntwo\nthree\nfour\n")

        def is_quote(*lines, file="lib.rt"):
            block = documents.Block(1, "rust", f"{temporary}/{file}", "", [*lines])
            return documents.quote_fault(block) is None

        expect_equal(is_quote("two", "three"), True, "lines in a row")
        expect_equal(is_quote("one", "..", "four"), True, "lines left out")
        expect_equal(is_quote("three", "..", "two"), False, "another order")
        expect_equal(is_quote("one", "three"), False, "lines that aren't in a row")
        expect_equal(is_quote("wo"), False, "part of a line")
        expect_equal(is_quote("two", file="main.rt"), False, "no such file")


ALL = {
    "side_by_side": (crates_and_lines, tree_of_a_crate, order_of_tasks, faults_of_failures),
    "statements": (words_of_a_library, built_once, sums_after_a_new_layer),
    "first_run": (words_of_first_run, answers_twice, answers_and_saves),
    "processor_times": (table_of_processor_times, edits_of_copies, processor_times_of_commands),
    "wrong": (
        places_of_changes,
        selections_of_edits,
        checks_that_refuse,
        names_of_impls,
        bodies_of_edits,
        edits_tried_together,
        edits_of_callers,
        faults_of_other_functions,
    ),
    "floors": (floors_of_proofs,),
    "documents": (quotes_of_files,),
}


def tests():
    return [
        Test(f"tool {tool}: {it.__name__.replace('_', ' ')}", it)
        for tool, its in ALL.items()
        for it in its
    ]
