"""Cases: a script, what the program is started on, and what has to come out.

NAME.script and NAME.expected, what standard output says, may come with
- NAME.tower    the tower file, which is the first word of the command line
- NAME.bench    the same, a bench file
- NAME.saved    the saved file, whose path is then named by `--save`
- NAME.words    further words, split as a shell splits them
- NAME.status   the exit status, if it isn't 0
- NAME.errors   what standard error says, if it says anything
Each may be made: NAME.KIND.make is a line of shell, run in the case's folder, that writes it.
A row is a case in a folder of tests/rows, one for each subject. No two rows share a name, and those
of sizes are lines of a table (tests/sizes.py).
The current folder has to be the repository's top.
"""
import collections
import functools
import os
import shlex
import subprocess

import sizes

ROWS = "tests/rows"
KINDS = ("script", "expected", "tower", "bench", "saved", "words", "status", "errors")
MADE = ".make"
NUMBERS_OF_WORKERS = (0, 1, 4)
# Words that set the number of workers themselves, or with which nothing is filled.
WORDS_OF_ONE_RUN = ("--workers", "--help")
REFUSED_WORDS = 2
MOST_SECONDS = 300
BYTES_SHOWN = 100
BYTES_SHOWN_BEFORE = 30
CHARACTERS_SHOWN = 500
# What a path that is saved to holds before a run.
KEPT = b"as it was\n"

# script: its path; words: those after the program's name; output, errors and saved: bytes; saved:
# None: nothing is; save: the path that it is saved to
Case = collections.namedtuple("Case", "script words output status errors saved save")
Ran = collections.namedtuple("Ran", "output status errors")


class Failure(Exception):
    """A test fails, or a case can't be read as one."""


def expect_equal(found, wanted, label=""):
    """Fails unless two values are equal; label: what they are."""
    if found != wanted:
        says = f"wanted {wanted!r:.{CHARACTERS_SHOWN}}, got {found!r:.{CHARACTERS_SHOWN}}"
        raise Failure(f"{label}: {says}" if label else says)


def run(program, words, script, environment=None):
    """Returns what the program does on words, with a file or bytes on standard input."""
    with open(script if isinstance(script, str) else os.devnull, "rb") as file:
        source = {"stdin": file} if isinstance(script, str) else {"input": script}
        ran = subprocess.run(
            [program, *words],
            **source,
            stdout=subprocess.PIPE,
            stderr=subprocess.PIPE,
            env=environment,
            timeout=MOST_SECONDS,
            check=False,
        )
    return Ran(ran.stdout, ran.returncode, ran.stderr)


def written(path, text):
    """Writes a text to a path, and returns the path; None: there is no text."""
    if text is None:
        return None
    with open(path, "w", encoding="ascii") as file:
        file.write(text)
    return path


def path_of(name, kind, scratch):
    """Returns the path of a case's file, which is made if it must be; None: it has none."""
    path = f"{name}.{kind}"
    target = f"{scratch}/{path.replace('/', '-')}"
    if name in sizes.files():
        return written(target, sizes.files()[name].get(kind))
    if not os.path.exists(path + MADE):
        return path if os.path.exists(path) else None
    if os.path.exists(path):
        raise Failure(f"there are both {path} and {path + MADE}")
    with open(target, "wb") as file, open(path + MADE, encoding="utf-8") as line:
        folder = os.path.dirname(path)
        made = subprocess.run(["sh", "-c", line.read()], cwd=folder, stdout=file, check=False)
    if made.returncode != 0:
        raise Failure(f"{path + MADE} ended with status {made.returncode}")
    return target


def read(path):
    """Returns the bytes of a file."""
    with open(path, "rb") as file:
        return file.read()


def case_of(name, scratch):
    """Returns the case with a name, which is its path without its kind."""
    paths = {kind: path_of(name, kind, scratch) for kind in KINDS}
    for kind in ("script", "expected"):
        if paths[kind] is None:
            raise Failure(f"there is no {name}.{kind}")
    more = os.fsdecode(read(paths["words"])) if paths["words"] else ""
    status = read(paths["status"]).strip() if paths["status"] else b"0"
    if not status.isdigit():
        raise Failure(f"{name}.status is no number")
    save = f"{scratch}/{name.replace('/', '-')}.save" if paths["saved"] else None
    return Case(
        script=paths["script"],
        words=[it for it in (paths["tower"], paths["bench"]) if it]
        + (["--save", save] if save else [])
        + shlex.split(more),
        output=read(paths["expected"]),
        status=int(status),
        errors=read(paths["errors"]) if paths["errors"] else b"",
        saved=read(paths["saved"]) if save else None,
        save=save,
    )


def words_of_workers(case):
    """Returns the lists of words that a case is run with, before its own: a number of workers in
    each, or none."""
    is_given = any(it.startswith(WORDS_OF_ONE_RUN) for it in case.words)
    if is_given or case.status == REFUSED_WORDS:
        return [[]]
    return [["--workers", str(it)] for it in NUMBERS_OF_WORKERS]


def shown(line, column):
    """Returns a line as text, from a little before a column on; line: None if there is no such
    line."""
    if line is None:
        return "nothing more"
    begin = max(0, column - BYTES_SHOWN_BEFORE) if len(line) > BYTES_SHOWN else 0
    end = begin + BYTES_SHOWN
    return ".." * (begin > 0) + repr(line[begin:end])[1:] + ".." * (end < len(line))


def first_difference(wanted, got):
    """Returns the first line in which two texts differ; None: they don't."""
    if wanted == got:
        return None
    texts = [it.splitlines(keepends=True) for it in (wanted, got)]
    count = next(
        (k for k, (one, other) in enumerate(zip(*texts)) if one != other), min(map(len, texts))
    )
    lines = [it[count] if count < len(it) else None for it in texts]
    column = len(os.path.commonprefix([it or b"" for it in lines]))
    want, has = (shown(it, column) for it in lines)
    return f"line {count + 1}: wanted {want}, got {has}"


def saved_by(case):
    """Returns what a run of a case has saved; None: nothing."""
    return read(case.save) if case.save and os.path.exists(case.save) else None


def put_kept(path):
    """Writes KEPT to a path. Only a run that ends well may replace it."""
    with open(path, "wb") as file:
        file.write(KEPT)


def fault_of_kept(path):
    """Returns what is wrong with a file after a run that ended by a fault, which may not change it;
    None: nothing."""
    is_kept = os.path.exists(path) and read(path) == KEPT
    return None if is_kept else "the file is not as it was"


def difference(case, ran):
    """Returns how a run differs from what its case expects; None: it doesn't."""
    texts = [("", case.output, ran.output), ("standard error, ", case.errors, ran.errors)]
    if case.save:
        texts.append(("saved, ", case.saved, saved_by(case) or b""))
    compared = [(where, first_difference(wanted, got)) for where, wanted, got in texts]
    found = [where + it for where, it in compared if it]
    if ran.status != case.status:
        found.append(f"status: wanted {case.status}, got {ran.status}")
    return "; ".join(found) or None


def fault_of(name, program, scratch):
    """Returns what is wrong with a case or with what the program makes of it; None: nothing."""
    case = case_of(name, scratch)
    for words in words_of_workers(case):
        if saved_by(case) is not None:
            os.remove(case.save)
        fault = difference(case, run(program, [*words, *case.words], case.script))
        if fault:
            return f"{' '.join(words)}{': ' * bool(words)}{fault}"
    return None


def bytes_of_file(name, kind):
    """Returns the bytes of a case's file that is made by no line of shell; None: there is none."""
    if name in sizes.files():
        text = sizes.files()[name].get(kind)
        return None if text is None else text.encode()
    path = f"{name}.{kind}"
    return read(path) if os.path.exists(path) else None


def own_name(name):
    """Returns a row's name without its folder."""
    return name.rpartition("/")[2]


def rows_and_others():
    """Returns the paths of all rows without their kinds, in the order of their names, and what is
    wrong with the other files there, by their paths."""
    made_rows = set(sizes.files())
    found, strange = set(made_rows), {}
    for at, _, files in os.walk(ROWS):
        for file in files:
            made = file[: -len(MADE)] if file.endswith(MADE) else file
            name, _, kind = made.rpartition(".")
            if f"{at}/{name}" in made_rows:
                strange[f"{at}/{file}"] = f"{sizes.TABLE} has its row"
            elif kind in KINDS and name:
                found.add(f"{at}/{name}")
            elif f"{at}/{file}" != sizes.TABLE:
                strange[f"{at}/{file}"] = "no file of a row"
    names = sorted(found, key=lambda it: (own_name(it), it))
    strange.update(
        (one, f"{other} has its name")
        for one, other in zip(names, names[1:])
        if own_name(one) == own_name(other)
    )
    return names, strange


def rows():
    """Returns the paths of all rows without their kinds, in the order of their names."""
    return rows_and_others()[0]


@functools.lru_cache(None)
def row(name):
    """Returns the path of the row of a name."""
    found = [it for it in rows() if own_name(it) == name]
    if not found:
        raise Failure(f"no row is called {name}")
    return found[0]
