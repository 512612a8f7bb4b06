"""Wrong bodies as the gate tries them, by the toolchain's own functions that apply an edit and
check a crate.

`rt must-fail` first proves the crate once more, which takes longer than all trials after it. Here
the prover checks the functions that a wrong body changes, and those that they call, over the
libraries that `rt ci` built: if one of them isn't proved, the crate isn't. If all are proved, or
the names don't show which they are, it checks the whole crate.

Much of such a check goes on what it loads, so edits of the bodies of different functions, of which
none calls another, are first tried together. A proof rests on its own function's body, and only on
the contracts of others: what is refused there, by a fault of its own function, would be refused
alone. Every other edit is tried alone.
"""
import collections
import importlib.machinery
import importlib.util
import os
import re
import shutil
import sys

# An item that begins at the margin or in an impl: a function, with the margin before it, an impl or
# trait, or the end of one.
ITEM = re.compile(
    r"^(?:( *)(?:pub(?:\([a-z]+\))? )?(?:const )?fn (\w+)"
    r"|(?:impl(?:<[^{]*?>)?|(?:pub(?:\([a-z]+\))? )?trait) ([^{]*?)\s*(?:\{|\bwhere\b)|\})",
    re.M,
)
# What a body's line could begin that other functions can see.
INNER_ITEM = re.compile(r"\b(?:const|enum|fn|impl|mod|static|struct|trait|type|use)\b")
# A name that may be a function's, as it is called or passed.
CALL = re.compile(r"(?<=::)\w+|\w+(?=\()")
OLD, NEW, FILE = "old: ", "new:", "file: "
# A function that is refused after an edit of a definition.
ONLY = re.compile(r"^only: (\S+)$", re.M)
FLAGS = ["--jobs", "1"]
# What a check says of a place, and what it says of a proof that names what the edit took away.
OF_A_PLACE = re.compile(r"(note: )?\S+:\d+:\d+:")
OF_A_LOST_NAME = re.compile(
    r"(note: )?(\./)?proofs/.*(has no field|is not in scope|has no `|was not admitted)"
)
# The status of a check that was given a name that no function has, or several have.
NO_SUCH_NAME = 2
TRIES_OF_A_CHECK = 2

# said: what the prover said, or why it judged nothing; is_refused: whether it refused the wrong
# body.
Result = collections.namedtuple("Result", "is_refused said")
# A function whose body an edit changes: the end of its name, its file, and there the line that it
# begins in and its `}`, counted from 0.
Body = collections.namedtuple("Body", "name path first last")
# texts: the files that an edit changes; bodies: what they change, if they change only bodies of
# functions, or else nothing; calls: the names of all functions that those may call.
Change = collections.namedtuple("Change", "edit texts bodies calls")


def rt_as_module():
    """Returns `rt` as a module."""
    path = os.path.realpath(shutil.which("rt"))
    loader = importlib.machinery.SourceFileLoader("rt_of_the_kit", path)
    made = importlib.util.module_from_spec(importlib.util.spec_from_loader(loader.name, loader))
    sys.modules[loader.name] = made
    loader.exec_module(made)
    # First called by the main thread: checks then end when this run ends
    made.rtlib.guarded()
    return made


def places_changed(edit, crate):
    """Yields the path and the text of each file that an edit changes, as it is before each change,
    and the position of the change."""
    path, old, texts = "", "", {}
    with open(edit, encoding="utf-8") as file:
        for line in file.read().split("\n"):
            if line.startswith(FILE):
                path = line[len(FILE) :].strip()
            elif line.startswith(OLD):
                old = line[len(OLD) :]
            elif line.startswith(NEW):
                text = texts.get(path) or text_of(f"{crate}/{path}")
                yield path, text, text.index(old) + len(old) - 1
                texts[path] = text.replace(old, line[len(NEW) :].removeprefix(" "))


def text_of(path):
    """Returns the text of a file."""
    with open(path, encoding="utf-8") as file:
        return file.read()


def module_and_function(path, text, at):
    """Returns the module that a place of a source is in, and the end of its function's name; no
    name if none is sure to be its."""
    module = "::".join(it for it in path[: -len(".rt")].split("/")[1:] if it not in ("lib", "main"))
    function, margin, impl = "", "", ""
    for item in ITEM.finditer(text):
        if item.start() > at:
            break
        if item.group(2):
            margin, function = item.group(1), item.group(2)
        else:
            function, impl = "", item.group(3) or ""
    if not function or (impl and not margin):
        return module, ""
    if impl:
        return module, f"{name_of_impl(impl)}::{function}"
    return module, f"{module}::{function}" if module else function


def name_of_impl(head):
    """Returns how a check names an impl, or a trait: `Work<Journal<R>> for Act<'_>` is
    ActWorkJournal."""
    trait, _, name = head.rpartition(" for ")
    # (type parameters have one letter)
    words = re.findall(r"\b[A-Z]\w+", trait)
    name = re.match(r"(?:\w+::)*(\w*)", name)[1]
    return "".join([name if len(name) > 1 else "Any", *words])


def body_at(path, text, at):
    """Returns the function whose body a line of a source is in, by the place at which the line
    begins, or None if none is sure to be."""
    items = [*ITEM.finditer(text)]
    item = next((it for it in reversed(items) if it.start() <= at), None)
    name = module_and_function(path, text, at)[1]
    if not name or not path.startswith("src/") or "const fn" in item.group():
        return None
    begins = re.compile(f"^{item.group(1)}(?:\\S.* )?{{$", re.M).search(text, item.start())
    ends = re.compile(f"^{item.group(1)}}}$", re.M).search(text, item.start())
    following = next((it.start() for it in items if it.start() > item.start()), len(text))
    if not begins or not ends or not begins.end() < at < ends.start() <= following:
        return None
    return Body(name, path, *(text.count("\n", 0, it.start()) for it in (item, ends)))


def bodies_of(texts, crate):
    """Returns the functions whose bodies these texts of a crate's files change, or nothing if they
    change more than bodies."""
    found = {}
    for path, text in texts.items():
        old, at = text_of(f"{crate}/{path}"), 0
        for line, new in zip(old.split("\n"), text.split("\n")):
            if line != new:
                found[None if INNER_ITEM.search(new) else body_at(path, old, at)] = True
            at += len(line) + 1
    return [] if None in found else [*found]


def calls_of(crate):
    """Returns the names that the functions of one name may call in a crate, by that name."""
    found = collections.defaultdict(set)
    for folder, _, files in os.walk(f"{crate}/src"):
        for text in (text_of(f"{folder}/{it}") for it in files):
            items = [*ITEM.finditer(text)]
            ends = [*[it.start() for it in items[1:]], len(text)]
            for item, end in zip(items, ends):
                found[item.group(2)].update(CALL.findall(text[item.end() : end]))
    return found


def all_called(bodies, calls):
    """Returns the names of all functions that these may call, and that those may."""
    found, left = set(), [name_in(it) for it in bodies]
    while left:
        new = calls.get(left.pop(), set()) - found
        found |= new
        left += new
    return found


def name_in(body):
    """Returns the name of a body's function alone, without its module or its type."""
    return body.name.rpartition("::")[2]


def selections(edit, crate):
    """Returns what to check, one after another until one refuses the edit: names of functions or
    modules; none for the whole crate."""
    places, named = [], ONLY.findall(text_of(edit))
    for path, text, at in places_changed(edit, crate):
        if not path.startswith("src/"):
            return [[*named], []] if named else [[]]
        places.append(module_and_function(path, text, at))
    modules = [module for module, _ in places]
    found = [[function or module for module, function in places], modules, []]
    return [
        [*dict.fromkeys(it)]
        for number, it in enumerate(found)
        if all(it) and it not in found[:number]
    ]


def judged_by(rt, ran, texts):
    """Returns the lines of a check that refuses something, and those of faults at places, or
    nothing if it judged nothing."""
    lines = ran.stdout.rstrip("\n").split("\n")
    is_read = not any(rt.unread(it, texts) for it in lines)
    if (
        ran.returncode != 1
        or not is_read
        or not lines[-1].startswith(("only=", "logic=not-proved"))
    ):
        return [], []
    return lines, [
        it for it in lines if OF_A_PLACE.match(it) and (": error" in it or it.startswith("note: "))
    ]


def line_that_refuses(rt, ran, texts):
    """Returns the first line in which a check refuses a wrong body, or None if it judged nothing or
    found no fault."""
    lines, faults = judged_by(rt, ran, texts)
    refused = [it for it in lines if it.startswith("fn ") and not it.endswith(": proved")]
    own = next((it for it in faults if not OF_A_LOST_NAME.match(it)), None)
    return own or [*faults, *refused, *lines[-1:], None][0]


def own_fault(lines, faults, body):
    """Returns the first line in which a check refuses a function by a fault of its own, or None if
    it doesn't, or not surely."""
    about = re.compile(
        rf"fn \w+::((?:\S+::)?{body.name}): (?:not proved|no proof: )(?!.*it calls `)"
    )
    said = [it for it in map(about.match, lines) if it]
    if len(said) != 1:
        return None
    folder = said[0][1].replace("::", "/")
    places = [
        f"proofs/{folder}/",
        *[f"{body.path}:{it}:" for it in range(body.first + 1, body.last + 2)],
    ]
    is_own = lambda it: it.removeprefix("note: ").removeprefix("./").startswith((*places,))
    return next((it for it in faults if is_own(it) and not OF_A_LOST_NAME.match(it)), None)


def texts_with_all(changes, crate):
    """Returns the texts of a crate's files with each of these changes made, none in the function of
    another."""
    texts = {}
    for it in changes:
        for _, path, first, last in it.bodies:
            lines = texts.setdefault(path, text_of(f"{crate}/{path}").split("\n"))
            lines[first:last] = it.texts[path].split("\n")[first:last]
    return {path: "\n".join(lines) for path, lines in texts.items()}


def are_apart(one, other):
    """Returns whether two changes are of different functions, of which none calls another."""
    return not {*one.bodies} & {*other.bodies} and not any(
        name_in(body) in its.calls for it, its in ((one, other), (other, one)) for body in it.bodies
    )


def batches_of(changes):
    """Returns the changes in lists, each of changes that are apart."""
    found = []
    for it in changes:
        batch = next((its for its in found if all(are_apart(it, other) for other in its)), [])
        found += [] if batch else [batch]
        batch.append(it)
    return found


def body_changes(rt, crate, edits):
    """Yields what each edit changes that changes only bodies of functions."""
    calls = calls_of(crate.folder)
    for edit in edits:
        texts, _ = rt.read_edit(edit, crate.folder)
        bodies = bodies_of(texts or {}, crate.folder)
        if bodies:
            yield Change(edit, texts, bodies, all_called(bodies, calls))


def refused_together(rt, crate, edits, proved):
    """Checks a crate with several wrong bodies in it at once, and returns the results
    of those that are surely refused."""
    found = {}
    for batch in batches_of(body_changes(rt, crate, edits)):
        if len(batch) > 1:
            texts = texts_with_all(batch, crate.folder)
            names = [body.name for it in batch for body in it.bodies]
            judged = judged_by(
                rt, rt.checked(crate, texts, [*FLAGS, *only_flags(names)], proved), texts
            )
            for it in batch:
                said = [*filter(None, (own_fault(*judged, body) for body in it.bodies))]
                if said:
                    found[it.edit] = Result(True, f"refused: {said[0]}")
    return found


def only_flags(names):
    """Returns the words that have the prover check only these functions or modules."""
    return [word for it in names for word in ("--only", it)]


def tried_alone(rt, crate, edit, proved):
    """Checks a crate with one wrong body in it, and returns the result. The folder `proved` keeps
    what checks of single functions have proved."""
    texts, why = rt.read_edit(edit, crate.folder)
    if why:
        return Result(False, f"BAD EDIT: {why}")
    said = ""
    for names in selections(edit, crate.folder):
        for _ in range(TRIES_OF_A_CHECK):
            ran = rt.checked(crate, texts, [*FLAGS, *only_flags(names)], proved if names else None)
            said = line_that_refuses(rt, ran, texts)
            if said:
                return Result(True, f"refused: {said}")
            if ran.returncode in (0, NO_SUCH_NAME):
                break
        said = (
            "NOT REFUSED"
            if ran.returncode == 0
            else f"NOT TRIED: {' / '.join(ran.stdout.splitlines()[:3])}"
        )
    return Result(False, said)


def all_tried(rt, crate, edits, proved):
    """Tries these wrong bodies of a crate, several at once and the others alone, and yields each
    with its result."""
    refused = refused_together(rt, crate, edits, proved)
    for edit in edits:
        yield edit, refused.get(edit) or tried_alone(rt, crate, edit, proved)
