"""What public clauses name: definitions of specs/, and those that these name in turn.

A public clause is a `requires` or `ensures` of a `pub fn`, or of a method of a public trait or of
an impl of a trait, in crates/NAME/src. A name is looked up by the file's `use` lines.
"""
import collections
import functools
import glob
import os
import re
import sys

TOP = os.path.dirname(os.path.dirname(os.path.dirname(os.path.realpath(__file__))))
sys.path[:0] = [f"{TOP}/tests", f"{TOP}/tools"]
import antt  # noqa: E402
from antt import WORD, imports_of  # noqa: E402
from lints.clauses import CLAUSE, blanked, end_of  # noqa: E402

NAMED = re.compile(rf"{WORD}(?:\.{WORD})*")
PUBLIC = re.compile(r"\bpub (?:unsafe )?fn (\w+)|\bfn (\w+)")
METHODS = re.compile(r"^(?:pub trait |impl\b[^{;]* for )", re.MULTILINE)

# Of a declaration of specs/, with its file
Definition = collections.namedtuple("Definition", "path line kind name lines")
# path and name: those of the function; names: what the file's `use` lines bring in
Clause = collections.namedtuple("Clause", "path name text imports")


@functools.lru_cache(None)
def definitions(path):
    """Returns the definitions of a file of specs/ by their names, and what it imports."""
    with open(path, encoding="utf-8") as file:
        text = file.read()
    found = {
        it.name: Definition(path, it.number + 1, it.kind, it.name, it.lines)
        for it in antt.declarations(text)
    }
    return found, imports_of(text)


@functools.lru_cache(None)
def file_of(module):
    """Returns the file of a module of specs/, also if its crate only passes the module on, or
    None."""
    path = f"{TOP}/crates/{module[0]}/specs/{'/'.join(module[1:])}.antt"
    if os.path.isfile(path):
        return path
    listed = f"{TOP}/crates/{module[0]}/specs/Lib.antt"
    if len(module) != 2 or not os.path.isfile(listed):
        return None
    with open(listed, encoding="utf-8") as file:
        found = re.search(
            rf"^pub use Rattle\.(\w+)\.specs\.{module[1]}$", file.read(), re.MULTILINE
        )
    return file_of((found.group(1), module[1])) if found else None


def definition_named(word, own, imports):
    """Returns the definition that a word of a file names, or None: none of this repository's."""
    names, modules = imports
    front, _, last = word.partition(".")
    is_path = last and front in modules
    module, name = (modules[front], last) if is_path else names.get(front, ((), ""))
    if not module:
        return own.get(front)
    path = file_of(module)
    return definitions(path)[0].get(name) if path else None


def definitions_named(text, own, imports):
    """Returns the definitions that the words of a text name."""
    found = [definition_named(it, own, imports) for it in NAMED.findall(text)]
    return [it for it in found if it]


def public_clauses(path):
    """Yields the clauses of a file that others meet."""
    with open(path, encoding="utf-8") as file:
        code = blanked(file.read())
    imports = imports_of(code)
    starts = [it.start() for it in METHODS.finditer(code)]
    blocks = [(it, end_of(code, code.index("{", it))) for it in starts]
    functions = list(PUBLIC.finditer(code))
    ends = [it.start() for it in functions[1:]] + [len(code)]
    for it, end in zip(functions, ends):
        if it.group(1) or any(start < it.start() < last for start, last in blocks):
            for clause in CLAUSE.finditer(code, it.end(), end):
                text = code[clause.end() : end_of(code, clause.end() - 1) - 1]
                yield Clause(path, it.group(1) or it.group(2), text, imports)


@functools.lru_cache(None)
def all_clauses():
    """Returns the public clauses of all crates."""
    paths = sorted(glob.glob(f"{TOP}/crates/*/src/**/*.rt", recursive=True))
    return [it for path in paths for it in public_clauses(path)]


@functools.lru_cache(None)
def reached_definitions():
    """Returns the definitions that public clauses reach, each with the first clause that does."""
    found = {}
    for clause in all_clauses():
        left = definitions_named(clause.text, {}, clause.imports)
        while left:
            it = left.pop()
            if (it.path, it.name) not in found:
                found[it.path, it.name] = it, clause
                left += definitions_named("\n".join(it.lines), *definitions(it.path))
    return [found[it] for it in sorted(found, key=lambda it: (it[0], found[it][0].line))]
