#!/usr/bin/env python3
"""Existentials of public clauses: each has an example in which it holds, and a near miss.

usage: tests/lints/existentials.py [NAME..]   of these crates, or of all
       tests/lints/existentials.py --list     prints each, with a function whose clause reaches it

An existential is a `(x : T) ×` in a public clause or in a definition that one reaches, as
tests/lints/named_definitions.py says; or a record with fields that are data as well as fields that
are facts. Its examples are theorems of its crate's proofs/Examples.antt: of a definition `Old` they
are `Old-holds` and `Old-fails`, and of a clause's own existential they have the name of the
function in place of `Old`, one of those whose clauses say the same of other values. Each is below a
comment that says what is there or what is wrong, and names `Old`, or has a `(x : T) ×`; the near
miss ends in `→ ⊥`. The last line sums up. Status 1 if an example is missing.
"""
import collections
import functools
import os
import re
import sys

TOP = os.path.dirname(os.path.dirname(os.path.dirname(os.path.realpath(__file__))))
sys.path[:0] = [f"{TOP}/tests", f"{TOP}/tools"]
from lints.named_definitions import (  # noqa: E402
    NAMED,
    WORD,
    all_clauses,
    definition_named,
    definitions,
    reached_definitions,
)
from side_by_side import listed_crates  # noqa: E402

WITNESS = re.compile(r"\([\w' ]+ : (?:[^()]|\([^()]*\))*\)\s*×")
# What only a fact has, and the types of data that are std's.
FACT = re.compile(r"[≡≢≤<⊎⊥↔¬]")
DATA = ("ℕ", "Bool", "List", "Option", "Result", "Vec")
# The types and predicates of a clause's own existential, but for type parameters and structs.
TYPES = re.compile(r"ℕ|\b(?!Self\b)[A-Z]\w+\b")
EXAMPLE = re.compile(
    rf"^-- .*\n({WORD}-(?:holds|fails)) : (.*(?:\n .*)*)\n(?:unfolding .*\n)?\1\b", re.MULTILINE
)

# names: those that the examples can have; where: its place; by: what reaches it, in words
Existential = collections.namedtuple("Existential", "crate names where by is_clause")


def is_data(type_text, parameters, own, imports):
    """Returns whether a field of this type is data, and no fact."""
    head = re.match(rf"\(*({NAMED.pattern})", type_text.rpartition("→ ")[2].strip())
    if not head or FACT.search(type_text):
        return False
    name = head.group(1)
    it = definition_named(name, own, imports)
    if not it:
        is_parameter = re.search(rf"\b{name}\b[^:()]*: Type", parameters)
        return bool(name in DATA or is_parameter or "declared" in imports[0].get(name, ((),))[0])
    if it.kind == "record":
        return all(are_data(it))
    return it.kind == "data" or is_data(it.lines[-1].partition("=")[2], "", *definitions(it.path))


def are_data(record):
    """Returns for each field of a record whether it is data."""
    fields = re.split(rf"\n? *pub {WORD} :", "\n".join(record.lines[1:]))[1:]
    return [is_data(it, record.lines[0], *definitions(record.path)) for it in fields]


def is_existential(it):
    """Returns whether a definition has a witness, or is a record of both data and facts."""
    found = are_data(it) if it.kind == "record" else []
    return bool(WITNESS.search("\n".join(it.lines))) or (any(found) and not all(found))


def crate_of(path):
    return os.path.relpath(path, TOP).split("/")[1]


@functools.lru_cache(None)
def existentials():
    """Returns the existentials of all public clauses."""
    found = []
    for it, clause in reached_definitions():
        if is_existential(it):
            where = f"{os.path.relpath(it.path, TOP)}:{it.line}"
            by = f"{crate_of(clause.path)}'s {clause.name}"
            found.append(Existential(crate_of(it.path), [it.name], where, by, False))
    # Clauses of one crate whose witnesses and facts have the same types say the same
    alike = {}
    for it in all_clauses():
        witness = WITNESS.search(it.text)
        if witness:
            key = (crate_of(it.path), *TYPES.findall(it.text, witness.start()))
            alike.setdefault(key, []).append(it)
    for (crate, *_), same in alike.items():
        names, where = [it.name for it in same], os.path.relpath(same[0].path, TOP)
        found.append(Existential(crate, names, where, "its own clause", True))
    return found


def examples(crate):
    """Returns the statements of a crate's examples by their names."""
    path = f"{TOP}/crates/{crate}/proofs/Examples.antt"
    if not os.path.isfile(path):
        return {}
    with open(path, encoding="utf-8") as file:
        return dict(EXAMPLE.findall(file.read()))


def is_example(it, ending, stated):
    """Returns whether a statement is an existential's example of this ending."""
    says = WITNESS.search(stated) if it.is_clause else it.names[0] in NAMED.findall(stated)
    return bool(says) and stated.rstrip().endswith("→ ⊥") == (ending == "fails")


def faults_of(crate):
    """Yields what is missing in a crate's examples."""
    found = examples(crate)
    for it in existentials():
        for ending in ("holds", "fails") if it.crate == crate else ():
            stated = [found.get(f"{name}-{ending}", "") for name in it.names]
            if not any(is_example(it, ending, text) for text in stated):
                yield f"{it.where}: there is no example {it.names[0]}-{ending}, for {it.by}"


def fault_of(crate):
    """Returns what is missing in a crate's examples, as a text, or nothing."""
    return "; ".join(faults_of(crate)) or None


def main(words):
    if words == ["--list"]:
        for it in existentials():
            print(f"{it.where}: {it.names[0]}, by {it.by}")
        return 0
    if set(words) - set(listed_crates()):
        print(__doc__, end="", file=sys.stderr)
        return 2
    faults = [it for crate in words or listed_crates() for it in faults_of(crate)]
    for it in faults:
        print(it)
    count = sum(it.crate in (words or listed_crates()) for it in existentials())
    print(f"existentials: {count}, of whose {2 * count} examples {len(faults)} are missing")
    return 1 if faults else 0


if __name__ == "__main__":
    sys.exit(main(sys.argv[1:]))
