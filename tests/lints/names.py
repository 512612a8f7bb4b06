#!/usr/bin/env python3
"""Public names: no two definitions share one, and no two items do.

usage: tests/lints/names.py   prints each name that is shared, with the files that define it;
                              status 1 if there is one

- Definitions: what a file of specs/ defines as `pub`, at the margin or in a `module _`, apart from
  fields and what it passes on, and from the facts in specs/laws/.
- Items: the `pub` types, traits, functions and constants at the margin of a crate's sources. Those
  of `laws.rt` are apart, since each crate states its own laws; so is a type that only gives another
  of its name.
A definition may have the name of the item that it is about.
"""
import collections
import glob
import os
import re
import sys

TOP = os.path.dirname(os.path.dirname(os.path.dirname(os.path.realpath(__file__))))
sys.path.append(f"{TOP}/tools")
import antt  # noqa: E402

ITEM = re.compile(r"pub (?:const |unsafe )*(?:struct|enum|trait|type|fn|const) (\w+)")
LAWS = "laws.rt"


def items_of(text):
    """Returns the names of the public items of a source."""
    found = set()
    for line in text.split("\n"):
        item = ITEM.match(line)
        is_alias = item and re.match(
            rf"pub type {item.group(1)}\b.*= (?:\w+::)*{item.group(1)}\b", line
        )
        found.update([item.group(1)] if item and not is_alias else [])
    return found


def shared_names(pattern, names_of):
    """Returns the names that several files have, each with these files."""
    found = collections.defaultdict(list)
    for path in sorted(glob.glob(f"{TOP}/crates/{pattern}", recursive=True)):
        if os.path.basename(path) == LAWS or "/specs/laws/" in path:
            continue
        with open(path, encoding="utf-8") as file:
            names = names_of(file.read())
        for name in names:
            found[name].append(os.path.relpath(path, TOP))
    return {name: paths for name, paths in found.items() if len(paths) > 1}


def faults():
    """Returns each shared name with the files that define it, definitions before items."""
    found = [
        shared_names("*/specs/**/*.antt", antt.public_names),
        shared_names("*/src/**/*.rt", items_of),
    ]
    return [f"{name}: {', '.join(paths)}" for it in found for name, paths in sorted(it.items())]


def fault():
    """Returns which public names are shared, or None."""
    return "; ".join(faults()) or None


if __name__ == "__main__":
    print("\n".join(faults()) or "no public name is shared")
    sys.exit(1 if faults() else 0)
