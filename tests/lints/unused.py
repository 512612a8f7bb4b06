#!/usr/bin/env python3
"""Lemmas and definitions that nothing uses: names which a file of crates/NAME declares and no other
line has.

usage: tests/lints/unused.py   prints each, and how many; status 1 if there is one

It reads specs/, proofs/ and the folders of proofs/ by subject; the other folders answer goals,
whose names are given. A use is a name in a source, definition, proof or wrong body, but not in a
line that only brings in files (`use`), nor in the own lines of what has the name. Files of worked
examples have no uses by others: their names are in EXAMPLES. What only unused names use is found
once those are removed.
"""
import collections
import glob
import os
import re
import sys

TOP = os.path.dirname(os.path.dirname(os.path.dirname(os.path.realpath(__file__))))
sys.path.append(f"{TOP}/tools")
import antt  # noqa: E402

# The names of files of worked examples, and of what wrong bodies miss.
EXAMPLES = ("Examples", "Rows", "WrongEdits", "VerdictExamples", "BenchRows")
READ = (
    "proofs/**/*.antt",
    "specs/**/*.antt",
    "src/**/*.rt",
    "must-fail/*.edit",
    "must-fail-in-turn/**/*.edit",
)
# The paths of files whose names are looked at, and that file's name.
LEMMAS = re.compile(r"crates/[^/]+/(?:proofs/(?:[a-z]\w*/)?|specs/(?:\w+/)*)([A-Z]\w*)\.antt")
# The names of files that answer goals, which a function right in lib.rt has in such a folder too.
ANSWERS = ("Answers", "Invariants", "Proof")
TOKEN = re.compile(r"[^\s(){}\[\],;:.⟦⟧@`\"]+")
# Facts of specs/ that nothing names, but that a tactic may use: whether proofs need them wasn't
# tried.
PERHAPS_UNUSED = (
    "LiesIn-part",
    "asked_holds",
    "copies_fit",
    "part_placed",
    "pushed_holds",
    "reads_own",
    "regular_fits",
    "slot_op",
    "stamped_fits",
    "unary_fits",
    "words_there",
)
# A name with a hole is that of an operator, whose uses don't have it.
HOLE = "◌"


def texts():
    """Returns the text of each file that is read, by its path from the top."""
    found = {}
    for pattern in READ:
        for path in glob.glob(f"{TOP}/crates/*/{pattern}", recursive=True):
            with open(path, encoding="utf-8") as file:
                found[os.path.relpath(path, TOP)] = file.read()
    return found


def lines_with_names(path, text):
    """Returns the lines of a file in which a name is a use or a definition."""
    lines = (
        antt.lines_without_comments(text)
        if path.endswith(".antt")
        else [it.partition("//")[0] for it in text.split("\n")]
    )
    return [it for it in lines if not it.strip().startswith(("use ", "ghost use "))]


def names_of(path, lines):
    """Returns the names that a file declares for others to use, local ones and fields too, but for
    operators."""
    named = LEMMAS.fullmatch(path)
    if not named or named.group(1) in (*EXAMPLES, *ANSWERS):
        return []
    found = [antt.declared_by(it, 0) for it in lines]
    return [it for it in dict.fromkeys(it.name for it in found if it) if HOLE not in it]


def own_uses(text):
    """Returns how often each name is in the lines of its own declaration."""
    found = collections.Counter()
    for it in antt.declarations(text):
        found[it.name] += sum(TOKEN.findall(line).count(it.name) for line in it.lines)
    return found


def unused(files):
    """Returns the path and the name of each lemma that nothing uses; files: the texts by their
    paths."""
    code = {path: lines_with_names(path, text) for path, text in files.items()}
    uses = collections.Counter(
        token for lines in code.values() for line in lines for token in TOKEN.findall(line)
    )
    found = []
    for path, lines in sorted(code.items()):
        names = names_of(path, lines)
        own = own_uses(files[path]) if names else {}
        found += [(path, it) for it in names if uses[it] <= own[it] and it not in PERHAPS_UNUSED]
    return found


def fault():
    """Returns which lemmas nothing uses, the first five of them, or None."""
    found = [f"{path} {name}" for path, name in unused(texts())]
    more = f"; and {len(found) - 5} more" if len(found) > 5 else ""
    return "; ".join(found[:5]) + more or None


def main(words):
    if words:
        print(__doc__, end="", file=sys.stderr)
        return 2
    found = unused(texts())
    for path, name in found:
        print(f"{path}: nothing uses {name}")
    print(f"unused: {len(found)} names")
    return 1 if found else 0


if __name__ == "__main__":
    sys.exit(main(sys.argv[1:]))
