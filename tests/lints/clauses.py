#!/usr/bin/env python3
"""Contracts that are hard to read: clauses past 100 columns, and functions of more than six
parameters.

usage: tests/lints/clauses.py [NAME..]   reads crates/NAME/src of these crates, or of all

Each clause is a `requires` or `ensures` with the text between its braces; of one that is too
wide its widest line is reported, with the file and the line. Parameters are counted without `self`.
Public calls that serve a script also take the runtime and the allocator, and so may have one more.
The last line sums up. Status 1 if anything is reported.
"""
import glob
import os
import re
import sys

TOP = os.path.dirname(os.path.dirname(os.path.dirname(os.path.realpath(__file__))))
sys.path.append(f"{TOP}/tools")
from side_by_side import listed_crates  # noqa: E402

MOST_COLUMNS, MOST_PARAMETERS = 100, 6
# The public calls that serve a script
SERVING = {"serve", "run_saving"}
CLAUSE = re.compile(r"\b(?:requires|ensures)\b[^{}\n]*\{")
FUNCTION = re.compile(r"\bfn (\w+)")
# What isn't code: texts, single characters, comments; a lifetime is no character.
NO_CODE = re.compile(r'//[^\n]*|b?"(?:[^"\\]|\\.)*"|b?\'(?:[^\'\\\n]|\\.[^\'\n]*)\'', re.DOTALL)
PAIRS = {"(": ")", "[": "]", "{": "}"}


def blanked(text):
    """Returns the text with blanks in place of what isn't code, each line as wide as before."""
    return NO_CODE.sub(lambda found: re.sub(r"[^\n]", " ", found.group()), text)


def end_of(code, start):
    """Returns the place after the bracket that closes the one at `start`."""
    closing = []
    for place in range(start, len(code)):
        if code[place] in PAIRS:
            closing.append(PAIRS[code[place]])
        elif closing and code[place] == closing[-1]:
            closing.pop()
            if not closing:
                return place + 1
    return len(code)


def wide_clauses(text, code):
    """Yields the number of the widest line of each clause that is too wide, and its columns."""
    for found in CLAUSE.finditer(code):
        first = code.count("\n", 0, found.start())
        last = code.count("\n", 0, end_of(code, found.end() - 1))
        lines = text.split("\n")[first : last + 1]
        columns, line = max((len(line), -at) for at, line in enumerate(lines))
        if columns > MOST_COLUMNS:
            yield first - line + 1, columns


def parameters_start(code, place):
    """Returns the place of the bracket that begins a function's parameters."""
    depth = 0
    while place < len(code) and (depth or code[place] != "("):
        if code[place] == "<":
            depth += 1
        elif code[place] == ">" and code[place - 1] not in "-=":
            depth -= 1
        place += 1
    return place


def parameters_of(code, start):
    """Returns how many parameters are between the brackets at `start`, without `self`."""
    parts, depth, part = [], 0, ""
    for place in range(start + 1, end_of(code, start) - 1):
        sign = code[place]
        opens = sign in PAIRS or sign == "<"
        closes = sign in PAIRS.values() or (sign == ">" and code[place - 1] not in "-=")
        depth += opens - closes
        if sign == "," and depth == 0:
            parts.append(part)
            part = ""
        else:
            part += sign
    parts.append(part)
    named = [it.strip() for it in parts if it.strip()]
    return sum(1 for it in named if not re.fullmatch(r"&?\s*('\w+\s+)?(mut\s+)?self", it))


def long_functions(code):
    """Yields the line, the name and the parameters of each function that has too many."""
    for found in FUNCTION.finditer(code):
        count = parameters_of(code, parameters_start(code, found.end()))
        if count > MOST_PARAMETERS + (found.group(1) in SERVING):
            yield code.count("\n", 0, found.start()) + 1, found.group(1), count


def faults_in(path):
    """Yields what is hard to read in a file: where, and what."""
    with open(path, encoding="utf-8") as file:
        text = file.read()
    code, name = blanked(text), os.path.relpath(path, TOP)
    for line, columns in wide_clauses(text, code):
        yield f"{name}:{line}: a clause is {columns} columns wide"
    for line, function, count in long_functions(code):
        yield f"{name}:{line}: {function} takes {count} parameters"


def faults_of(crate):
    """Returns what is hard to read in a crate's contracts."""
    paths = sorted(glob.glob(f"{TOP}/crates/{crate}/src/**/*.rt", recursive=True))
    return [it for path in paths for it in faults_in(path)]


def fault_of(crate):
    """Returns what is hard to read in a crate's contracts, as a text, or nothing."""
    return "; ".join(faults_of(crate)) or None


def main(names):
    unknown = set(names) - set(listed_crates())
    if unknown:
        print(__doc__, end="", file=sys.stderr)
        return 2
    faults = [it for crate in names or listed_crates() for it in faults_of(crate)]
    for it in faults:
        print(it)
    print(
        f"clauses: {len(faults)} of more than {MOST_COLUMNS} columns or {MOST_PARAMETERS} parameters"
    )
    return 1 if faults else 0


if __name__ == "__main__":
    sys.exit(main(sys.argv[1:]))
