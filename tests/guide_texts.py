"""Texts that the guide names and no expected output has.

The guide's files write what the program prints between backticks: an answer begins with `0: `, a
line of a page with two spaces, a frame with the name of a layer; a break is in the table of breaks,
and refusals and faults begin their rows with a number. A word of capitals is any word there, P in
`pP` any number, and A one of the four bit actions. Each of these texts has to be in some expected
output of a row, an example or a lesson, but that of refused memory, which tests/growths.py brings
about.
"""
import glob
import re

import sizes

GUIDE = "docs/guide/*.md"
EXPECTED = ("expected", "errors", "saved", "expected.make", "errors.make")
FOLDERS = ("tests/rows/*", "examples", "lessons", "lessons/*")
SPAN = re.compile(r"`([^`\n]+)`")
FRAME = re.compile(r"(?:safe|copies|regular|unary|stamped|matrix) [wr]\b.*")
NUMBERED = re.compile(r"\d\d [A-Z]\w+")
BREAKS = re.compile(r"\| BREAK \|.*?\n\n", re.DOTALL)
MEMORY = "40 Memory"
# What the guide's placeholders may be; any other word of capitals is any one word
ANY = {"pP": r"p\d+", "A": "(?:ws|we|rs|re)", "STEP": r"[wrgx] .+", "BREAK": r"\S.*"}


def pattern_of(text):
    """Returns what matches a line with a text of the guide."""
    words = [
        ANY.get(it) or (r"\S+" if re.fullmatch(r"[A-Z]+", it) else re.escape(it))
        for it in text.strip().split(" ")
    ]
    body = " ".join(words)
    if FRAME.fullmatch(text):
        return re.compile(rf"(?:^|> |p\d+ ){body}(?: >| stopped$|$)", re.M)
    if NUMBERED.fullmatch(text):
        return re.compile(rf"\b{body}\b")
    margin = "  " if text.startswith("  ") else ""
    return re.compile(rf"^{margin}{body}(?: |$)", re.M)


def texts_of(guide):
    """Returns the texts that a file of the guide, given as one text, says are printed."""
    spans = [it.group(1) for it in SPAN.finditer(guide)]
    found = [
        it
        for it in spans
        if it.startswith(("  ", "0: ")) or FRAME.fullmatch(it) or NUMBERED.fullmatch(it)
    ]
    breaks = BREAKS.search(guide)
    rows = breaks.group().splitlines()[2:] if breaks else []
    found += [f"  {SPAN.search(it).group(1)}" for it in rows if SPAN.search(it)]
    return [it for it in found if it != MEMORY]


def read(path):
    """Returns the text of a file."""
    with open(path, encoding="utf-8", errors="replace") as file:
        return file.read()


def outputs():
    """Returns all that is expected of the program, in one text."""
    found = [
        read(path)
        for folder in FOLDERS
        for kind in EXPECTED
        for path in sorted(glob.glob(f"{folder}/*.{kind}"))
    ]
    found += [texts[kind] for texts in sizes.files().values() for kind in EXPECTED if kind in texts]
    return "\n".join(found)


def paths():
    return sorted(glob.glob(GUIDE))


def fault_of(path, expected):
    """Returns which texts of a file of the guide are in no expected output, or None."""
    lost = [it for it in dict.fromkeys(texts_of(read(path))) if not pattern_of(it).search(expected)]
    return f"in no expected output: {'; '.join(repr(it) for it in lost)}" if lost else None


if __name__ == "__main__":
    for it in paths():
        print(f"{it}: {len(texts_of(read(it)))} texts; {fault_of(it, outputs())}")
