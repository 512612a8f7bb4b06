#!/usr/bin/env python3
"""Habits of wording that read oddly: how often each part of the repository has them, which may only
fall.

usage: tests/lints/style.py           prints each count, and what has risen above .ci/habits
       tests/lints/style.py --lower   writes counts that are lower to .ci/habits

docs/STYLE.md has the habits, and what to write. Names are read word by word, `told_of` as two;
`where` is counted in comments and documents alone. A document's words between backticks are names,
which count in the code. Status 1 if a count has risen.
"""
import collections
import fnmatch
import os
import re
import sys

TOP = os.path.dirname(os.path.dirname(os.path.dirname(os.path.realpath(__file__))))
sys.path.append(f"{TOP}/tests")
import documents  # noqa: E402

KEPT = ".ci/habits"
HABITS = {
    "behind": r"behind",
    "tell": r"tells?|told|telling",
    "stand": r"stands?|stood|standing",
    "come to": r"(?:comes?|came) to",
    "so many": r"so (?:many|much)",
    "want of memory": r"want of memory|wanting",
    "is had": r"(?:is|are|be|was|were) had|has room",
    "let go": r"lets? go",
    "beside": r"beside",
    "anew": r"anew",
    "where": r"where",
}
PATTERNS = {
    habit: re.compile(rf"(?<![a-z])(?:{pattern})(?![a-z])", re.I)
    for habit, pattern in HABITS.items()
}
# The page of the habits has all of them, and this file too; the page of definitions is printed from
# comments.
LEFT_OUT = ("docs/STYLE.md", "docs/DEFINITIONS.md", "tests/lints/style.py", KEPT)
PARTS = (
    ("sources", "crates/*/src/*.rt"),
    ("definitions", "crates/*/specs/*.antt"),
    ("proofs", "crates/*/proofs/*.antt"),
    ("wrong bodies", "crates/*/must-fail*"),
    ("lessons", "lessons/*"),
    ("documents", "*.md"),
    ("scripts", "*"),
)
COMMENT = {
    "rt": re.compile(r"//.*"),
    "antt": re.compile(r"--.*"),
    "py": re.compile(r"#[^\n]*|\"\"\".*?\"\"\"", re.DOTALL),
}


def part_of(path):
    """Returns the part of the repository that a path is in: the first whose pattern it has."""
    return next(name for name, pattern in PARTS if fnmatch.fnmatch(path, pattern))


def words_of(path, text, habit):
    """Returns what of a text is read for a habit, as words with one space between them."""
    if path.endswith(".md"):
        text = documents.SPAN.sub("", text)
    comment = COMMENT.get(path.rpartition(".")[2])
    if habit == "where" and comment:
        text = " ".join(comment.findall(text))
    return re.sub(r"[\s_]+", " ", text)


def counts():
    """Returns how often each part has each habit."""
    found = collections.Counter()
    for path in documents.files():
        # The gate's copy has this turn's wrong bodies twice
        is_twice = (
            os.path.exists(path.replace("/must-fail/", "/must-fail-in-turn/"))
            and "/must-fail/" in path
        )
        if is_twice or path in LEFT_OUT or path.endswith((".png", ".wasm")):
            continue
        with open(path, encoding="utf-8", errors="replace") as file:
            text = file.read()
        for habit, pattern in PATTERNS.items():
            if habit != "where" or part_of(path) != "scripts" or path.endswith(".py"):
                found[part_of(path), habit] += len(pattern.findall(words_of(path, text, habit)))
    return found


def kept_counts():
    """Returns the counts that were written down."""
    if not os.path.exists(KEPT):
        return {}
    with open(KEPT, encoding="utf-8") as file:
        rows = [it.rstrip("\n").split("\t") for it in file]
    return {(part, habit): int(count) for part, habit, count in rows}


def fault():
    """Returns which habits have risen, or None."""
    before = kept_counts()
    risen = [
        f"{habit} in {part}: {count}, {before.get((part, habit), 0)} before"
        for (part, habit), count in counts().items()
        if count > before.get((part, habit), 0)
    ]
    return "; ".join(sorted(risen)) or None


def lower():
    """Writes the counts of now where they are lower than those that were written down."""
    before, now = kept_counts(), counts()
    with open(KEPT, "w", encoding="utf-8") as file:
        for (part, habit), count in sorted(now.items()):
            file.write(f"{part}\t{habit}\t{min(count, before.get((part, habit), count))}\n")


def main(words):
    os.chdir(TOP)
    if words == ["--lower"]:
        lower()
        return 0
    for (part, habit), count in sorted(counts().items()):
        print(f"{part:14}{habit:16}{count:6}")
    print(fault() or "none has risen")
    return 1 if fault() else 0


if __name__ == "__main__":
    sys.exit(main(sys.argv[1:]))
