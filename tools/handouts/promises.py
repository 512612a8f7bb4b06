"""The promises in short, for those who have no sources: docs/PROMISES.md without clauses and
definitions."""
import re

CELL, RULE = re.compile(r"^\| (.*?) \|"), re.compile(r"^\|[-|]+\|$")
HEADS = "| In words |"
# the sections that speak of what a user of the program sees
SECTIONS = (
    "The headline",
    "End to end",
    "In addition to the specified program",
    "The tower law",
)
FIRST = "# Promises\n\nWhat is proved of the program, in words. Its sources have the statement of each, and say what is trusted.\n"


def short(text):
    """Returns the sections of the page that a user asks for, with the first column of each table as
    a list."""
    made = [FIRST]
    for section in re.split(r"^(?=## )", text, flags=re.M):
        title, _, body = section.partition("\n")
        if title.removeprefix("## ") not in SECTIONS:
            continue
        found = [it for it in body.split("\n") if not it.startswith(HEADS) and not RULE.match(it)]
        rows = [f"- {CELL.match(it).group(1)}" for it in found if CELL.match(it)]
        first = body.strip().split("\n\n")[0]
        made.append(
            "\n\n".join([title, *([] if CELL.match(first) else [first]), "\n".join(rows)]) + "\n"
        )
    return "\n".join(made)
