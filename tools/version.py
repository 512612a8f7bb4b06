"""The version of the repository: the file VERSION has it, and each other place that says it is
here."""
import os
import re

import side_by_side as side

FILE = f"{side.TOP}/VERSION"
FORM = re.compile(r"\d+\.\d+\.\d+")
# Each place, with the text that has the version there, once in its file
PLACES = {
    "crates/command_line/src/invocation.rt": '"towerbench {}";',
    "crates/program_tests/src/command_lines.rt": "\ntowerbench {}\n",
    "crates/towerbench_answers/src/program.rt": '"towerbench {}\n',
    "tests/rows/words/help.expected": "towerbench {}\n",
    "CITATION.cff": "\nversion: {}\n",
}
# What a user can do that they couldn't before, the newest version first: this is written by hand.
CHANGES, HEADING = "CHANGELOG.md", re.compile(r"^## (\S+)$", re.M)


def text_at(path):
    """Returns the text of a path from the repository's top."""
    return side.text_of(f"{side.TOP}/{path}") or ""


def version():
    """Returns the version that the file VERSION has."""
    return (side.text_of(FILE) or "").strip()


def newest_change():
    """Returns the version of the first heading of the changes."""
    found = HEADING.search(text_at(CHANGES))
    return found.group(1) if found else None


def faults():
    """Returns what is wrong with the places that say the version."""
    now = version()
    found = [] if FORM.fullmatch(now) else [f"VERSION says {now!r}"]
    for path, text in PLACES.items():
        if text_at(path).count(text.format(now)) != 1:
            found.append(f"{path} doesn't say {text.format(now).strip()!r} once")
    if newest_change() != now:
        found.append(f"{CHANGES} begins with {newest_change()}, and the version is {now}")
    return found


def write_at(path, text):
    """Writes a text to a path from the repository's top."""
    with open(f"{side.TOP}/{path}", "w", encoding="utf-8") as file:
        file.write(text)


def set_version(new):
    """Writes a version in place of the one that all places say, but for the changes."""
    now = version()
    for path, text in PLACES.items():
        write_at(path, text_at(path).replace(text.format(now), text.format(new)))
    write_at(os.path.relpath(FILE, side.TOP), f"{new}\n")
