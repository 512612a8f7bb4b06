"""Names of definitions in the documents: each is defined where it is said to be.

`File.name` is in File.antt right below the specs/ of a crate, and `folder.File.name` in a folder
there: of the crate that the section names in its heading, or else of any.
The current folder has to be the repository's top.
"""
import functools
import glob
import os
import re
import sys

sys.path.append(f"{os.path.dirname(os.path.dirname(os.path.realpath(__file__)))}/tools")
import antt  # noqa: E402

PAGE = "docs/DEFINITIONS.md"
HEADING = re.compile(r"#+ (.*)")
# A name of a file and what it defines, also if nothing else says that it is one.
OF_A_FILE = re.compile(r"(?!Rattle\.)(?:[a-z]\w*\.)*[A-Z]\w*[a-z]\w*\.[A-Za-z_]\w*")


def crate_after(line, before):
    """Returns the crate that the section is about, after a line; None: it names none."""
    heading = HEADING.fullmatch(line)
    if not heading:
        return before
    name = heading.group(1).strip("`")
    return name if name and os.path.isdir(f"crates/{name}/specs") else None


@functools.lru_cache(None)
def defined_in(path):
    """Returns the names that a file of specs/ defines for others, but for those of fields."""
    with open(path, encoding="utf-8") as file:
        return antt.public_names(file.read())


def fault_of_name(name, crate):
    """Returns what is wrong with the name of a definition by its file, or None."""
    *at, own = name.split(".")
    pattern = f"crates/{crate or '*'}/specs/{'/'.join(at)}.antt"
    paths = glob.glob(pattern)
    if not paths:
        return f"{name}: there is no {pattern}"
    is_there = any(own in defined_in(it) for it in paths)
    return None if is_there else f"{name}: {' '.join(sorted(paths))} doesn't define {own}"


def fault_of_span(text, crate):
    """Returns what is wrong with the text between backticks, if it is a definition's name."""
    return fault_of_name(text, crate) if OF_A_FILE.fullmatch(text) else None
