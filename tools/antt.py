"""The reader of `.antt` files: what a file declares, line by line, and what it brings in."""
import collections
import re

WORD = r"[^\W\d][\w'-]*"
COMMENT = "--"
# How a declaration begins: its margin, its marks, and its name, after which there is a colon but
# for a record's or a type's.
HEAD = re.compile(
    r"( *)((?:abbrev |unfoldable |pub )*)(?:(record|data) ([^\s:(){}]+)|([^\s:(){}]+) :(?: |$))"
)
# A line that declares nothing itself, but has names of other files or parameters of what follows.
NO_DECLARATION = re.compile(r" *(?:module|(?:pub )?(?:use|mod)) ")
USED = re.compile(r"\buse (Rattle(?:\.\w+)+)(?:\.\{([^}]*)\}| as (\w+))?", re.DOTALL)

# kind: "record", "data" or ""; number: that of its first line; lines: those of its code, also of
# what is declared inside it
Declaration = collections.namedtuple("Declaration", "name kind is_public margin number lines")


def is_word(name):
    """Returns whether a name is no operator's."""
    return bool(re.fullmatch(WORD, name))


def margin_of(line):
    """Returns how many spaces a line begins with."""
    return len(line) - len(line.lstrip(" "))


def lines_without_comments(text):
    """Returns the lines of a file without comments."""
    return [it.partition(COMMENT)[0].rstrip() for it in text.split("\n")]


def declared_by(line, number):
    """Returns what a line declares, or None."""
    head = None if NO_DECLARATION.match(line) else HEAD.match(line)
    if not head:
        return None
    margin, marks, kind, *names = head.groups()
    return Declaration(
        names[0] or names[1], kind or "", "pub " in marks, len(margin), number, [line]
    )


def declarations(text):
    """Returns what a file declares for all of it, in order: fields and local names are lines of
    what they are in."""
    found, is_open = [], False
    for number, line in enumerate(lines_without_comments(text)):
        if not line.strip():
            continue
        inside = is_open and margin_of(line) > found[-1].margin
        declared = None if inside else declared_by(line, number)
        if declared:
            found.append(declared)
            is_open = True
        elif inside or (is_open and not NO_DECLARATION.match(line)):
            found[-1].lines.append(line)
        else:
            is_open = False
    return found


def public_names(text):
    """Returns the names that a file declares for others, but for those of fields and of
    operators."""
    return {it.name for it in declarations(text) if it.is_public and is_word(it.name)}


def lines_of_fields(text):
    """Returns the numbers of the lines that are inside a record, also those of its comments."""
    records = {it.number: it.margin for it in declarations(text) if it.kind == "record"}
    found, margin = set(), None
    for number, line in enumerate(text.split("\n")):
        if number in records:
            margin = records[number]
        elif margin is not None and line.strip() and margin_of(line) > margin:
            found.add(number)
        elif line.strip():
            margin = None
    return found


def imports_of(text):
    """Returns where a file's `use` lines find names: each one's module and name there, or a
    module."""
    names, modules = {}, {}
    for whole, listed, alias in USED.findall(text):
        at = tuple(it for it in whole.split(".")[1:] if it not in ("specs", "proofs"))
        for item in (listed or "").split(","):
            own, _, other = item.strip().partition(" as ")
            names[other or own] = (at, own)
        modules[alias or at[-1]] = at
    return names, modules
