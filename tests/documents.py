"""Documents: what they name is there, their commands print what they say, and their lines fit.

A document is README.md, CONTRIBUTING.md, CHANGELOG.md, each page of docs/ and lessons/, and each
README.md in page/ and crates/.
- A fence is closed before the next one begins. One ```console is run from the repository's top:
  each line `$ COMMAND`, and below it what standard output then says. One ```console CRATE needs
  that crate's program, and is run once it is built.
- One ```rust FILE, or another language, quotes lines of the file, as they are in it; a line `..`
  is short for any lines.
- A word between backticks that is a path is that of a file or a folder, or its end (`*` and NAME
  match any name); one that is a name of code (with `_`, `::`, `()` or a capital inside) occurs
  in the sources, and a definition's by its file is defined there: tests/definitions.py; one with a
  dash is the name of a wrong body, a row, an example or another file, or a word of some source.
- No line is longer than 100 columns, but in tables, and on a lesson's page, which is a screen wide.
Paths begin at the repository's top, which has to be the current folder; links at the document's
folder.
"""
import collections
import fnmatch
import functools
import glob
import os
import re
import shutil
import subprocess

import cases
import definitions
import sizes

MOST_COLUMNS = 100
# The pages that are a screen wide
SCREENS = re.compile(r"lessons/[^/]+/README\.md")
SOURCES = (".rt", ".antt", ".py", ".c", ".txt", ".edit", ".html", ".js", ".mjs", ".css")
SCRIPTS = ("towerbench", ".ci/*", "tools/*", "tests/*")
FENCE = re.compile(r"^( *)```(.*)$")
CONSOLE = "console"
SPAN = re.compile(r"`([^`\n]+)`")
PATH = re.compile(
    r"(?:\./)?[A-Za-z0-9_.*{},-]+(?:/[A-Za-z0-9_.*{},-]+)+/?"
    r"|[A-Za-z0-9_-]+\.(?:md|py|rt|antt|txt|script|tower|expected|c)"
)
NAME_OF_CODE = re.compile(r"[A-Za-z_][A-Za-z0-9_]*(?:(?:::|\.)[A-Za-z_][A-Za-z0-9_]*)*(?:\(\))?")
WORD = re.compile(r"[A-Za-z_][A-Za-z0-9_]*")
NAME_OF_A_FILE = re.compile(r"[a-z0-9]+(?:-[a-z0-9*]+)+")
# What the prover calls things itself.
OF_THE_PROVER = re.compile(r"f-requires|known-0|unsupported-recursive-bound|rattle-kit-13[bf]")
LINK = re.compile(r"\]\(([^)#\s]+)(?:#[^)\s]*)?\)")
# What tools/release makes
RELEASE = "release/"
# What matches any name in a path, and how paths begin that a reader makes himself.
ANY_NAME, MADE_BY_A_READER = ("NAME", "KIND"), ("/tmp/", "out/", "page.html")

# number: that of the fence's line; kind: its first word, or ""; about: its second word, or "";
# margin: the text before it
Block = collections.namedtuple("Block", "number kind about margin lines")
# The kinds of blocks that quote a file, and the line that is short for any lines
QUOTED, LEFT_OUT = ("rust", "antt", "text"), ".."


def documents():
    """Returns the paths of all documents."""
    found = ["README.md", "CONTRIBUTING.md", "CHANGELOG.md"]
    for pattern in ("docs/**/*.md", "lessons/**/*.md", "page/**/README.md", "crates/*/README.md"):
        found += sorted(glob.glob(pattern, recursive=True))
    return found


@functools.lru_cache(None)
def files():
    """Returns the paths of all files that are no product of a build."""
    asked = ["git", "ls-files", "--cached", "--others", "--exclude-standard"]
    has_git = shutil.which("git") is not None
    listed = subprocess.run(asked, capture_output=True, text=True, check=False) if has_git else None
    found = listed.stdout.split("\n") if listed and listed.returncode == 0 else []
    if not found:
        # The files of a copy without git's folder
        made = {"out", ".git"}
        inside = [(at, its) for at, _, its in os.walk(".") if not made & set(at.split("/"))]
        found = [f"{at}/{it}"[2:] for at, its in inside for it in its]
    return [it for it in found if os.path.isfile(it) and not it.startswith(RELEASE)]


def is_of_the_release(path):
    """Returns whether a path is one of the release, if there is one yet."""
    return path.startswith(RELEASE) and (os.path.exists(path) or not os.path.isdir(RELEASE))


@functools.lru_cache(None)
def ends_of_paths():
    """Returns the ends of the paths of all files and folders, each with a slash in front."""
    parts = [it.split("/") for it in files()]
    folders = {"/".join(it[:k]) for it in parts for k in range(1, len(it))}
    return [f"/{it}" for it in [*files(), *folders]]


@functools.lru_cache(None)
def words_of_sources():
    """Returns all names that occur in the sources."""
    found = set()
    for path in files():
        if path.endswith(SOURCES) or any(fnmatch.fnmatch(path, it) for it in SCRIPTS):
            with open(path, encoding="utf-8", errors="replace") as file:
                found.update(WORD.findall(file.read()))
    return found


@functools.lru_cache(None)
def is_there(path):
    """Returns whether a path is one of the repository, or the end of one."""
    for name in ANY_NAME:
        path = re.sub(rf"\b{name}\b", "*", path)
    wanted = "*/" + re.sub(r"\{[^}]*\}", "*", re.sub(r"^\./", "", path)).rstrip("/")
    return bool(fnmatch.filter(ends_of_paths(), wanted))


@functools.lru_cache(None)
def names_of_files():
    """Returns the names of all files up to their first dot, of all folders, and of the rows of a
    table."""
    return {part.split(".")[0] for it in [*files(), *sizes.files()] for part in it.split("/")}


@functools.lru_cache(None)
def is_word_of_a_script(text):
    """Returns whether a word with a dash occurs in a script or a tool."""
    asked = [it for it in files() if any(fnmatch.fnmatch(it, pattern) for pattern in SCRIPTS)]
    return any(text in cases.read(it).decode(errors="replace") for it in asked)


def is_code(text):
    """Returns whether a word between backticks can only be a name of the code."""
    return bool(NAME_OF_CODE.fullmatch(text) and re.search(r"_|::|\(\)|[a-z][A-Z]", text))


def fault_of_span(text, crate):
    """Returns what is wrong with the text between backticks, in a section about the crate."""
    if text.startswith(MADE_BY_A_READER) or is_of_the_release(text):
        return None
    if PATH.fullmatch(text):
        return None if is_there(text) else f"there is no {text}"
    if NAME_OF_A_FILE.fullmatch(text) and not OF_THE_PROVER.fullmatch(text):
        is_known = fnmatch.filter(names_of_files(), text) or is_word_of_a_script(text)
        return None if is_known else f"nothing is called {text}"
    words = WORD.findall(text) if is_code(text) else []
    strange = [it for it in words if it not in words_of_sources()]
    if strange:
        return f"no source has {strange[0]}"
    return definitions.fault_of_span(text, crate)


def console_faults(lines, at, document):
    """Returns the faults of a block's commands; its first line has the number `at`."""
    faults, commands = [], []
    for line in lines:
        if line.startswith("$ "):
            commands.append([line[2:], []])
        elif commands:
            commands[-1][1].append(line)
    for command, wanted in commands:
        ran = cases.run("bash", ["-c", command], b"")
        difference = cases.first_difference(
            "".join(f"{it}\n" for it in wanted).encode(), ran.output
        )
        if difference:
            faults.append(f"{document}:{at}: {command}: {difference}")
    return faults


def text_and_blocks(lines):
    """Returns the lines of the text, each with its number, the blocks, and what is wrong with their
    fences, each with its number too."""
    text, blocks, wrong, block = [], [], [], None
    for number, line in enumerate(lines, 1):
        mark = FENCE.match(line)
        words = mark.group(2).split() if mark else []
        if mark and block is None:
            block = Block(number, *[*words, "", ""][:2], mark.group(1), [])
        elif block is None:
            text.append((number, line))
        elif mark and not words:
            blocks.append(block)
            block = None
        else:
            wrong += [(number, "a fence begins where another isn't closed")] * bool(mark)
            block.lines.append(line[len(block.margin) :])
    wrong += [(block.number, "the fence isn't closed")] if block else []
    return text, blocks, wrong


def quote_fault(block):
    """Returns what is wrong with a block that quotes a file."""
    if not os.path.isfile(block.about):
        return f"there is no {block.about}"
    source, at = cases.read(block.about).decode(), 0
    for part in "\n".join(block.lines).split(f"\n{LEFT_OUT}\n"):
        # A quote has whole lines
        found = f"\n{source}".find(f"\n{part}\n", at)
        if found < 0:
            return f"{block.about} doesn't have, in this order: {first_lost(source, part, at)}"
        at = found + len(part)
    return None


def first_lost(source, part, at):
    """Returns the first line of a part of a quote that doesn't follow those before it in the
    source."""
    lines = part.split("\n")
    for count, line in enumerate(lines, 1):
        front = "\n".join(lines[:count])
        if f"\n{source}".find(f"\n{front}\n", at) < 0:
            return line.strip() or "a blank line"
    return None


def commands_with_programs():
    """Returns the blocks of commands that need a crate's program, each with its document, by the
    program's path."""
    found = collections.defaultdict(list)
    for document in documents():
        for it in text_and_blocks(cases.read(document).decode().split("\n"))[1]:
            if it.kind == CONSOLE and it.about:
                found[f"crates/{it.about}/out/{it.about}"].append((document, it))
    return found


def fault_of_commands(asked):
    """Returns what is wrong with the commands of these blocks; None: nothing."""
    found = [console_faults(it.lines, it.number + 1, document) for document, it in asked]
    return "; ".join(fault for faults in found for fault in faults) or None


def faults_of_line(line, document, crate):
    """Returns the faults of a line of the text, in a section about the crate."""
    found = [fault_of_span(it, crate) for it in SPAN.findall(line)]
    links = [it for it in LINK.findall(line) if "://" not in it]
    folder = os.path.dirname(document)
    lost = [
        f"there is no {it}"
        for it in links
        if not (os.path.exists(os.path.join(folder, it)) or is_of_the_release(it))
    ]
    return [it for it in found if it] + lost


def faults_of(document):
    """Returns all faults of a document, each with its line."""
    with open(document, encoding="utf-8") as file:
        lines = file.read().split("\n")
    text, blocks, found = text_and_blocks(lines)
    for number, line in enumerate(lines, 1):
        is_wide = SCREENS.fullmatch(document) or line.lstrip().startswith("|")
        if len(line) > MOST_COLUMNS and not is_wide:
            found.append((number, f"{len(line)} columns"))
    crate = None
    for number, line in text:
        crate = definitions.crate_after(line, crate)
        found += [(number, it) for it in faults_of_line(line, document, crate)]
    faults = [f"{document}:{number}: {it}" for number, it in sorted(found)]
    for it in blocks:
        if it.kind == CONSOLE and not it.about:
            faults += console_faults(it.lines, it.number + 1, document)
        if it.kind in QUOTED and it.about:
            fault = quote_fault(it)
            faults += [f"{document}:{it.number}: {fault}"] if fault else []
    return faults


def fault_of(document):
    """Returns what is wrong with a document, the first five faults; None: nothing."""
    faults = faults_of(document)
    more = f"; and {len(faults) - 5} more" if len(faults) > 5 else ""
    return "; ".join(faults[:5]) + more or None
