"""Pages that are handed out: each is whole HTML, no mark of Markdown is left, and what it links to
or names is handed out.

The pages are those that tools/handout makes from the lessons, the guide and the glossary.
"""
import functools
import html.parser
import os
import re

from scratch import loaded

VOID = ("meta", "br", "hr", "img")
VERBATIM = ("pre", "code", "style")
LEFT_MARKS = re.compile(r"\*\*|\]\(|`|^\||\0", re.M)
# a path of the repository, or its beginning
PATH = re.compile(r"\b(?:lessons|examples|tests/rows|docs)/[\w./-]*\w")


class Reader(html.parser.HTMLParser):
    """What a page has: its links, the names that links can lead to, and what is wrong with it."""

    def __init__(self):
        super().__init__()
        self.open, self.links, self.names, self.faults = [], [], set(), []
        self.text = self.code = ""

    def handle_starttag(self, tag, attributes):
        found = dict(attributes)
        self.links += [found["href"]] if "href" in found else []
        self.names.update([found["id"]] if "id" in found else [])
        if tag not in VOID:
            self.open.append(tag)

    def handle_endtag(self, tag):
        if not self.open or self.open.pop() != tag:
            self.faults.append(f"</{tag}> ends nothing")

    def handle_data(self, data):
        if set(self.open) & set(VERBATIM):
            self.code += f"{data}\n"
        else:
            self.text += data


def read(text):
    reader = Reader()
    reader.feed(text)
    reader.close()
    return reader


@functools.lru_cache(None)
def tool():
    """Returns tools/handout as a module."""
    return loaded("tools/handout")


def fault_of_link(link, path, readers, others):
    """Returns what is wrong with a link of a page, or nothing."""
    target, _, anchor = link.partition("#")
    there = os.path.normpath(os.path.join(os.path.dirname(path), target)) if target else path
    if there in others and not anchor:
        return None
    if there not in readers:
        return f"{link} leads nowhere"
    is_there = not anchor or anchor in readers[there].names
    return None if is_there else f"{link}: {there} has no such part"


def fault():
    """Returns what is wrong with the pages, or nothing."""
    readers = {path: read(text) for path, text in tool().pages().items()}
    others, faults = set(tool().files_matching(tool().OTHERS)), []
    for path, reader in readers.items():
        found = reader.faults + [f"<{it}> isn't ended" for it in reader.open]
        found += [f"{it.group()!r} is left" for it in LEFT_MARKS.finditer(reader.text)]
        found += [
            it for it in (fault_of_link(link, path, readers, others) for link in reader.links) if it
        ]
        handed = [*readers, *others]
        found += [
            f"{it} isn't handed out"
            for it in PATH.findall(reader.code)
            if not any(one.startswith(it) for one in handed)
        ]
        faults += [f"{path}: {it}" for it in found]
    return "; ".join(faults[:5]) or (None if readers else "there are no pages")
