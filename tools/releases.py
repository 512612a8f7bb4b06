"""A release: the files of the folder release/, and what is inside its page. It needs Python
alone."""
import base64
import gzip
import hashlib
import json
import os
import re

TOP = os.path.dirname(os.path.dirname(os.path.realpath(__file__)))
FOLDER = f"{TOP}/release"
PAGE, PROGRAM, SUMS = "towerbench.html", "towerbench", "SHA256SUMS"
# The files of the programs for this machine, by their crates
PROGRAMS = {"program": PROGRAM, "answers_program": "towerbench-answers"}
# A larger program isn't put into the repository.
MOST_BYTES = 2 * 10**6
DATA = re.compile(r'<script type="application/json" id="data">(.*?)</script>', re.S)
MODULE = r'<script type="text/plain" id="{}">([\w+/=\s]*)</script>'


class NotAPage(ValueError):
    """What isn't a page of tools/page."""


def read(name, folder=None):
    """Returns the bytes of a release's file, in release/ or in another folder."""
    with open(f"{folder or FOLDER}/{name}", "rb") as file:
        return file.read()


def is_there():
    return os.path.exists(f"{FOLDER}/{PAGE}")


def has_program():
    return os.access(f"{FOLDER}/{PROGRAM}", os.X_OK)


def data_of(page):
    """Returns what a page says of itself: version, commit, kit, and the sums of its programs'
    sources."""
    found = DATA.search(page)
    if not found:
        raise NotAPage("the page lacks its data")
    return json.loads(found.group(1))


def modules_of(page):
    """Returns the modules inside a page, by the names of their programs' crates."""
    found = {name: re.search(MODULE.format(name), page) for name in data_of(page)["sources"]}
    if not found or not all(found.values()):
        raise NotAPage(f"the page lacks the module of one of {sorted(found)}")
    return {name: gzip.decompress(base64.b64decode(it.group(1))) for name, it in found.items()}


def module_name(program):
    return f"{program}.wasm"


def sum_of(content):
    return hashlib.sha256(content).hexdigest()


def sums_of(folder=None):
    """Returns the sum of each file of a release but the sums themselves, and of each module inside
    its page."""
    names = [it for it in sorted(os.listdir(folder or FOLDER)) if it != SUMS]
    found = {it: sum_of(read(it, folder)) for it in names}
    modules = modules_of(read(PAGE, folder).decode())
    return {**found, **{module_name(it): sum_of(text) for it, text in modules.items()}}


def sum_lines(sums):
    """Returns the sums as `sha256sum` reads them."""
    return "".join(f"{it}  {name}\n" for name, it in sorted(sums.items()))


def put_modules(folder):
    """Writes the modules inside the release's page into a folder, and returns their paths by
    program."""
    found = {}
    for program, content in modules_of(read(PAGE).decode()).items():
        found[program] = f"{folder}/{module_name(program)}"
        with open(found[program], "wb") as file:
            file.write(content)
    return found
