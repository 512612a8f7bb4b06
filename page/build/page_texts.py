"""The lessons' texts, and what words on the screen mean, for the page: from the Markdown that the
repository has of them."""
import glob
import os
import re
import sys

TOP = os.path.dirname(os.path.dirname(os.path.dirname(os.path.realpath(__file__))))
sys.path.insert(0, f"{TOP}/tools/handouts")
import markdown  # noqa: E402

# how a lesson is begun at a terminal, which the page does by a button
TYPED = re.compile(
    r"^Type `\./towerbench .*?(?:towerbench\.html\.(?: There, (.))?|(?=^$))", re.M | re.S
)
STARTED = re.compile(r"`\./towerbench (lessons/[^` ]+\.(?:tower|bench))`")
TIMELINE = re.compile(r"^```timeline (\S+)(?: (\S+))?\n(.*?)^```$", re.M | re.S)
FOLD, COMMENT = "<details>", "# "
EXERCISE = re.compile(r"^(\d)\. \*\*(.*?)[.?]\*\* (.*?)(?=^\d\. \*\*|^$|\Z)", re.M | re.S)
DATA = re.compile(r"^# (goal|ask|option) (\d+): (.*)$", re.M)
GUIDE, TOWERS, GLOSSARY = "docs/guide/script.md", "docs/guide/towers.md", "docs/GLOSSARY.md"
# What the glossary also says of a hit: on the screen a hit is of a read
OF_A_SEEK = re.compile(r"; of a seek: .*")


def explained_in(page, words):
    """Returns for each of these words the page that explains it, and the word, with which its row
    begins."""
    return {word: (page, word) for word in words.split()}


# What a word on the screen means: in words of its own, if it is an abbreviation, or the page that
# says so, and how the row, item or sentence begins there.
WORDS = {
    "w": "a step: a process begins a write of the value that follows",
    "r": "a step: a process begins a read",
    "g": "a step: a process makes its next bit action; the last digit is what a hit read of the bit gives",
    "x": "a step: a process stops for good",
    "ws": "a write of a bit starts",
    "we": "a write of a bit ends",
    "rs": "a read of a bit starts",
    "re": "a read of a bit ends",
    "choice": "what a hit read of a bit gives, 0 or 1: the last digit of the step g that ends it. It matters nowhere else",
    **explained_in(GLOSSARY, "chosen code hit stamp tag void"),
    "words": "numbers that one process each remembers between its actions",
    "inversion": (GLOSSARY, "new-old inversion"),
    **explained_in(GLOSSARY, "atomic regular safe matrix"),
    **explained_in(TOWERS, "fresh overlap stray"),
    "pending": "an operation that hasn't returned",
    "refused": "the register has no stamp or tag left, so the operation ends without effect",
    "place": (GUIDE, "Place K is"),
    "session": (GUIDE, "A session is"),
    "break": (GUIDE, "break BREAK"),
    **explained_in(GUIDE, "seek back"),
    "fork": (GUIDE, "fork B K NAME"),
    "detach": (GUIDE, "detach B"),
    "drop": (GUIDE, "drop B"),
    "cell": (GUIDE, "A cell's line"),
    **{look: (GUIDE, f"{look} B K") for look in ("state", "bits", "history", "verdict")},
}


class Unexplained(Exception):
    """A word on the screen that no text explains."""


def text_of(path):
    with open(f"{TOP}/{path}", encoding="utf-8") as file:
        return file.read()


def plain(text):
    """Returns a text without links and emphasis; what is typed stays in backquotes."""
    text = re.sub(r"\[([^\]]+)\]\([^)]*\)", r"\1", " ".join(text.split()))
    return re.sub(r"\*\*|(?<!\w)\*(?=\w)|(?<=\w)\*(?!\w)", "", text)


def with_towers(text):
    """Returns a text that names each tower by its line, and not by how it is started at a
    terminal."""
    rest = TYPED.sub(lambda it: (it.group(1) or "").upper(), text)
    return STARTED.sub(lambda it: f"`{text_of(it.group(1)).splitlines()[1]}`", rest)


def blocks(text, place):
    """Returns the blocks of a Markdown text as HTML."""
    lines, made = markdown.Lines(text), []
    while lines.left:
        if lines.left[0].strip():
            made.append(markdown.block(lines, place))
        else:
            lines.left.popleft()
    return "\n".join(made)


def article(folder):
    """Returns a lesson's text as HTML, with each time line as text in a figure."""
    text, figures = with_towers(text_of(f"lessons/{folder}/README.md")), []

    def hold(match):
        figures.append(match.groups())
        return f"FIGURE{len(figures) - 1}"

    def figure(match):
        name, branch, drawn = figures[int(match.group(1))]
        return f'<figure data-part="{name}" data-branch="{branch or "main"}">{markdown.preformatted(drawn.splitlines())}</figure>'

    made = blocks(
        TIMELINE.sub(hold, text), markdown.Place(f"lessons/{folder}/README.html", frozenset())
    )
    return re.sub(r"<p>FIGURE(\d+)</p>", figure, made)


def exercises(folder):
    """Returns a lesson's exercises: number, title, text, and for each script that has goals or
    questions of it these comments."""
    asked = with_towers(text_of(f"lessons/{folder}/README.md")).partition(FOLD)[0]
    found = [
        {"number": int(number), "title": title, "text": plain(text), "parts": []}
        for number, title, text in EXERCISE.findall(asked)
    ]
    for path in sorted(glob.glob(f"{TOP}/lessons/{folder}/*.script")):
        lines = DATA.findall(text_of(os.path.relpath(path, TOP)))
        for it in found:
            its = [
                f"{COMMENT}{kind}: {said}"
                for kind, number, said in lines
                if int(number) == it["number"]
            ]
            if its:
                it["parts"].append(
                    {"name": os.path.basename(path)[: -len(".script")], "lines": its}
                )
    return found


def explained(page, mark):
    """Returns what a page says of a word: a table's row, a list's item, or the sentence that begins
    with the mark."""
    text = text_of(page)
    row = re.search(rf"^\| ` *{re.escape(mark)}` \| (.*?) \|", text, re.M)
    item = re.search(
        rf"^- \*+{re.escape(mark)}\*+(?: \([^)]*\))?: (.*?)(?=^- |^$|\Z)", text, re.M | re.S
    )
    sentence = re.search(
        rf"(?:^|(?<=\. )|(?<=\.\n)|(?<=\*\*)){re.escape(mark)}.*?\.(?=\s)", text, re.M | re.S
    )
    found = row or item or sentence
    if not found:
        raise Unexplained(f"{page} doesn't explain {mark}")
    said = plain(found.group(1) if found is not sentence else found.group(0)).replace("`", "")
    return OF_A_SEEK.sub("", said)


def words():
    """Returns what each word on the screen means."""
    return {
        word: said if isinstance(said, str) else explained(*said) for word, said in WORDS.items()
    }
