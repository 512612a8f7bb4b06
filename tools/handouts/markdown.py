"""Turns the Markdown of the lessons, the guide and the glossary into pages for a browser.

It knows what these pages use: headings, paragraphs, lists, tables, fenced and indented blocks,
spans of code, strong and emphasized words, links, and the lines of a folded part. A link to a page
that isn't handed out becomes its text.
"""
import collections
import html
import os
import re

PAGE = """<!doctype html>
<html lang="en">
<head>
<meta charset="utf-8">
<meta name="viewport" content="width=device-width, initial-scale=1">
<title>{title}</title>
<style>{style}</style>
</head>
<body>
{body}
</body>
</html>
"""
STYLE = """
:root { color-scheme: light dark; }
body { max-width: 62rem; margin: 2rem auto; padding: 0 1rem; font: 1.05rem/1.5 system-ui, sans-serif; }
pre { overflow-x: auto; padding: .6rem .8rem; border-left: .25rem solid #8886; background: #8881; font-size: .95rem; line-height: 1.35; }
code { white-space: pre-wrap; }
table { border-collapse: collapse; }
th, td { border: 1px solid #8886; padding: .2rem .5rem; text-align: left; vertical-align: top; }
summary { cursor: pointer; font-weight: bold; padding: .4rem 0; }
@media print { details::details-content { content-visibility: visible; } }
"""
FENCE = re.compile(r"^( *)```")
HEADING = re.compile(r"^(#+) (.*)$")
ITEM = re.compile(r"^(?:-|(\d+)\.) +")
FOLD = re.compile(r"^(?:</?details>|<summary>.*</summary>)$")
INDENT = "    "
CODE = re.compile(r"`([^`]+)`")
HELD = re.compile("\0(\\d+)\0")
LINK = re.compile(r"\[([^\]]+)\]\(([^)\s]+)\)")
STRONG = re.compile(r"\*\*(.+?)\*\*")
EMPHASIZED = re.compile(r"(?<![\w*)])\*(\S[^*]*?)\*(?![\w*(])")
RULE = re.compile(r"^\|[-|]+\|$")

# at: the page's path; handed: the paths of all files that are handed out
Place = collections.namedtuple("Place", "at handed")


def anchor_of(heading):
    """Returns the name of a heading in links."""
    return re.sub(r"[^\w -]", "", CODE.sub(r"\1", heading).lower()).replace(" ", "-")


def html_path(path):
    """Returns the path of the page that is made of a Markdown file; any other path stays."""
    return re.sub(r"\.md$", ".html", path)


def target_of(link, place):
    """Returns where a link leads from a page; None: to nothing that is handed out."""
    if "://" in link:
        return link
    path, mark, anchor = link.partition("#")
    path = html_path(path)
    there = os.path.normpath(os.path.join(os.path.dirname(place.at), path)) if path else place.at
    return path + mark + anchor if there in place.handed else None


def link_html(match, place):
    target = target_of(html.unescape(match.group(2)), place)
    return f'<a href="{html.escape(target)}">{match.group(1)}</a>' if target else match.group(1)


def spans(text, place):
    """Returns a text with its spans of code, links, and strong and emphasized words."""
    held = []

    def hold(match):
        held.append(f"<code>{html.escape(match.group(1))}</code>")
        return f"\0{len(held) - 1}\0"

    text = html.escape(CODE.sub(hold, text), quote=False)
    text = LINK.sub(lambda it: link_html(it, place), text)
    text = EMPHASIZED.sub(r"<em>\1</em>", STRONG.sub(r"<strong>\1</strong>", text))
    return HELD.sub(lambda it: held[int(it.group(1))], text)


def cells(row):
    """Returns the cells of a table's row."""
    return [it.strip() for it in row.strip("|").split("|")]


class Lines:
    """The lines of a page, taken from the front."""

    def __init__(self, text):
        self.left = collections.deque(text.split("\n"))

    def take_while(self, is_one):
        found = []
        while self.left and is_one(self.left[0]):
            found.append(self.left.popleft())
        return found


def fenced(lines):
    """Takes a block between fences, and returns it."""
    margin = len(FENCE.match(lines.left.popleft()).group(1))
    inside = lines.take_while(lambda it: not FENCE.match(it))
    lines.left.popleft()
    return preformatted(it[margin:] for it in inside)


def preformatted(lines):
    return "<pre>" + html.escape("\n".join(lines), quote=False) + "</pre>"


def table(lines, place):
    """Takes a table, and returns it."""
    rows = [it for it in lines.take_while(lambda it: it.startswith("|")) if not RULE.match(it)]
    kinds = ["th", *["td"] * (len(rows) - 1)]
    made = [
        "".join(f"<{kind}>{spans(cell, place)}</{kind}>" for cell in cells(row))
        for kind, row in zip(kinds, rows)
    ]
    return "<table>\n" + "\n".join(f"<tr>{it}</tr>" for it in made) + "\n</table>"


def begins_block(line):
    """Returns whether a line begins something other than the paragraph or item before it."""
    return (
        not line.strip()
        or bool(ITEM.match(line) or FENCE.match(line) or HEADING.match(line) or FOLD.match(line))
        or line.startswith("|")
    )


def items(lines, place):
    """Takes a list, and returns it."""
    first, made = ITEM.match(lines.left[0]), []
    while lines.left and ITEM.match(lines.left[0]):
        head = lines.left.popleft()
        text = [
            ITEM.sub("", head),
            *(it.strip() for it in lines.take_while(lambda it: not begins_block(it))),
        ]
        made.append(f"<li>{spans(' '.join(text), place)}</li>")
    number = first.group(1)
    begin, end = (f'<ol start="{number}">', "</ol>") if number else ("<ul>", "</ul>")
    return "\n".join([begin, *made, end])


def block(lines, place):
    """Takes what comes next, and returns it."""
    line = lines.left[0]
    heading = HEADING.match(line)
    if FENCE.match(line):
        return fenced(lines)
    if line.startswith(INDENT):
        return preformatted(
            it[len(INDENT) :] for it in lines.take_while(lambda it: it.startswith(INDENT))
        )
    if line.startswith("|"):
        return table(lines, place)
    if ITEM.match(line):
        return items(lines, place)
    if FOLD.match(line):
        return lines.left.popleft()
    if heading:
        lines.left.popleft()
        level, text = len(heading.group(1)), heading.group(2)
        return f'<h{level} id="{anchor_of(text)}">{spans(text, place)}</h{level}>'
    return f"<p>{spans(' '.join(lines.take_while(lambda it: not begins_block(it))), place)}</p>"


def page(text, place):
    """Returns a page's HTML."""
    lines, made = Lines(text), []
    while lines.left:
        if lines.left[0].strip():
            made.append(block(lines, place))
        else:
            lines.left.popleft()
    title = CODE.sub(r"\1", HEADING.match(text.split("\n")[0]).group(2))
    return PAGE.format(title=html.escape(title), style=STYLE, body="\n".join(made))
