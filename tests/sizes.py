"""The rows of sizes: tests/rows/sizes/table.txt has a line for each, of which its files are made.

A tower that is refused is a fault of its file's second line. Of one that isn't, the first page is
looked at, and then steps are inserted: writes of the greatest value and of one more, reads by the
last reader and by the process after it, a write by process 1 and a read by process 0, which only a
tower has whose processes all do both, and actions of the last reader and of the process after it.
"""
import collections
import functools

FOLDER = "tests/rows/sizes"
TABLE = f"{FOLDER}/table.txt"
REFUSED = "refused"
# Who writes: process 0, or each process, which then also reads.
WRITERS = {"p0": False, "all": True}

# last: the number of the last reader; most: the greatest value; bits, words: the first page's;
# are_alike: whether all processes write and read
Row = collections.namedtuple(
    "Row", "name tower last most bits words are_alike", defaults=[None] * 5
)


def values(column):
    """Returns the values of a column: `1 0*3` is 1 and three times 0, and `4 of 1 0*3` is that four
    times."""
    times, _, part = column.rpartition(" of ")
    found = []
    for it in part.split():
        value, _, count = it.partition("*")
        found += [value] * int(count or 1)
    return found * int(times or 1)


def row_of(line):
    name, tower, *columns = (it.strip() for it in line.split("|"))
    if columns == [REFUSED]:
        return Row(name, tower)
    last, most, bits, words, writers = columns
    return Row(
        name,
        tower,
        int(last.lstrip("p")),
        int(most),
        "".join(values(bits)),
        " ".join(values(words)),
        WRITERS[writers],
    )


def rows(table):
    """Returns the rows of a table, which is given as text."""
    return [row_of(it) for it in table.splitlines() if it and not it.startswith("#")]


def steps_of(row):
    """Returns the steps that are inserted at the front, each with whether the tower has it."""
    last, most = row.last, row.most
    return [
        (f"w 0 {most}", True),
        (f"w 0 {most + 1}", False),
        (f"r {last}", True),
        (f"r {last + 1}", False),
        ("w 1 0", row.are_alike),
        ("r 0", row.are_alike),
        (f"g {last} 1", True),
        (f"g {last + 1} 0", False),
    ]


def expected_of(row):
    lines = [
        "0: state main 0 of 0",
        *(f"  p{it} idle" for it in range(row.last + 1)),
        f"  bits {row.bits}",
        f"  words {row.words}",
    ]
    edits = 0
    for _, is_step in steps_of(row):
        edits += is_step
        lines.append(f"0: edit {edits}" if is_step else "0: refused 30 BadStep")
    return lines


def files_of(row):
    """Returns the text of each file of a row, by its kind."""
    script, tower = ["0 state main 0"], ["tower 1", row.tower]
    if row.last is None:
        texts = {
            "script": script,
            "tower": tower,
            "expected": [],
            "status": ["1"],
            "errors": ["towerbench: file line 2: 15 BadSize"],
        }
    else:
        script += [f"0 insert main 0 {step}" for step, _ in steps_of(row)]
        texts = {"script": script, "tower": tower, "expected": expected_of(row)}
    return {kind: "".join(f"{line}\n" for line in lines) for kind, lines in texts.items()}


@functools.lru_cache(None)
def files():
    """Returns the texts of the files of each row of the table, by the row's path and their
    kinds."""
    with open(TABLE, encoding="ascii") as table:
        return {f"{FOLDER}/{it.name}": files_of(it) for it in rows(table.read())}
