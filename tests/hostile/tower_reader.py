"""A second reader of tower files and bench files, written from the documents alone, to hold the
program's own to.

It goes over a file once for each kind of fault, in the order in which the first one is reported,
and knows the pages of a tower on which no step was made.
"""
import collections
import re

NUMBERS = {
    "NotAscii": 10,
    "BadHeader": 11,
    "UnknownTower": 12,
    "BadField": 13,
    "BadStep": 14,
    "BadSize": 15,
    "BadBranch": 16,
    "Tangled": 17,
}
BENCH = b"bench 1\n"
HEADERS = {"tower 1\n": 1, "tower 2\n": 2}
# How many numbers the second line has after the tower's name.
FIELDS = {"safe": 1, "copies": 2, "regular": 2, "unary": 3, "stamped": 2, "matrix": 4}
NUMBER = re.compile(r"0|[1-9][0-9]{0,8}")
NAME = re.compile(r"[a-z][a-z0-9]{0,15}")
LINE = re.compile(r"[^\n]*\n|[^\n]+")
# The limits of towers: readers, values or codes of a number, and bits.
MOST_READERS, MOST_VALUES, MOST_BITS = 4, 512, 4096
# How many numbers a step has after its letter.
STEPS = {"w": 2, "r": 1, "g": 2, "x": 1}

# readers: how many there are after process 0, or None if each process reads and writes.
Roles = collections.namedtuple("Roles", "processes values readers")
Tower = collections.namedtuple("Tower", "version kind numbers steps")
# shared: how many of its steps are in earlier branches; steps: all of them
Branch = collections.namedtuple("Branch", "name shared steps")


class Fault(Exception):
    """The first fault of a file."""

    def __init__(self, name, line):
        super().__init__(name, line)
        self.line = f"towerbench: file line {line}: {NUMBERS[name]} {name}\n".encode()


def read(data):
    """Returns the tower and the steps that a file's bytes spell, or raises their first fault."""
    refuse_non_ascii(data)
    lines = LINE.findall(data.decode("ascii"))
    header, second = (lines[i] if i < len(lines) else "" for i in (0, 1))
    if header not in HEADERS:
        raise Fault("BadHeader", 1)
    kind, numbers = tower_of(second)
    tower = Tower(HEADERS[header], kind, numbers, [line[:-1] for line in lines[2:]])
    for place, line in enumerate(lines[2:], 3):
        if not (line.endswith("\n") and fits(tower, line[:-1].split(" "))):
            raise Fault("BadStep", place)
    return tower


def read_bench(data):
    """Returns the branches that a bench file's bytes spell, or raises their first fault."""
    refuse_non_ascii(data)
    lines = LINE.findall(data.decode("ascii"))
    kind, numbers = tower_of(lines[1] if len(lines) > 1 else "")
    tower, branches = Tower(2, kind, numbers, []), []
    for place, line in enumerate(lines[2:], 3):
        words, is_whole = line.rstrip("\n").split(" "), line.endswith("\n")
        if words[0] == "branch":
            branches.append(branch_of(words[1:] if is_whole else [], branches, place))
        elif not branches:
            raise Fault("BadBranch", place)
        elif is_whole and fits(tower, words):
            branches[-1].steps.append(line[:-1])
        else:
            raise Fault("BadStep", place)
    if not branches:
        raise Fault("BadBranch", 3)
    return branches


def branch_of(words, branches, place):
    """Returns the branch that the words after the first of a line begin, after others."""
    is_one = len(words) == 3 and NAME.fullmatch(words[0]) and all(map(NUMBER.fullmatch, words[1:]))
    if not is_one or words[0] in [it.name for it in branches]:
        raise Fault("BadBranch", place)
    number, shared = int(words[1]), int(words[2])
    if (number, shared) == (0, 0):
        return Branch(words[0], 0, [])
    if number >= len(branches):
        raise Fault("Tangled", place)
    parent = branches[number]
    if not parent.shared < shared <= len(parent.steps):
        raise Fault("Tangled", place)
    return Branch(words[0], shared, parent.steps[:shared])


def refuse_non_ascii(data):
    """Raises the fault of the first byte that is neither printable ASCII nor a line's end."""
    for place, byte in enumerate(data):
        if byte != 0x0A and not 0x20 <= byte <= 0x7E:
            raise Fault("NotAscii", 1 + data.count(b"\n", 0, place))


def tower_of(line):
    """Returns the kind and the numbers of a tower by a file's second line."""
    kind = re.match(r"[^ \n]*", line).group()
    if kind not in FIELDS:
        raise Fault("UnknownTower", 2)
    fields = line.rstrip("\n").split(" ")[1:]
    are_numbers = all(NUMBER.fullmatch(it) for it in fields)
    if not line.endswith("\n") or len(fields) != FIELDS[kind] or not are_numbers:
        raise Fault("BadField", 2)
    numbers = [int(it) for it in fields]
    if not is_sized(kind, *numbers):
        raise Fault("BadSize", 2)
    return kind, numbers


def is_sized(kind, *numbers):
    """Returns whether the numbers of a tower are within their limits."""
    if kind == "safe":
        return numbers[0] <= 1
    if kind in ("copies", "regular"):
        return 1 <= numbers[0] <= MOST_READERS and numbers[1] <= 1
    if kind == "unary":
        values, readers, init = numbers
        return 2 <= values <= MOST_VALUES and 1 <= readers <= MOST_READERS and init < values
    if kind == "stamped":
        values, last = numbers
        codes = (last + 1) * values
        return 2 <= values <= MOST_VALUES and last < MOST_VALUES and codes <= MOST_VALUES
    count, values, tag, inner = numbers
    codes = (inner + 1) * (tag + 1) * count * values
    are_few = 2 <= count <= 4 and 2 <= values <= MOST_VALUES
    are_low = tag < MOST_VALUES and inner < MOST_VALUES
    return are_few and are_low and codes <= MOST_VALUES and count**2 * codes <= MOST_BITS


def roles_of(kind, numbers):
    """Returns who may do what at a tower."""
    if kind == "safe":
        return Roles(2, 2, 1)
    if kind in ("copies", "regular"):
        return Roles(numbers[0] + 1, 2, numbers[0])
    if kind == "unary":
        return Roles(numbers[1] + 1, numbers[0], numbers[1])
    if kind == "stamped":
        return Roles(2, numbers[0], 1)
    return Roles(numbers[0], numbers[1], None)


def fits(tower, words):
    """Returns whether a line's words are a step of the file's version that fits its tower."""
    letter, fields = words[0], words[1:]
    if STEPS.get(letter) != len(fields) or not all(NUMBER.fullmatch(it) for it in fields):
        return False
    roles, numbers = roles_of(tower.kind, tower.numbers), [int(it) for it in fields]
    process = numbers[0]
    if letter == "w":
        is_writer = process < roles.processes if roles.readers is None else process == 0
        return is_writer and numbers[1] < roles.values
    if letter == "r":
        return process < roles.processes and (roles.readers is None or process >= 1)
    if letter == "g":
        return process < roles.processes and numbers[1] <= 1
    return tower.version == 2 and process < roles.processes


def unary_memory(values, readers, init):
    """Returns the cells and the words of a unary number before any step."""
    bits = [int(i == init) for i in range(values)]
    return [bit for bit in bits for _ in range(readers)], bits


def stamped_memory(codes):
    """Returns the cells and the words of a stamped register before any step; its last two words are
    the writer's last stamp and the reader's best code."""
    cells, words = unary_memory(codes, 1, 0)
    return cells, words + [0, 0]


def memory_of(kind, numbers):
    """Returns the cells and the words of a tower before any step."""
    if kind == "safe":
        return numbers, []
    if kind in ("copies", "regular"):
        return [numbers[1]] * numbers[0], [numbers[1]] if kind == "regular" else []
    if kind == "unary":
        return unary_memory(*numbers)
    if kind == "stamped":
        return stamped_memory((numbers[1] + 1) * numbers[0])
    count, values, tag, inner = numbers
    cells, words = stamped_memory((inner + 1) * (tag + 1) * count * values)
    return cells * count**2, words * count**2


SCRIPT = b"0 state main 0\n0 steps main\n"


def pages(tower):
    """Returns what SCRIPT is answered over a tower: the state before any step, and the steps."""
    cells, words = memory_of(tower.kind, tower.numbers)
    lines = [f"0: state main 0 of {len(tower.steps)}"]
    lines += [f"  p{p} idle" for p in range(roles_of(tower.kind, tower.numbers).processes)]
    lines += ["  bits " + "".join(map(str, cells)), "  words " + (" ".join(map(str, words)) or "-")]
    lines += [f"0: steps main {len(tower.steps)}"]
    lines += [f"  {place} {step}" for place, step in enumerate(tower.steps)]
    return "".join(f"{line}\n" for line in lines).encode()


BENCH_NAMES = ("main", "a", "b", "c")
BENCH_SCRIPT = "".join(["0 branches\n"] + [f"0 steps {name}\n" for name in BENCH_NAMES]).encode()


def bench_pages(branches):
    """Returns what BENCH_SCRIPT is answered over branches."""
    made = sum(len(it.steps) - it.shared for it in branches)
    lines = [f"0: branches {len(branches)} edits 0 made {made}"]
    lines += [f"  {it.name} {len(it.steps)}" for it in branches]
    named = {it.name: it.steps for it in branches}
    for name in BENCH_NAMES:
        if name in named:
            lines.append(f"0: steps {name} {len(named[name])}")
            lines += [f"  {place} {step}" for place, step in enumerate(named[name])]
        else:
            lines.append("0: refused 20 NoBranch")
    return "".join(f"{line}\n" for line in lines).encode()
