"""Scripts and files that are random changes of those of the cases."""
import collections
import random

import cases

# What is longer only takes time.
MOST_BYTES = 20000
NUMBERS = (
    "0 1 2 3 5 17 255 256 65535 65536 4294967295 4294967296 9223372036854775807 18446744073709551615 18446744073709551616"
    " -1 main w r"
).encode().split(b" ") + [b""]
COUNTS_OF_CHANGES = (0, 1, 1, 2, 4, 8)
# How often there is no file, a changed one, a second script and a save.
NO_FILE, CHANGED_FILE, TWO_SCRIPTS, SAVED = 0.25, 0.4, 0.3, 0.3

Input = collections.namedtuple("Input", "tower script is_saved")


def changed_line(line, chance):
    """Returns a line with another word or another byte."""
    if chance.random() < 0.6:
        words = line.split(b" ")
        words[chance.randrange(len(words))] = chance.choice([*NUMBERS, chance.choice(words)])
        return b" ".join(words)
    at = chance.randrange(len(line))
    return line[:at] + bytes([chance.randrange(256)]) + line[at + 1 :]


def changed(text, pool, chance):
    """Returns a text with some lines more, fewer or changed."""
    lines = text.split(b"\n")
    for _ in range(chance.choice(COUNTS_OF_CHANGES)):
        kind, at = chance.random(), chance.randrange(len(lines) + 1)
        if kind < 0.35:
            lines.insert(at, chance.choice(pool))
        elif at < len(lines) and kind < 0.5:
            del lines[at]
        elif at < len(lines) and lines[at]:
            lines[at] = changed_line(lines[at], chance)
    return b"\n".join(lines)


def texts(names, kinds):
    found = [cases.bytes_of_file(name, kind) for name in names for kind in kinds]
    return [it for it in found if it is not None and len(it) < MOST_BYTES]


def inputs_of(names, seed, count):
    """Returns `count` inputs, the same ones for the same cases and seed."""
    chance = random.Random(seed)
    scripts, towers = texts(names, ["script"]), texts(names, ["tower", "bench"])
    lines, file_lines = (
        sorted({line for it in found for line in it.split(b"\n")}) for found in (scripts, towers)
    )
    found = []
    for _ in range(count):
        tower = None if chance.random() < NO_FILE else chance.choice(towers)
        if tower is not None and chance.random() < CHANGED_FILE:
            tower = changed(tower, file_lines, chance)
        script = changed(chance.choice(scripts), lines, chance)
        if chance.random() < TWO_SCRIPTS:
            script += changed(chance.choice(scripts), lines, chance)
        found.append(Input(tower, script, chance.random() < SAVED))
    return found
