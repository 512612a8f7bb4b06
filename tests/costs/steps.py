"""What a step costs, replayed and stored, and replayed alone."""
import subprocess

from costs import runs
from costs.runs import TOWERS, instructions, tower_file, varied

# How many pairs of operations, and the most actions that one of them has.
OPERATIONS = {
    "safe 0": (200, 2),
    "copies 4 0": (80, 8),
    "regular 4 0": (80, 8),
    "unary 8 2 0": (100, 10),
    "stamped 4 3": (50, 34),
    "matrix 2 2 1 3": (20, 110),
}


def steps(scratch):
    print(
        "instructions a step: replayed and stored, of a first page at 3,000, 6,000 and 12,000 steps; and replayed alone"
    )
    for line, cycle in TOWERS.items():
        figures = []
        for count in (3000, 6000, 12000):
            path = tower_file(line, cycle, count, scratch)
            page = f"0 state main {count}\n"
            figures.append(
                (instructions([path], page, scratch) - instructions([path], "", scratch)) / count
            )
        path = tower_file(line, varied(cycle, count), count, scratch)
        # No look is at a run of one of the 32 looks before it, of which the lens may keep places
        rounds = (
            "".join(f"0 state main {128 * k + place}\n" for k in range(80)) * 3
            for place in (11, 111)
        )
        near, far = (instructions([path], page + looks, scratch) for looks in rounds)
        figures.append((far - near) / (3 * 80 * 100))
        print(f"  {line:16}" + "".join(f"{it:9.1f}" for it in figures))


def operations(scratch):
    print(
        "instructions a step of whole operations, one pair in five overlapping: replayed alone, within the first run, one in the middle, "
        "and the last"
    )
    for line in TOWERS:
        path = whole_operations(line, scratch)
        count = sum(1 for _ in open(path)) - 2
        figures = []
        for first in (0, count // 256 * 128, (count // 128 - 1) * 128):
            page, other = f"0 state main {first + 11}\n", 0 if first else 128
            # Between two looks the lens is filled with places of another run, no two of them
            # neighbours
            fill = "".join(f"0 state main {other + place}\n" for place in range(2, 68, 2))
            # Pages differ in length; the sum over 27 neighbouring places hardly does
            rounds = (
                "".join(f"0 state main {first + place + ahead}\n{fill}" for place in range(1, 28))
                for ahead in (0, 100)
            )
            near, far = (instructions([path], page + looks, scratch) for looks in rounds)
            figures.append((far - near) / (27 * 100))
        print(f"  {line:16}" + "".join(f"{it:9.1f}" for it in figures) + f"   of {count} steps")


def whole_operations(line, scratch):
    """A tower's file in which no step is void: each operation is given more actions than it has,
    and the void ones are left out."""
    pairs, actions = OPERATIONS[line]
    given = []
    for pair in range(pairs):
        invoked = "r 0" if line.startswith("matrix") else f"w 0 {pair % 2}"
        if pair % 5 == 0:
            given += [invoked, "r 1"] + ["g 0 0", "g 1 0"] * actions
        else:
            given += [invoked] + ["g 0 0"] * actions + ["r 1"] + ["g 1 0"] * actions
    path = tower_file(line, given, len(given), scratch)
    with open(f"{scratch}/script", "w") as file:
        file.write(f"0 history main {len(given)}\n")
    with open(f"{scratch}/script") as script_file:
        page = subprocess.run(
            [runs.PROGRAM, path], stdin=script_file, capture_output=True, text=True, check=True
        ).stdout
    void = {int(it.split()[0]) for it in page.splitlines() if " void " in it}
    kept = [step for i, step in enumerate(given) if i not in void]
    return tower_file(line, kept, len(kept), scratch)
