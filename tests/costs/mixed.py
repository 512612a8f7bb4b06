"""What looks cost on whole operations in a mixed order, and what a command costs that arrives
alone."""
import subprocess

from costs import runs
from costs.runs import CALLGRIND, instructions, reported_instructions, tower_file

LENGTHS = (10_000, 100_000, 1_000_000)
COMMANDS = 200


def numbers(seed=1):
    """The numbers of a linear congruential generator, the same in each run."""
    while True:
        seed = (seed * 6364136223846793005 + 1442695040888963407) % 2**64
        yield seed >> 33


def mixed_operations(count):
    """Steps of a safe bit: writes and reads that return, of which one pair in five overlaps."""
    drawn, steps = numbers(), []
    while len(steps) < count:
        write = [f"w 0 {next(drawn) % 2}", "g 0 0", "g 0 0"]
        read = ["r 1", "g 1 0", f"g 1 {next(drawn) % 2}"]
        if next(drawn) % 5:
            steps += write + read if next(drawn) % 2 else read + write
        else:
            while write or read:
                from_write = write and (not read or next(drawn) % 2)
                steps.append((write if from_write else read).pop(0))
    return steps[:count]


def mixed(scratch):
    print(
        "instructions a step of safe 0 in mixed operations, at 10,000, 100,000 and 1,000,000 steps"
    )
    rows = {
        "a first page at the end": [],
        "a fill": [],
        "a replacement in the middle, and the page, in all": [],
    }
    for count in LENGTHS:
        path = tower_file("safe 0", mixed_operations(count), count, scratch)
        page, edit = f"0 state main {count}\n", f"0 replace main {count // 2} g 0 1\n"

        def cost(script):
            return instructions([path, "--cells", "2000000"], script, scratch)

        opened, looked = cost(""), cost(page)
        figures = (
            (looked - opened) / count,
            (cost("0 fill main\n") - opened) / count,
            cost(page + edit + page) - looked,
        )
        for row, figure in zip(rows.values(), figures):
            row.append(figure)
    for name, figures in rows.items():
        print(f"  {name:52}" + "".join(f"{it:11.1f}" for it in figures))
    commands_alone(scratch)


def commands_alone(scratch):
    """The commands once all in one read, and once each in a read of its own, after the answer to
    the one before."""
    lines = ["0 join\n", *["0 go main 0\n"] * COMMANDS]
    together = instructions([], "".join(lines), scratch)
    with subprocess.Popen(
        [*CALLGRIND, runs.PROGRAM],
        stdin=subprocess.PIPE,
        stdout=subprocess.PIPE,
        stderr=subprocess.PIPE,
        text=True,
    ) as program:
        for line in lines:
            program.stdin.write(line)
            program.stdin.flush()
            program.stdout.readline()
        program.stdin.close()
        apart = reported_instructions(program.stderr.read())
    print(
        f"instructions of a command that arrives alone, more than one among others: {(apart - together) / len(lines):.0f}"
    )
