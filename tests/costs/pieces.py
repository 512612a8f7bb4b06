"""Runs of the program, piece by piece of a script: what each costs, and resident memory."""
import glob
import os
import re
import subprocess

from costs import runs

# The last line of a piece. No branch is so long, so that its answer is one line.
LAST = "0 state main 99999999\n"
# How many lines are written before their answers are read.
MOST_LINES = 1_000
# The lines of a page of the state after its first one: two processes, the bits and the words.
STATE_LINES = 4


def run_by_pieces(command, pieces):
    """Runs a program, and yields the id of its process after its opening and after each of these
    pieces."""
    how = {
        "stdin": subprocess.PIPE,
        "stdout": subprocess.PIPE,
        "stderr": subprocess.DEVNULL,
        "text": True,
    }
    with subprocess.Popen(command, **how) as program:
        for piece in ["", *pieces]:
            lines = piece.splitlines(True)
            # The program waits for its reader once its answers fill a pipe
            for first in range(0, len(lines) or 1, MOST_LINES):
                part = lines[first : first + MOST_LINES]
                is_last = first + MOST_LINES >= len(lines)
                program.stdin.write("".join(part) + (LAST if is_last else ""))
                program.stdin.flush()
                states = sum(" state " in it for it in part)
                for _ in range(len(part) + is_last + STATE_LINES * states):
                    program.stdout.readline()
            yield program.pid
        program.stdin.close()


def counted_instructions(out):
    """Returns the instructions in callgrind's files named after `out`, which it removes."""
    total = 0
    for path in glob.glob(f"{out}.*"):
        with open(path) as file:
            total += int(re.search(r"^totals: (\d+)", file.read(), re.M).group(1))
        os.remove(path)
    return total


def costs_of(words, pieces, scratch):
    """Returns what the opening costs and what each of these pieces does, less an empty piece."""
    out = f"{scratch}/callgrind"
    tool = ["valgrind", "--tool=callgrind", f"--callgrind-out-file={out}", "--dump-before=write"]
    command = [*tool, runs.PROGRAM, *words]
    opening, empty, *taken = (
        counted_instructions(out) for _ in run_by_pieces(command, ["", *pieces])
    )
    counted_instructions(out)
    return [it - empty for it in (opening, *taken)]


def most_resident(process):
    """Returns the most bytes that a process has had resident."""
    with open(f"/proc/{process}/status", encoding="ascii") as file:
        return int(re.search(r"^VmHWM:\s*(\d+) kB", file.read(), re.M).group(1)) * 1024


def residents(words, pieces):
    """Returns the most bytes that were resident by the opening, and by each of these pieces."""
    return [most_resident(it) for it in run_by_pieces([runs.PROGRAM, *words], pieces)]
