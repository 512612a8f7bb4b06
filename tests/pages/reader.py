"""The program's pages at the end of a script, asked of the native program and read with none of the
page's own code."""
import re
import tempfile

import cases

# a session that no script uses
LOOK = 888888888
NO_TOWER = "tower 2\nsafe 0\n"
# what a page of bits says of a bit that is neither written nor read
QUIET = "-"


def program_answers(program, tower, script, *words):
    """Returns what the native program answers, as text."""
    with tempfile.NamedTemporaryFile() as file:
        file.write(tower.encode())
        file.flush()
        ran = cases.run(program, [*words, file.name], script.encode())
    if ran.status != 0:
        raise ValueError(f"the program ended with status {ran.status}: {ran.errors.decode()}")
    return ran.output.decode()


class Reader:
    """What the pages have at the end of a script."""

    def __init__(self, program, tower, script):
        self.program, self.tower, self.script = program, tower, script
        self.lengths = {
            line.split()[0]: int(line.split()[1]) for line in self.ask("branches")["branches"]
        }

    def ask(self, *looks):
        """Returns the lines of each page, by its look."""
        asked = "".join(f"{LOOK} {look}\n" for look in looks)
        text = program_answers(self.program, self.tower, f"{self.script}\n{asked}")
        answers = re.findall(rf"^{LOOK}: (.*)\n((?:  .*\n)*)", text, re.M)
        named = {
            head.split(" of ")[0]: [line[2:] for line in lines.splitlines()]
            for head, lines in answers
        }
        return {
            "branches" if head.startswith("branches") else head: it for head, it in named.items()
        }

    def branch(self, name):
        """Returns all pages of a branch, and how long it is."""
        length = self.lengths[name]
        looks = [
            f"{kind} {name} {at}"
            for kind in ("state", "pending", "bits")
            for at in range(length + 1)
        ]
        return (
            self.ask(
                *looks, f"history {name} {length}", f"verdict {name} {length}", f"steps {name}"
            ),
            length,
        )


def bit_actions(found, name, first, last):
    """Returns each bit action between two places, as two pages of bits say it, one after the
    other."""
    actions = []
    for at in range(first, last):
        before, after = (found[f"bits {name} {it}"] for it in (at, at + 1))
        for old, new in zip(before, after):
            if old.startswith("words") or old == new:
                continue
            (bit, _, write, read), (_, _, wrote, has_read) = old.split(), new.split()
            if write != wrote:
                actions.append(f"{'ws' if write == QUIET else 'we'} {bit}")
            if (read == QUIET) != (has_read == QUIET):
                actions.append(f"{'rs' if read == QUIET else 're'} {bit}")
    return sorted(actions)


def overlapped(history):
    """Returns for each read that returned the steps that invoke the writes that it overlaps."""
    live, done = {}, []
    for line in history:
        if line == "none":
            continue
        step, process, kind, *rest = line.split()
        if kind == "invoke":
            live[process] = [int(step), None, rest[0], False]
            done.append(live[process])
        elif kind in ("return", "refused"):
            live[process][1], live.pop(process)[3] = int(step), kind == "refused"
    writes = [it for it in done if it[2] == "write" and not it[3]]
    return {
        begun: [it[0] for it in writes if it[0] < end and (it[1] is None or it[1] > begun)]
        for begun, end, kind, is_refused in done
        if kind == "read" and end is not None and not is_refused
    }
