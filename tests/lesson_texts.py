"""What each text under lessons/ quotes of the scripts and the outputs next to it.

A block that begins with ```transcript NAME has lines that are typed, and below each some lines of
its answer; one that begins with ```timeline NAME is looked at by tests/timelines.py.
- The lines typed in all blocks of a NAME are the commands of NAME.script, in order, and each script
  has its blocks. `0 insert main 4.. r 1, 3 * g 1 0` is short for an insert of each of these four
  steps, at places 4 to 7.
- The lines below one of them are in that command's answer in NAME.expected, in order.
- The text says how the program is started on NAME.tower, or on NAME.bench, also with `--save`.
- A line of an answer that the text names, as `4 p1 return 0` does, is one of those quoted in its
  blocks. A command that it names, as `0 verdict main 6` does, is in one of its scripts.
- A lesson asks first: a question, a time line, and exercises, the last of them for a schedule of
  the reader's own, whose solution is your-own.script. All this fits a screen. The answers, with all
  transcripts, are folded away after it.
- lessons/README.md links to each lesson, in order.
Running the scripts shows that the outputs are the program's (tests/run).
"""
import pathlib
import re

TOP = pathlib.Path(__file__).resolve().parent.parent
LESSONS = TOP / "lessons"
INDEX = LESSONS / "README.md"
# How many lines and columns a screen has
SCREEN = (48, 120)
FENCE = "```"
# an answer's line where it is named in a text: an event or a verdict, a process, a cell, bits,
# words, or a first line
NAMED = re.compile(
    r"`(\d+ p\d [^`]*|p\d [^`]*|\d+ [01] [01-] [rh-]|bits \d[^`]*|words [^`]*|\d+: [^`]*)`"
)
# the names of commands, and a command where it is named in a text
COMMANDS = (
    "insert remove replace fork detach drop join leave go break clear seek back "
    "state process pending bits history verdict steps branches cursor fill"
)
COMMAND = re.compile(rf"`(\d+ (?:{COMMANDS.replace(' ', '|')})\b[^`]*)`")
# a line that is short for inserts, and in it how often a step is inserted
SHORT, TIMES = re.compile(r"(\d+ insert \S+ )(\d+)\.\. (.+)"), re.compile(r"(?:(\d+) \* )?(.+)")
EXERCISE = re.compile(r"^\d\. \*\*(.*?)[.?]\*\*", re.M)
QUESTION, OF_YOUR_OWN, FEWEST_EXERCISES = "**Question.** ", "A schedule of your own", 3
FOLD, END_OF_FOLD = "<details>\n<summary>Answers, and why</summary>\n", "\n</details>\n"
LINK = re.compile(r"\]\((\d\d-[a-z-]+)/(?:README\.md)?\)")


def is_command(line):
    """Returns whether a line is typed: an answer's first line has a colon after the number."""
    return re.match(r"\d+ ", line) is not None


def written_out(line):
    """Returns the lines that a line of a block is short for."""
    short = SHORT.fullmatch(line)
    if not short:
        return [line]
    head, first, listed = short.groups()
    parts = [TIMES.fullmatch(it).groups() for it in listed.split(", ")]
    steps = [step for count, step in parts for _ in range(int(count or 1))]
    return [f"{head}{place} {step}" for place, step in enumerate(steps, int(first))]


def text_and_marked_blocks(path):
    """Returns a text without its blocks, and of each block its mark and its lines."""
    text, blocks, is_inside = [], [], False
    for line in path.read_text(encoding="ascii").splitlines():
        if line.startswith(FENCE):
            is_inside = not is_inside
            if is_inside:
                blocks.append((line[len(FENCE) :], []))
        elif is_inside:
            blocks[-1][1].append(line)
        else:
            text.append(line)
    return "\n".join(text), blocks


def answers(expected):
    """Returns the lines of each answer: its first one has no spaces before it, all others two."""
    found = []
    for line in expected.read_text(encoding="ascii").splitlines():
        if line.startswith("  ") and found:
            found[-1].append(line)
        else:
            found.append([line])
    return found


def transcript_faults(path, name, lines):
    """Yields what is wrong with the lines of all transcripts of a name, which are written out."""
    script = path.parent / f"{name}.script"
    if not script.exists():
        yield f"there is no {script.name}"
        return
    commands = [it for it in script.read_text(encoding="ascii").splitlines() if is_command(it)]
    typed = [it for it in lines if is_command(it)]
    if typed != commands:
        yield f"{name}: the typed lines aren't those of {script.name}"
        return
    rest, command, answer = iter(answers(script.with_suffix(".expected"))), "", iter(())
    for line in lines:
        if is_command(line):
            command, answer = line, iter(next(rest, ()))
        # Each quoted line is looked for after the one before it
        elif line not in answer:
            yield f"{name}: `{command}` doesn't answer this here: {line}"


def quote_faults(path):
    """Yields what is wrong with what a text quotes and names of its scripts and outputs."""
    text, blocks = text_and_marked_blocks(path)
    transcripts = {it.stem: [] for it in path.parent.glob("*.script")}
    for mark, lines in blocks:
        kind, _, name = mark.partition(" ")
        if kind == "transcript":
            transcripts.setdefault(name, []).extend(lines)
        elif kind != "timeline":
            yield f"a block is marked `{mark}`, and its lines aren't looked at"
    for name, lines in sorted(transcripts.items()):
        file = re.escape(f"{path.parent.relative_to(TOP)}/{name}.")
        if not re.search(rf"`\./towerbench {file}(tower|bench)( --save [^`]*)?`", text):
            yield f"it doesn't say how to start {name}.tower or {name}.bench"
        yield from transcript_faults(path, name, [it for line in lines for it in written_out(line)])
    shown = [
        it for lines in transcripts.values() for line in lines for it in {line, *written_out(line)}
    ]
    quoted = {line.strip() for line in shown if not is_command(line)}
    for named in NAMED.findall(text):
        if not any(it == named or it.startswith(named + " ") for it in quoted):
            yield f"no block has the line: {named}"
    for command in COMMAND.findall(text):
        if command not in shown:
            yield f"no script has the command: {command}"


def lesson_faults(path):
    """Yields what is wrong with how a lesson asks before it answers."""
    text = path.read_text(encoding="ascii")
    asked, fold, answered = text.partition(FOLD)
    if not fold or not answered.endswith(END_OF_FOLD):
        yield "its answers aren't folded away at its end"
    yield from (f"it lacks {it}" for it in (QUESTION, f"{FENCE}timeline ") if it not in asked)
    if f"{FENCE}transcript " in asked:
        yield "it answers before it has asked"
    exercises = EXERCISE.findall(asked)
    if len(exercises) < FEWEST_EXERCISES or exercises[-1] != OF_YOUR_OWN:
        yield f"its exercises are {exercises}"
    if not (path.parent / "your-own.script").exists():
        yield "its own exercise has no solution"
    if len(asked.splitlines()) > SCREEN[0]:
        yield f"it asks in {len(asked.splitlines())} lines, more than {SCREEN[0]}"
    for line in text.splitlines():
        if len(line) > SCREEN[1]:
            yield f"longer than {SCREEN[1]} characters: {line}"


def lessons():
    """Returns the names of the lessons, in order."""
    return sorted(it.name for it in LESSONS.iterdir() if it.is_dir())


def index_faults():
    """Yields what is wrong with the text that lists the lessons."""
    if LINK.findall(INDEX.read_text(encoding="ascii")) != lessons():
        yield f"its links aren't, in order: {' '.join(lessons())}"


def paths():
    """Returns the paths of the texts, from the top."""
    found = [INDEX, *(LESSONS / it / "README.md" for it in lessons())]
    return [str(it.relative_to(TOP)) for it in found]


def fault_of(name):
    """Returns what is wrong with a text, whose path is given from the top, or nothing."""
    path = TOP / name
    others = index_faults() if path == INDEX else lesson_faults(path)
    return "; ".join([*quote_faults(path), *others])
