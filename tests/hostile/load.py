"""The program is given as much as its limits allow, and one more; and how much memory that
takes."""
import re

from watched import Stage, Watched

# Generous: a stage takes seconds to a few minutes.
SECONDS = 3600
# Fewer than the most cells, 2^28, which take more memory than most machines have
MOST_CELLS, MOST_LOGGED, MOST_BRANCHES = 2**24, 2**20, 1024
HEAD = b"tower 1\nsafe 0\n"
STEP = b"r 1\n"
# A file has this many steps, so that the four inserts of a row take the last cells.
FILE_STEPS = MOST_CELLS - 4
LINES_AT_ONCE = 2**12
FULL = "0: refused 24 Full"
CELLS = ["--cells", str(MOST_CELLS)]
# The greatest row takes 2 GB.
MEMORY_NEEDED = 4 * 10**9
# The row and the measure of each stage that was run.
MEASURED = []


def talk(*pairs):
    """Returns the script and the answers of some lines, which are given without their ends."""
    script = "".join(f"{line}\n" for line, _ in pairs).encode()
    return script, ["".join(f"{answer}\n" for _, answer in pairs).encode()]


def stage(name, *pairs, of=None, count=None):
    """Returns a stage of these lines and their answers."""
    return Stage(name, *talk(*pairs), of, count)


def file_of(scratch, steps):
    """Makes a file of a safe bit and that many reads' invocations, and returns its path."""
    path = f"{scratch}/steps-{steps}"
    with open(path, "wb") as file:
        file.write(HEAD)
        for first in range(0, steps, LINES_AT_ONCE):
            file.write(STEP * min(LINES_AT_ONCE, steps - first))
    return path


def branches(edits, made, *pairs):
    """Returns the page of branches, and what asks for it."""
    lines = [f"0: branches {len(pairs)} edits {edits} made {made}"]
    return "0 branches", "\n".join(lines + [f"  {name} {length}" for name, length in pairs])


def opened(steps=0, of=None):
    """Returns the stage that a run begins with."""
    page = branches(0, steps, ("main", steps))
    return stage(f"opened, with {steps} steps", page, of=of, count=steps)


def edits(*lines, first=1):
    """Returns lines of edits that are made, with their answers."""
    return [(line, f"0: edit {place}") for place, line in enumerate(lines, first)]


def refused(answer, *lines):
    """Returns lines that are all refused, with that answer."""
    return [(line, answer) for line in lines]


# Commands that are logged, and what each is answered, over and over: refused ones too.
LOGGED = (
    ("0 join", "0: joined"),
    ("0 break void", "0: break set"),
    ("0 seek", "0: no hit"),
    ("0 clear void", "0: break cleared"),
    ("0 back", "0: no hit"),
    ("0 go main 0", "0: at main 0"),
    ("5 leave", "5: refused 33 NoSession"),
    ("0 drop main", "0: refused 25 LastBranch"),
)


def full_log(counts, scratch):
    """2^20 logged commands, and more: each is refused first of all, and changes nothing."""
    script, answers = talk(*LOGGED)
    times = MOST_LOGGED // len(LOGGED)
    name = f"{MOST_LOGGED} logged commands"
    logged = Stage(name, script * times, answers * times, "command", MOST_LOGGED)
    more = [
        "0 join",
        "16 join",
        "0 @9 drop main",
        "0 insert main 0 r 1",
        "0 fork main 0 a",
        "0 insert zed 0 w 1 7",
        "0 leave",
        "3 seek",
    ]
    last = stage(
        "one more, and pages",
        *[(it, f"{it.split()[0]}: refused 35 LogFull") for it in more],
        ("0 cursor", "0: cursor main 0 breaks 0"),
        ("0 fill main", "0: filled"),
        branches(0, 0, ("main", 0)),
    )
    drive(counts, "the log", [], [opened(), logged, last])


def cells_by_inserts(counts, scratch):
    """2^24 cells, of which a file brings most and inserts the others, and more."""
    count = MOST_CELLS // 64
    steps = MOST_CELLS - count
    made = [f"0: edit {i + 1}\n" for i in range(count)]
    pieces = ("".join(made[i : i + LINES_AT_ONCE]).encode() for i in range(0, count, LINES_AT_ONCE))
    line = b"0 insert main 0 r 1\n"
    inserted = Stage(f"{count} inserts at its beginning", line * count, pieces, "cell", count)
    last = stage(
        "one more, also once some are gone",
        *refused(FULL, "0 insert main 0 r 1", f"0 insert main {MOST_CELLS} r 1", "0 detach main"),
        branches(count, MOST_CELLS, ("main", MOST_CELLS)),
        *edits(f"0 replace main {MOST_CELLS - 1} r 1", "0 remove main 0", first=count + 1),
        *refused(FULL, "0 insert main 0 r 1"),
        *edits("0 fork main 0 a", "0 detach a", first=count + 3),
        *refused(FULL, "0 insert a 0 r 1"),
        branches(count + 4, MOST_CELLS, ("main", MOST_CELLS - 1), ("a", 0)),
    )
    words = [file_of(scratch, steps), *CELLS]
    drive(counts, "cells by inserts", words, [opened(steps, of="cell"), inserted, last])


def cells_by_detach(counts, scratch):
    """Half as many cells, and as many again by a detach, and more; and a detach of one too many."""
    half = MOST_CELLS // 2
    words = [file_of(scratch, half), *CELLS]
    made = edits(f"0 fork main {half} a", "0 detach a")
    detached = stage("a fork of them, detached", *made, of="cell", count=half)
    last = stage(
        "one more",
        *refused(FULL, "0 insert a 0 r 1", "0 detach main"),
        branches(2, MOST_CELLS, ("main", half), ("a", half)),
        *edits("0 drop main", first=3),
        *refused(FULL, "0 detach a"),
        branches(3, MOST_CELLS, ("a", half)),
    )
    drive(counts, "cells by detach", words, [opened(half), detached, last])
    too_many = stage(
        "a detach that would make one cell too many",
        *edits("0 fork main 0 b", "0 insert b 0 w 0 1"),
        *refused(FULL, "0 detach main"),
        *edits("0 detach b", first=3),
        branches(3, half + 2, ("main", half), ("b", 1)),
    )
    drive(counts, "cells by detach", words, [opened(half), too_many])


def forks(length):
    """Returns a stage of as many forks of that many steps as there may be, and the branches
    then."""
    names = [f"b{i}" for i in range(MOST_BRANCHES - 1)]
    made = edits(*[f"0 fork main {length} {name}" for name in names])
    name = f"{len(names)} forks of {length} steps"
    return stage(name, *made, of="branch", count=len(names)), ["main", *names]


def many_branches(counts, scratch):
    """1,024 branches that share their steps, and more: refused, and granted once one is dropped."""
    too_many = "0: refused 26 TooManyBranches"
    for steps in (0, MOST_CELLS // 16):
        forked, names = forks(steps)
        before = MOST_BRANCHES - 1
        # An insert at the end of a branch changes no other branch
        grown = [(it, steps + (steps > 0 or it == "main")) for it in [*names, "c"] if it != "b7"]
        last = stage(
            "one more",
            (f"0 fork main {steps} c", too_many),
            (f"0 fork b7 {steps} b7", "0: refused 21 NameTaken"),
            branches(before, steps, *[(it, steps) for it in names]),
            *edits("0 drop b7", f"0 fork b9 {steps} c", first=before + 1),
            (f"0 fork b9 {steps} d", too_many),
            *edits("0 insert main 0 r 1", first=before + 3),
            branches(before + 3, steps + 1, *grown),
        )
        words = [file_of(scratch, steps), *CELLS, "--branches", str(MOST_BRANCHES)]
        row = f"branches that share {steps} steps"
        drive(counts, row, words, [opened(steps), forked, last])


def state(name, length, writer, reader):
    lines = (f"  p0 {writer}", f"  p1 {reader}", "  bits 0", "  words -")
    return page_of("state", name, length, *lines)


def page_of(kind, name, length, *lines):
    """Returns a page at the end of a branch, and what asks for it."""
    first = f"0: {kind} {name} {length} of {length}"
    return f"0 {kind} {name} {length}", "\n".join([first, *lines])


def branches_apart(counts, scratch):
    """1,024 branches that share nothing, of all cells, and a fill of them by four workers."""
    steps = MOST_CELLS // MOST_BRANCHES
    forked, names = forks(steps)
    before = MOST_BRANCHES - 1
    made = edits(*[f"0 detach {name}" for name in names[1:]], first=before + 1)
    name = f"each of them detached, of {steps} cells"
    detached = stage(name, *made, of="branch", count=before)
    last = stage(
        "one more",
        *refused(FULL, "0 insert b0 3 r 1"),
        branches(2 * before, MOST_CELLS, *[(it, steps) for it in names]),
    )
    fill = ("0 fill main", "0: filled")
    filled = stage("a fill by 4 workers", fill, of="branch", count=MOST_BRANCHES)
    shown = [state(name, steps, "idle", "read next rs 0") for name in names]
    pages = stage("a page of each", *shown, of="branch", count=MOST_BRANCHES)
    words = [file_of(scratch, steps), *CELLS, "--branches", str(MOST_BRANCHES), "--workers", "4"]
    stages = [opened(steps), forked, detached, last, filled, pages]
    drive(counts, "branches apart", words, stages)


def steps_page(name, count, first, last):
    """Yields the page of steps that are reads' invocations but for the first and the last."""
    yield f"0: steps {name} {count}\n  0 {first}\n".encode()
    for begin in range(1, count - 1, LINES_AT_ONCE):
        end = min(begin + LINES_AT_ONCE, count - 1)
        yield "".join(f"  {i} r 1\n" for i in range(begin, end)).encode()
    yield f"  {count - 1} {last}\n".encode()


def long_branch(counts, scratch):
    """A branch of all cells that there may be, forked, edited at both ends and shown."""
    # After the file's steps and one insert at 0
    tail = FILE_STEPS + 1
    main, a = tail + 1, tail + 2
    edited = stage(
        "a fork, and edits at both ends",
        *edits(
            "0 insert main 0 w 0 1",
            f"0 fork main {tail} a",
            f"0 insert a {tail} g 1 0",
            f"0 insert a {tail + 1} g 1 0",
            f"0 insert main {tail} g 0 0",
        ),
        *refused(FULL, f"0 insert main {main} r 1", "0 detach a"),
        branches(5, MOST_CELLS, ("main", main), ("a", a)),
    )
    page = state("a", a, "write 1 next ws 0", "idle")
    first = stage("a page at its end", page, of="cell", count=a)
    others = stage(
        "other pages there, of both",
        state("main", main, "write 1 next we 0", "read next rs 0"),
        page_of("bits", "main", main, "  0 0 1 -", "  words -"),
        page_of("bits", "a", a, "  0 0 - -", "  words -"),
        page_of("pending", "a", a, "  p0 safe w 1 0", "  p1 idle"),
        (f"0 process a {a} 1", f"0: process a {a} of {a}\n  p1 idle"),
        page_of("verdict", "a", a, f"  {a - 1} p1 0 fresh"),
    )
    again = stage(
        "edits at both ends again",
        *edits("0 replace main 0 w 0 0", first=6),
        state("a", a, "write 0 next ws 0", "idle"),
        *edits(f"0 remove a {a - 1}", first=7),
        state("a", a - 1, "write 0 next ws 0", "read next re 0"),
        branches(7, MOST_CELLS, ("main", main), ("a", a - 1)),
    )
    page = steps_page("a", a - 1, "w 0 0", "g 1 0")
    steps = Stage("its steps", b"0 steps a\n", page, "cell", a - 1)
    stages = [opened(FILE_STEPS, of="cell"), edited, first, others, again, steps]
    drive(counts, "a long branch", [file_of(scratch, FILE_STEPS), *CELLS], stages)


def breaks_on(tail):
    """Returns breaks, each with the places at which a seek from the beginning and one back from the
    end meet it."""
    return (
        ("returns 1", tail + 2, None),
        ("void", 3, tail),
        ("chosen", None, None),
        ("refused", None, None),
        ("bit 0 1", None, None),
        ("bit 0 0", 1, tail + 1),
        ("returns 0", None, None),
        ("bit 7 0", None, None),
    )


def answer_to_move(session, place):
    return f"{session}: no hit" if place is None else f"{session}: at main {place}"


def joins_with_breaks(sessions):
    """Returns the lines by which sessions join and set two breaks each, with their answers."""
    lines = []
    for session, sought, _, _ in sessions:
        lines += [(f"{session} join", f"{session}: joined")]
        lines += [(f"{session} break {it}", f"{session}: break set") for it in (sought, "refused")]
    return lines


def cursor(session, place, sought):
    breaks = [sought] if sought == "refused" else [sought, "refused"]
    lines = [f"{session}: cursor main {place} breaks {len(breaks)}", *[f"  {it}" for it in breaks]]
    return f"{session} cursor", "\n".join(lines)


def sixteen_sessions(counts, scratch):
    """Sixteen sessions with breaks, which seek forth and back over a branch of nearly all cells."""
    # After the file's steps and one insert at 0
    tail = FILE_STEPS + 1
    end = tail + 2
    sessions = [(session, *breaks_on(tail)[session % 8]) for session in range(16)]
    ends = edits(
        "0 insert main 0 w 0 1", f"0 insert main {tail} g 1 0", f"0 insert main {tail + 1} g 1 0"
    )
    first, *others = [
        (f"{it} seek", answer_to_move(it, met_forth)) for it, _, met_forth, _ in sessions
    ]
    back, at, again = [], [], []
    for session, sought, _, met_back in sessions:
        back += [
            (f"{session} go main {end}", f"{session}: at main {end}"),
            (f"{session} back", answer_to_move(session, met_back)),
        ]
        at.append(cursor(session, 1 + (end if met_back is None else met_back), sought))
        again.append(
            (f"{session} seek", answer_to_move(session, end + 1 if sought == "bit 0 0" else None))
        )
    drive(
        counts,
        "sixteen sessions",
        [file_of(scratch, FILE_STEPS), *CELLS],
        [
            opened(FILE_STEPS),
            stage("edits at its ends, and breaks", *ends, *joins_with_breaks(sessions)),
            stage("a seek", first, of="cell", count=end),
            stage("a seek of each other", *others),
            stage("each back from the end", *back),
            stage("each after an insert", *edits("0 insert main 0 r 1", first=4), *at),
            stage("a seek of each again", *again),
        ],
    )


def free_memory():
    with open("/proc/meminfo", encoding="ascii") as file:
        return 1024 * int(re.search(r"MemAvailable:\s+(\d+)", file.read()).group(1))


def drive(counts, row, words, stages):
    """Runs the stages of a row, up to one whose answers aren't those that are wanted."""
    counts.begin(f"load: {row}")
    if free_memory() < MEMORY_NEEDED:
        counts.skip("all of it", f"less than {MEMORY_NEEDED} bytes of memory are free")
        return
    with Watched(words, SECONDS) as watched:
        for place, it in enumerate(stages):
            wrong, measure = watched.run_stage(it)
            counts.count(it.name, wrong)
            MEASURED.append((row, measure))
            if wrong:
                for left in stages[place + 1 :]:
                    counts.skip(left.name, "what comes before it has failed")
                break
        else:
            counts.count("the end", watched.end())
    counts.end()


def print_table():
    """Prints what each stage took: time, memory, and memory for each thing of which it has many."""
    heads = ("Row", "Stage", "Held before, MB", "At most, MB", "Bytes each", "Seconds")
    print(f"| {' | '.join(heads)} |\n{'|---' * len(heads)}|")
    for row, (it, held, most, seconds) in MEASURED:
        each = f"{(most - held) / it.count:.1f} a {it.of}" if it.of else ""
        memory = f"{held / 2**20:.1f} | {most / 2**20:.1f}"
        print(f"| {row} | {it.name} | {memory} | {each} | {seconds:.1f} |")


def run(counts, scratch):
    for row in (
        full_log,
        cells_by_inserts,
        cells_by_detach,
        many_branches,
        branches_apart,
        long_branch,
        sixteen_sessions,
    ):
        row(counts, scratch)
    print_table()
