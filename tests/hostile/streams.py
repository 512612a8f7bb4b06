"""Standard streams that are closed, full, slow, cut or without an end."""
import os
import resource
import signal
import subprocess
import threading
import time

from runs import SECONDS, Ended, end_by_fault, end_of_run, good_end, program, write_file

TOWER = b"tower 1\nsafe 0\nr 1\ng 1 0\ng 1 0\n"
# A script, and what each of its lines is answered over that tower. No prefix of a line is
# another command, so a line that is cut is a bad one.
TALK = (
    (b"0 fork main 3 a\n", b"0: edit 1\n"),
    (b"1 join\n", b"1: joined\n"),
    (b"1 go a 2\n", b"1: at a 2\n"),
    (b"0 insert main 1 w 0 1\n", b"0: edit 2\n"),
    (b"1 cursor\n", b"1: cursor a 3 breaks 0\n"),
    (b"0 branches\n", b"0: branches 2 edits 2 made 4\n  main 4\n  a 4\n"),
    (
        b"0 history a 4\n",
        b"0: history a 4 of 4\n  0 p1 invoke read\n  1 p0 invoke write 1\n  3 p1 return 0\n",
    ),
)
SCRIPT = b"".join(line for line, _ in TALK)
ANSWERS = b"".join(answer for _, answer in TALK)
# A script is shorter than this.
LIMIT = 2**24
PAUSE = 0.003
# What a pipe holds.
PIPE_BYTES = 2**16
NO_WRITE, NO_READ = end_by_fault("write failed"), end_by_fault("read failed")
TOO_LONG = end_by_fault("script too long")


def closing(*streams):
    """Returns what closes standard streams in the child, for a run."""
    return {"preexec_fn": lambda: [os.close(it) for it in streams]}


def check_unchanged(counts, path, data):
    """Counts whether a file is as it was."""
    with open(path, "rb") as file:
        wrong = None if file.read() == data else "it was written to"
    counts.count("the file stays as it was", wrong)


def lost_output(counts, scratch):
    """Standard output that takes nothing."""
    counts.begin("streams: standard output")
    path = write_file(f"{scratch}/tower", TOWER)
    for name, words in (("answers", [path]), ("the help", ["--help"])):
        got = end_of_run(words, SCRIPT, stdout=None, **closing(1))
        counts.compare(f"{name} to a closed one", got, NO_WRITE)
        with open("/dev/full", "wb") as full:
            counts.compare(
                f"{name} to a full device", end_of_run(words, SCRIPT, stdout=full), NO_WRITE
            )
        unread = unread_pipe()
        got = end_of_run(words, SCRIPT, stdout=unread)
        counts.compare(f"{name} to a pipe that nobody reads", got, NO_WRITE)
        os.close(unread)
        with open(path, "rb") as unwritten:
            got = end_of_run(words, SCRIPT, stdout=unwritten)
        counts.compare(f"{name} to a stream for reading", got, NO_WRITE)
        counts.compare(f"{name} to a full pipe that doesn't wait", to_full_pipe(words), NO_WRITE)
    got = end_of_run([path], b"# x\n\n", stdout=None, **closing(1))
    counts.compare("nothing to a closed one", got, good_end(b""))
    check_unchanged(counts, path, TOWER)
    counts.end()


def unread_pipe():
    """Returns the end for writing of a pipe that nobody reads."""
    read, write = os.pipe()
    os.close(read)
    return write


def to_full_pipe(words):
    """Runs the script with answers to a full pipe, if a write doesn't wait."""
    read, write = os.pipe()
    os.set_blocking(write, False)
    try:
        while True:
            os.write(write, b" " * PIPE_BYTES)
    except BlockingIOError:
        pass
    got = end_of_run(words, SCRIPT, stdout=write)
    os.close(read)
    os.close(write)
    return got


# What is run with standard error lost, and how it ends.
ENDINGS = (
    ("a good end", [], SCRIPT, 0),
    ("a broken file", ["broken"], SCRIPT, 1),
    ("no file", ["absent"], SCRIPT, 1),
    ("wrong words", ["--workers", "9"], SCRIPT, 2),
    ("a script too long", [], b"\n" * LIMIT, 1),
)


def lost_errors(counts, scratch):
    """Standard error that takes nothing: the status is kept."""
    counts.begin("streams: standard error")
    paths = {
        "tower": write_file(f"{scratch}/tower", TOWER),
        "absent": f"{scratch}/absent",
        "broken": write_file(f"{scratch}/broken", b"tower 3\n"),
    }
    for name, words, script, status in ENDINGS:
        words = [paths.get(it, it) for it in words or ["tower"]]
        want = Ended(status, ANSWERS if status == 0 else b"", b"")
        counts.compare(
            f"{name}, closed", end_of_run(words, script, stderr=None, **closing(2)), want
        )
        with open("/dev/full", "wb") as full:
            counts.compare(f"{name}, a full device", end_of_run(words, script, stderr=full), want)
        unread = unread_pipe()
        counts.compare(
            f"{name}, a pipe that nobody reads", end_of_run(words, script, stderr=unread), want
        )
        os.close(unread)
    got = end_of_run([paths["tower"]], SCRIPT, stdout=None, stderr=None, **closing(1, 2))
    counts.compare("closed, and standard output too", got, Ended(1, b"", b""))
    check_unchanged(counts, paths["broken"], b"tower 3\n")
    counts.end()


def lost_input(counts, scratch):
    """Standard input that gives nothing, or fails."""
    counts.begin("streams: standard input")
    path = write_file(f"{scratch}/tower", TOWER)
    for name, words in (("without a file", []), ("over a file", [path])):
        counts.compare(
            f"closed, {name}", end_of_run(words, None, stdin=None, **closing(0)), NO_READ
        )
    folder = os.open(scratch, os.O_RDONLY)
    counts.compare("a folder", end_of_run([path], None, stdin=folder), NO_READ)
    os.close(folder)
    with open(f"{scratch}/written", "wb") as unread:
        counts.compare("a stream for writing", end_of_run([path], None, stdin=unread), NO_READ)
    read, write = os.pipe()
    os.set_blocking(read, False)
    got = end_of_run([path], None, stdin=read)
    counts.compare("a pipe that doesn't wait, before its first byte", got, NO_READ)
    os.write(write, SCRIPT)
    got = end_of_run([path], None, stdin=read)
    counts.compare("and after its last", got, end_by_fault("read failed", ANSWERS))
    os.close(read)
    os.close(write)
    counts.compare("no bytes", end_of_run([path], b""), good_end(b""))
    got = end_of_run([path], None, stdin=None, stdout=None, stderr=None, **closing(0, 1, 2))
    counts.compare("all three closed", got, Ended(1, b"", b""))
    counts.end()


def started(words, **how):
    """Starts a run whose streams are pipes, unless said otherwise."""
    streams = {"stdin": subprocess.PIPE, "stdout": subprocess.PIPE, "stderr": subprocess.PIPE}
    return subprocess.Popen([program(), *words], bufsize=0, **{**streams, **how})


def finish(process):
    """Ends a run's script, and returns how the run ended."""
    timer = threading.Timer(SECONDS, process.kill)
    timer.start()
    with process:
        output, errors = process.communicate()
    timer.cancel()
    return Ended(process.returncode, output or b"", errors)


def run_slowly(words, pieces):
    """Gives a run its script by pieces, with a pause after each."""
    process = started(words)
    for piece in pieces:
        process.stdin.write(piece)
        time.sleep(PAUSE)
    return finish(process)


def cut_answers(count):
    """Returns the answers to the script's first `count` bytes."""
    answers = b""
    for number, (line, answer) in enumerate(TALK, 1):
        if count >= len(line) - 1:
            answers += answer
        elif count > 0:
            return answers + f"line {number}: refused 36 BadLine\n".encode()
        count -= len(line)
    return answers


def slow_scripts(counts, scratch):
    """A script by bytes and by two pieces, and one that ends in the middle of a line."""
    path = write_file(f"{scratch}/tower", TOWER)
    counts.begin("streams: a script by pieces")
    bytewise = [SCRIPT[i : i + 1] for i in range(len(SCRIPT))]
    counts.compare("a byte a write", run_slowly([path], bytewise), good_end(ANSWERS))
    for count in range(1, len(SCRIPT)):
        pieces = SCRIPT[:count], SCRIPT[count:]
        counts.compare(
            f"a pause after {count} bytes", run_slowly([path], pieces), good_end(ANSWERS)
        )
    counts.end()
    counts.begin("streams: a script that is cut")
    for count in range(len(SCRIPT) + 1):
        got = end_of_run([path], SCRIPT[:count])
        counts.compare(f"after {count} bytes", got, good_end(cut_answers(count)))
    counts.end()


def long_scripts(counts, scratch):
    """Scripts at their limit of bytes, and without an end."""
    counts.begin("streams: long scripts")
    path = write_file(f"{scratch}/tower", TOWER)
    last, answer = TALK[-1]
    room_left = LIMIT - 1 - len(SCRIPT) - len(last)
    for name, padding in (
        ("empty lines", b"\n"),
        ("lines of #", b"#" * 4095 + b"\n"),
        ("one line of #", b"#" * room_left),
    ):
        filled = (padding * (room_left // len(padding) + 1))[: room_left - 1] + b"\n"
        script = SCRIPT + filled + last
        counts.compare(
            f"2^24 - 1 bytes, {name}", end_of_run([path], script), good_end(ANSWERS + answer)
        )
        want = end_by_fault("script too long", ANSWERS + answer)
        counts.compare(f"2^24 bytes, {name}", end_of_run([path], b"\n" + script), want)
        want = end_by_fault("script too long", ANSWERS)
        counts.compare(
            f"2^24 bytes, {name}, cut", end_of_run([path], b"\n" + script[:-1] + b"x"), want
        )
    bad = good_end(ANSWERS + f"line {len(TALK) + 1}: refused 36 BadLine\n".encode())
    script = SCRIPT + b"x" * (LIMIT - 1 - len(SCRIPT))
    counts.compare("one bad line, to 2^24 - 1 bytes", end_of_run([path], script), bad)
    with open("/dev/zero", "rb") as zeros:
        counts.compare("/dev/zero", end_of_run([path], zeros), TOO_LONG)
    unending(counts, path)
    counts.end()


def unending(counts, path):
    """A script of lines without an end: not much more than its limit is taken."""
    process, taken = started([path]), 0
    lines = b"#" * 63 + b"\n"
    try:
        while taken < 2 * LIMIT:
            taken += process.stdin.write(lines * 2**6)
    except BrokenPipeError:
        pass
    counts.compare("a script without an end", finish(process), TOO_LONG)
    is_much = taken > LIMIT + PIPE_BYTES
    counts.count("how much of it is taken", f"{taken} bytes" if is_much else None)


def give(process, line):
    """Gives a run a line, unless it reads no more."""
    try:
        process.stdin.write(line)
    except BrokenPipeError:
        pass


def read_until_gone(path, count):
    """Takes `count` bytes of a run's answers, line by line, and then reads no more."""
    process, left = started([path]), count
    for line, answer in TALK:
        if left == 0 and not process.stdout.closed:
            process.stdout.close()
        give(process, line)
        wanted = min(left, len(answer))
        while wanted:
            taken = len(process.stdout.read(wanted))
            if not taken:
                break
            wanted, left = wanted - taken, left - taken
    process.stdout.close()
    process.stdout = None
    return finish(process)


def gone_readers(counts, scratch):
    """A reader that takes some bytes of the answers and is then gone, and a file that can hold no
    more bytes than that."""
    path = write_file(f"{scratch}/tower", TOWER)
    counts.begin("streams: a reader that is gone after its k-th byte")
    unseen = len(ANSWERS) - len(TALK[-1][1])
    for count in range(len(ANSWERS) + 1):
        # The last answer is one write, which the pipe has taken before its reader is gone
        want = NO_WRITE if count <= unseen else good_end(b"")
        counts.compare(f"{count} bytes", read_until_gone(path, count), want)
    counts.end()
    counts.begin("streams: a file that takes k bytes")
    for count in range(len(ANSWERS) + 1):
        got = to_small_file(path, f"{scratch}/answers", count)
        want = (
            good_end(ANSWERS)
            if count == len(ANSWERS)
            else end_by_fault("write failed", ANSWERS[:count])
        )
        counts.compare(f"{count} bytes", got, want)
    counts.end()
    long_answers(counts, scratch)


def to_small_file(path, answers, count):
    """Runs the script with answers to a file that takes at most `count` bytes."""

    def limit():
        # Otherwise the file's limit is reported by a signal
        signal.signal(signal.SIGXFSZ, signal.SIG_IGN)
        resource.setrlimit(resource.RLIMIT_FSIZE, (count, count))

    with open(answers, "w+b") as out:
        got = end_of_run([path], SCRIPT, stdout=out, preexec_fn=limit)
        out.seek(0)
        return got._replace(output=out.read())


def long_answers(counts, scratch):
    """One answer that is longer than a pipe, of which a reader takes some bytes."""
    counts.begin("streams: a reader that is gone within a long answer")
    steps = 20_000
    path = write_file(f"{scratch}/long", b"tower 1\nsafe 0\n" + b"r 1\n" * steps)
    page = f"0: steps main {steps}\n".encode() + b"".join(b"  %d r 1\n" % i for i in range(steps))
    for count in (
        0,
        1,
        4095,
        4096,
        4097,
        PIPE_BYTES - 1,
        PIPE_BYTES,
        PIPE_BYTES + 1,
        len(page) - PIPE_BYTES - 4096,
    ):
        process, taken = started([path]), b""
        give(process, b"0 steps main\n")
        while len(taken) < count:
            piece = process.stdout.read(count - len(taken))
            if not piece:
                break
            taken += piece
        process.stdout.close()
        process.stdout = None
        counts.compare(f"{count} bytes", finish(process), NO_WRITE)
        wrong = None if taken == page[:count] else "it is no prefix of the page"
        counts.count(f"{count} bytes: what went out", wrong)
    counts.end()


def run(counts, scratch):
    lost_output(counts, scratch)
    lost_errors(counts, scratch)
    lost_input(counts, scratch)
    slow_scripts(counts, scratch)
    long_scripts(counts, scratch)
    gone_readers(counts, scratch)
