"""Tower files and bench files that are broken, too long, or no files."""
import collections
import itertools
import os
import random
import socket
import stat
import subprocess
import threading

import tower_reader
from runs import SECONDS, Ended, end_by_fault, end_of_run, good_end, program

MOST_BYTES = 2**32
# A run over a file that is too long takes at most this much memory: a file's limit, and 16 MB.
MOST_MEMORY = MOST_BYTES + 2**24
# The number of the user and the group without rights.
NOBODY = 65534


def file_bytes(header, tower, *steps):
    return "".join(f"{line}\n" for line in (header, tower, *steps)).encode()


READ = ["r 1"] + ["g 1 0"] * 8
ROWS = {
    "stamped-best": file_bytes(
        "tower 1", "stamped 2 1", "w 0 1", *["g 0 0"] * 3, *READ, "r 1", "g 1 0", "g 1 1"
    ),
    "matrix-spent": file_bytes(
        "tower 1", "matrix 2 2 1 3", "w 0 1", *["g 0 0"] * 12, "w 1 0", *["g 1 0"] * 30
    ),
    "stopped-writer": file_bytes(
        "tower 2", "safe 0", "w 0 1", "g 0 0", "x 0", "g 0 0", "r 1", "g 1 0", "g 1 1"
    ),
    "bench-file": file_bytes(
        "bench 1",
        "safe 0",
        "branch main 0 0",
        "r 1",
        "w 0 1",
        "branch a 0 1",
        "g 1 0",
        "branch b 1 2",
        "g 1 1",
    ),
    "bench-of-four": file_bytes(
        "bench 1",
        "unary 3 2 0",
        "branch c 0 0",
        "w 0 1",
        "branch a 0 0",
        "branch main 0 1",
        *["g 0 0"] * 11,
        "x 0",
        "branch b 2 12",
        "r 2",
        "g 2 1",
    ),
}


def wanted_end(data):
    """Returns how a run of the reader's script over a file has to end, by the reader."""
    try:
        if data.startswith(tower_reader.BENCH):
            return good_end(tower_reader.bench_pages(tower_reader.read_bench(data)))
        return good_end(tower_reader.pages(tower_reader.read(data)))
    except tower_reader.Fault as first:
        return Ended(1, b"", first.line)


def cuts(data):
    """Yields the beginnings of a file."""
    for count in range(len(data) + 1):
        yield f"its first {count} bytes", data[:count]


def versions(data):
    """Yields a file with other first lines, each kind of file in four versions."""
    for version in range(4):
        for header in (b"tower", b"bench"):
            first = b"%s %d" % (header, version)
            yield first.decode(), first + data[data.index(b"\n") :]


def next_digit(byte):
    """Returns the digit after one, 0 after 9, and 1 for a byte that is none."""
    return ord(str((int(chr(byte)) + 1) % 10)) if chr(byte) in "0123456789" else ord("1")


def replacements(data):
    """Yields a file with each byte replaced by some others."""
    for place, byte in enumerate(data):
        for other in (0x80, 0x00, ord("\n"), ord(" "), next_digit(byte)):
            if other != byte:
                changed = data[:place] + bytes([other]) + data[place + 1 :]
                yield f"byte {place} as {other:#04x}", changed


# What bytes are put in, and how many files are changed by chance, at one to three places.
BYTES = b"0123456789 \nwrgxtowerbranch"
CHANGES_BY_CHANCE = 300
# Numbers at each tower's limits, and just past them.
EDGES = {
    "safe": [(0, 1, 2)],
    "copies": [(0, 1, 4, 5), (0, 1, 2)],
    "regular": [(0, 1, 4, 5), (0, 1, 2)],
    "unary": [(1, 2, 511, 512, 513), (0, 1, 4, 5), (0, 1, 510, 511, 512)],
    "stamped": [(1, 2, 255, 256, 257, 512, 513), (0, 1, 2, 254, 255, 256, 511, 512)],
    "matrix": [(1, 2, 3, 4, 5), (1, 2, 3, 16, 128, 513), (0, 1, 511, 512), (0, 3, 15, 16, 512)],
}


def changes_by_chance(data):
    """Yields a file changed at one to three places, by chance that is the same in each run."""
    chance = random.Random(len(data))
    for number in range(CHANGES_BY_CHANCE):
        changed = data
        for _ in range(chance.randint(1, 3)):
            changed = with_one_change(chance, changed)
        yield f"change {number}, {changed!r}", changed


def with_one_change(chance, data):
    """Returns data with a byte removed, added or replaced, or with two lines that have changed
    places."""
    place, way = chance.randrange(len(data) + 1), chance.randrange(4)
    if way == 0:
        return data[:place] + data[place + 1 :]
    if way == 1:
        lines = data.splitlines(keepends=True) or [b""]
        one, other = chance.randrange(len(lines)), chance.randrange(len(lines))
        lines[one], lines[other] = lines[other], lines[one]
        return b"".join(lines)
    return data[:place] + bytes([chance.choice(BYTES)]) + data[place + (way == 2) :]


def towers_at_limits():
    """Yields files of no steps and of one, of each tower at its limits."""
    for kind, edges in EDGES.items():
        for numbers in itertools.product(*edges):
            tower = " ".join([kind, *map(str, numbers)])
            yield tower, file_bytes("tower 1", tower)
        for version in ("tower 1", "tower 2"):
            for step in (
                "w 0 1",
                "w 0 2",
                "w 1 0",
                "r 0",
                "r 1",
                "r 2",
                "g 1 1",
                "g 2 0",
                "g 0 2",
                "x 1",
                "x 2",
                "r 01",
                "g  0 0",
                "w 0",
                "r 1 0",
                "y 1",
                "",
            ):
                tower = " ".join([kind, *(str(edge[1]) for edge in edges)])
                yield f"{version}, {tower}, {step}", file_bytes(version, tower, step)


def run_over(path, data):
    """Runs the reader's script over a file that has these bytes, and returns how the run ended."""
    is_bench = data.startswith(tower_reader.BENCH)
    return end_of_run([path], tower_reader.BENCH_SCRIPT if is_bench else tower_reader.SCRIPT)


def broken(counts, scratch):
    """A row's file cut after each of its bytes, and with each replaced."""
    for row, data in ROWS.items():
        for kind, changes in (
            ("cut", cuts),
            ("with a byte replaced", replacements),
            ("in each version", versions),
            ("changed by chance", changes_by_chance),
        ):
            compare_readings(counts, f"files: {row}, {kind}", changes(data), scratch)
    compare_readings(counts, "files: towers at their limits", towers_at_limits(), scratch)


def compare_readings(counts, row, changes, scratch):
    """Compares what the program says of changed files with what the reader says."""
    counts.begin(row)
    path, kinds = f"{scratch}/broken", collections.Counter()
    for name, changed in changes:
        with open(path, "wb") as file:
            file.write(changed)
        want = wanted_end(changed)
        kinds[want.errors.split()[-1].decode() if want.errors else "read"] += 1
        counts.compare(name, run_over(path, changed), want)
    print(f"{row}: wanted: {', '.join(f'{count} {kind}' for kind, count in kinds.items())}")
    counts.end()


def end_and_memory(path):
    """Runs the program over a file, and returns how it ended, and the most memory that it took."""
    how = {"stdin": subprocess.DEVNULL, "stdout": subprocess.PIPE, "stderr": subprocess.PIPE}
    with subprocess.Popen([program(), path], **how) as process:
        timer = threading.Timer(SECONDS, process.kill)
        timer.start()
        output, errors = process.stdout.read(), process.stderr.read()
        _, status, usage = os.wait4(process.pid, 0)
        timer.cancel()
        is_killed = os.WIFSIGNALED(status)
        process.returncode = -os.WTERMSIG(status) if is_killed else os.WEXITSTATUS(status)
    return Ended(process.returncode, output, errors), usage.ru_maxrss * 1024


def compare_with_memory(counts, name, path, want):
    """Compares how a run over a file ends, and whether it takes more memory than it may."""
    got, memory = end_and_memory(path)
    counts.compare(name, got, want)
    is_much = memory > MOST_MEMORY
    counts.count(f"{name}: memory", f"{memory} bytes, more than {MOST_MEMORY}" if is_much else None)
    print(f"{counts.row}: {name}: at most {memory / 2**20:.1f} MB of memory", flush=True)


def sparse_file(path, length):
    with open(path, "wb") as file:
        file.truncate(length)
    return path


def long_files(counts, scratch):
    """Files that are as long as one may be, longer, and without an end."""
    counts.begin("files: long ones")
    too_long, path = end_by_fault("file too long"), f"{scratch}/long"
    not_ascii = end_by_fault("file line 1: 10 NotAscii")
    counts.compare("2^32 bytes of 0", end_of_run([sparse_file(path, MOST_BYTES)]), not_ascii)
    compare_with_memory(counts, "2^32 + 1 bytes of 0", sparse_file(path, MOST_BYTES + 1), too_long)
    compare_with_memory(counts, "2^36 bytes of 0", sparse_file(path, 2**36), too_long)
    os.remove(path)
    compare_with_memory(counts, "/dev/zero", "/dev/zero", too_long)
    pipe = made_pipe(f"{scratch}/endless")
    feeder = feed_pipe(pipe, endless_tower())
    compare_with_memory(counts, "a named pipe whose writer goes on", pipe, too_long)
    feeder.join(SECONDS)
    wrong = "it still writes" if feeder.is_alive() else None
    counts.count("its writer learns that nobody reads", wrong)
    counts.end()


def made_pipe(path):
    os.mkfifo(path)
    return path


def endless_tower():
    yield b"tower 1\nsafe 0\n"
    while True:
        yield b"r 1\n" * 2**12


def feed_pipe(path, pieces):
    """Starts a thread that writes pieces to a named pipe until nobody reads it, and returns it."""

    def feed():
        try:
            with open(path, "wb", buffering=0) as pipe:
                for piece in pieces:
                    pipe.write(piece)
        except BrokenPipeError:
            pass

    feeder = threading.Thread(target=feed, daemon=True)
    feeder.start()
    return feeder


def pipes(counts, scratch):
    """Named pipes that end: at once, in the middle, by a byte a write."""
    counts.begin("files: named pipes that end")
    pipe = made_pipe(f"{scratch}/pipe")
    for row, data in ROWS.items():
        bytewise = [data[i : i + 1] for i in range(len(data))]
        half = data[: len(data) // 2]
        for name, pieces in (
            ("whole", [data]),
            ("no bytes", []),
            ("half", [half]),
            ("a byte a write", bytewise),
        ):
            feeder = feed_pipe(pipe, pieces)
            whole = b"".join(pieces)
            counts.compare(f"{row}, {name}", run_over(pipe, whole), wanted_end(whole))
            feeder.join(SECONDS)
    counts.end()


def become_nobody():
    os.setgroups([])
    os.setgid(NOBODY)
    os.setuid(NOBODY)


def is_run_by_nobody(path):
    """Returns whether the program can be run without rights here."""
    how = {"stdout": subprocess.DEVNULL, "stderr": subprocess.DEVNULL, "preexec_fn": become_nobody}
    try:
        done = subprocess.run([path, "--help"], check=False, **how)
    except (OSError, subprocess.SubprocessError):
        return False
    return done.returncode == 0


def unreadable(counts, scratch):
    """A file that its reader has no right to read, and a folder that it has no right to enter, to
    read from or to save to."""
    path, folder = f"{scratch}/locked", f"{scratch}/closed"
    names = {"a file without right to read": path, "one in such a folder": f"{folder}/x"}
    with open(path, "wb") as file:
        file.write(ROWS["stamped-best"])
    os.mkdir(folder)
    os.chmod(path, 0)
    os.chmod(folder, 0)
    how = {}
    if os.geteuid() == 0:
        os.chmod(scratch, stat.S_IRWXU | stat.S_IXGRP | stat.S_IXOTH)
        how = {"preexec_fn": become_nobody}
        if not is_run_by_nobody(program()):
            for name in names:
                counts.skip(name, "this runs as root, and nobody else can run the program")
            return
    for name, it in names.items():
        counts.compare(name, end_of_run([it], **how), end_by_fault("file unreadable"))
        counts.compare(
            f"saved to {name}", end_of_run(["--save", it], **how), end_by_fault("save failed")
        )


def no_files(counts, scratch):
    """What can be named and is no tower file."""
    counts.begin("files: what is no file")
    os.symlink("ring", f"{scratch}/ring")
    with open(f"{scratch}/plain", "wb") as file:
        file.write(ROWS["stamped-best"])
    with socket.socket(socket.AF_UNIX) as listener:
        listener.bind(f"{scratch}/socket")
        for name, path in (
            ("a folder", scratch),
            ("a name that isn't there", f"{scratch}/absent"),
            ("an empty name", ""),
            ("a ring of links", f"{scratch}/ring"),
            ("below a file", f"{scratch}/plain/x"),
            ("a socket", f"{scratch}/socket"),
            ("a name of 5,000 bytes", "a" * 5000),
            ("a file whose first read fails", "/proc/self/mem"),
        ):
            counts.compare(
                name, end_of_run([path], b"0 branches\n"), end_by_fault("file unreadable")
            )
    counts.compare("/dev/null", end_of_run(["/dev/null"]), wanted_end(b""))
    got = end_of_run([b"\xff\xfe"], b"0 branches\n")
    is_refused = got.status == 2 and not got.output and got.errors.startswith(b"towerbench: ")
    counts.count("a name that is no text", None if is_refused else f"{got}")
    unreadable(counts, scratch)
    counts.end()


def limits(counts, scratch):
    """A file of more steps than cells may be made."""
    counts.begin("files: more steps than cells")
    path = f"{scratch}/steps"
    with open(path, "wb") as file:
        file.write(ROWS["stamped-best"])
    for cells, want in (
        ("16", wanted_end(ROWS["stamped-best"])),
        ("15", end_by_fault("open refused 24 Full")),
    ):
        counts.compare(
            f"--cells {cells}", end_of_run([path, "--cells", cells], tower_reader.SCRIPT), want
        )
    counts.end()


def run(counts, scratch):
    broken(counts, scratch)
    long_files(counts, scratch)
    pipes(counts, scratch)
    no_files(counts, scratch)
    limits(counts, scratch)
