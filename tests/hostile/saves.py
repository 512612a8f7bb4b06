"""Saves that are killed, that find no room, and over all that a path can name: the old file isn't
lost."""
import os
import random
import resource
import signal
import stat
import subprocess
import tempfile
import threading
import time

from files import NOBODY, become_nobody, is_run_by_nobody, made_pipe
from runs import SECONDS, TOP, Ended, end_by_fault, end_of_run, good_end, program, write_file

# A file of 20 MB, whose branch is saved again as the same bytes.
STEPS = 2_500_000
HEAD = b"bench 1\nunary 512 1 0\nbranch main 0 0\n"
NEW = HEAD + b"w 0 511\n" * STEPS
LITTLE = HEAD + b"w 0 511\n"
OLD = b"bench 1\nsafe 1\nbranch old 0 0\n"
PAGE = f"0: branches 1 edits 0 made {STEPS}\n  main {STEPS}\n".encode()
FAILED = end_by_fault("save failed")
NEW_FILE_SUFFIX = ".towerbench-new"
KILLS, SEED = 200, 78
# The limit on a file's size, the size of a small file system, and a file's permissions: other ones
# than a new file has.
LIMIT, SMALL_DISK, MODE = 2**20, 2**23, 0o640


def bytes_at(path):
    """Returns the bytes of a file, or None."""
    if not os.path.exists(path):
        return None
    with open(path, "rb") as file:
        return file.read()


def saving_words(source, path):
    return [source, "--cells", str(STEPS), "--save", path]


def compare_file(counts, name, path, want, has_left=False):
    """Counts whether a file has these bytes, and whether a save has left a new file next to it."""
    got = bytes_at(path)
    wrong = None if got == want else f"it has {'no file' if got is None else f'{len(got)} bytes'}"
    counts.count(name, wrong)
    is_left = os.path.exists(path + NEW_FILE_SUFFIX)
    counts.count(
        f"{name}: a new file next to it", None if is_left == has_left else f"there: {is_left}"
    )


def killed_save(words, moment):
    """Starts a save and kills it that many seconds after its start, or never; returns its status
    and how long it took."""
    how = {"stdin": subprocess.PIPE, "stdout": subprocess.PIPE, "stderr": subprocess.DEVNULL}
    with subprocess.Popen([program(), *words], **how) as process:
        timer = threading.Timer(SECONDS, process.kill)
        timer.start()
        process.stdin.write(b"0 branches\n")
        process.stdin.flush()
        if process.stdout.read(len(PAGE)) != PAGE:
            raise ValueError("the page before the save is another")
        process.stdin.close()
        begun = time.monotonic()
        if moment is not None:
            time.sleep(moment)
            process.kill()
        status = process.wait()
        timer.cancel()
        return status, time.monotonic() - begun


def kills(counts, scratch):
    """200 saves of 20 MB that are killed, and one that isn't."""
    counts.begin("saves: killed")
    chance, path = random.Random(SEED), f"{scratch}/killed"
    words = saving_words(write_file(f"{scratch}/big", NEW), path)
    _, span = killed_save(words, None)
    compare_file(counts, "a save that isn't killed", path, NEW)
    olds = lefts = 0
    for number in range(KILLS):
        write_file(path, OLD)
        killed_save(words, chance.uniform(0, span))
        got = bytes_at(path)
        olds += got == OLD
        lefts += os.path.exists(path + NEW_FILE_SUFFIX)
        counts.count(
            f"kill {number}",
            None if got in (OLD, NEW) else "neither the old file nor the new one is there",
        )
    print(
        f"{counts.row}: the old file is there after {olds} of {KILLS}, a part of a new one next to it after {lefts}"
    )
    counts.count("some were killed while they wrote", None if lefts else "none was")
    killed_save(words, None)
    compare_file(counts, "a save after them", path, NEW)
    counts.end()


def full_disk(counts, scratch):
    """A file system with too little room."""
    counts.begin("saves: a small file system")
    disk, source = f"{scratch}/disk", f"{scratch}/big"
    os.mkdir(disk)
    mounting = ["mount", "-t", "tmpfs", "-o", f"size={SMALL_DISK}", "tmpfs", disk]
    if subprocess.run(mounting, capture_output=True, check=False).returncode:
        counts.skip("a save on it", "nothing can be mounted here")
        return
    try:
        path = write_file(f"{disk}/kept", OLD)
        counts.compare("too much over a file", end_of_run(saving_words(source, path)), FAILED)
        compare_file(counts, "the file", path, OLD)
        counts.compare(
            "too much where nothing is", end_of_run(saving_words(source, f"{disk}/none")), FAILED
        )
        compare_file(counts, "nothing", f"{disk}/none", None)
        counts.compare(
            "a little",
            end_of_run(saving_words(write_file(f"{scratch}/little", LITTLE), path)),
            good_end(b""),
        )
        compare_file(counts, "the little file", path, LITTLE)
    finally:
        subprocess.run(["umount", disk], check=True)
    counts.end()


def limit_file_size():
    resource.setrlimit(resource.RLIMIT_FSIZE, (LIMIT, LIMIT))


def limit_and_ignore_signal():
    limit_file_size()
    signal.signal(signal.SIGXFSZ, signal.SIG_IGN)


def limit(counts, scratch):
    """A limit on the sizes of files, whose signal ends the program unless it is ignored."""
    counts.begin("saves: a file-size limit")
    words = saving_words(f"{scratch}/big", f"{scratch}/limited")
    by_signal = Ended(-signal.SIGXFSZ, b"", b"")
    for name, how, want in (
        ("with its signal", {"preexec_fn": limit_file_size}, by_signal),
        ("without its signal", {"preexec_fn": limit_and_ignore_signal}, FAILED),
        # `./towerbench` ignores the signal
        (
            "by ./towerbench",
            {"preexec_fn": limit_file_size, "executable": f"{TOP}/towerbench"},
            FAILED,
        ),
    ):
        path = write_file(words[-1], OLD)
        counts.compare(name, end_of_run(words, **how), want)
        compare_file(counts, f"the file, {name}", path, OLD, has_left=want is by_signal)
    counts.end()


def links(counts, scratch):
    """Links, which are followed, and permissions, which are kept."""
    counts.begin("saves: links and permissions")
    source, path, link = (
        write_file(f"{scratch}/little", LITTLE),
        f"{scratch}/real",
        f"{scratch}/link",
    )
    os.mkdir(f"{scratch}/far")
    os.symlink("far/../real", link)
    counts.compare("a link to nothing", end_of_run(saving_words(source, link)), good_end(b""))
    compare_file(counts, "the file that it made", path, LITTLE)
    write_file(path, OLD)
    os.chmod(path, MODE)
    counts.compare("a link", end_of_run(saving_words(source, link)), good_end(b""))
    compare_file(counts, "what it leads to", path, LITTLE)
    counts.count("it is a link still", None if os.path.islink(link) else "it is none")
    mode = stat.S_IMODE(os.stat(path).st_mode)
    counts.count("its permissions", None if mode == MODE else f"{mode:#o}")
    long = f"{scratch}/{'a' * 250}"
    counts.compare("a name of 250 bytes", end_of_run(saving_words(source, long)), good_end(b""))
    compare_file(counts, "the long name", long, LITTLE)
    with tempfile.TemporaryFile() as file:
        number = file.fileno()
        counts.compare(
            "an open file without a name",
            end_of_run(saving_words(source, f"/dev/fd/{number}"), pass_fds=[number]),
            good_end(b""),
        )
        counts.count("its bytes", None if file.read() == LITTLE else "others")
    counts.end()


def pipe(counts, scratch):
    """A named pipe, which is written in place."""
    counts.begin("saves: a named pipe")
    path, got = made_pipe(f"{scratch}/pipe"), []
    reader = threading.Thread(target=lambda: got.append(bytes_at(path)), daemon=True)
    reader.start()
    words = saving_words(f"{scratch}/little", path)
    counts.compare("a save to it", end_of_run(words), good_end(b""))
    reader.join(SECONDS)
    counts.count("its reader's bytes", None if got == [LITTLE] else f"{got}")
    counts.count(
        "it is a pipe still", None if stat.S_ISFIFO(os.stat(path).st_mode) else "it is none"
    )
    counts.end()


def folders(counts, scratch):
    """A folder that takes no new file, and a file that may not be written."""
    counts.begin("saves: without rights")
    how, closed = {}, f"{scratch}/closed"
    os.mkdir(closed)
    written, locked = write_file(f"{closed}/written", OLD), write_file(f"{scratch}/locked", OLD)
    if os.geteuid() == 0:
        os.chmod(scratch, stat.S_IRWXU | stat.S_IXGRP | stat.S_IXOTH)
        how = {"preexec_fn": become_nobody}
        os.chown(written, NOBODY, NOBODY)
        if not is_run_by_nobody(program()):
            counts.skip(
                "saves without rights", "this runs as root, and nobody else can run the program"
            )
            return
    os.chmod(f"{scratch}/little", 0o644)
    os.chmod(locked, 0o444)
    os.chmod(closed, 0o555)
    counts.compare(
        "a folder that takes no new file",
        end_of_run(saving_words(f"{scratch}/little", written), **how),
        good_end(b""),
    )
    compare_file(counts, "its file", written, LITTLE)
    counts.compare(
        "a file that may not be written",
        end_of_run(saving_words(f"{scratch}/little", locked), **how),
        FAILED,
    )
    compare_file(counts, "that file", locked, OLD)
    counts.end()


def run(counts, scratch):
    links(counts, scratch)
    pipe(counts, scratch)
    folders(counts, scratch)
    kills(counts, scratch)
    full_disk(counts, scratch)
    limit(counts, scratch)
