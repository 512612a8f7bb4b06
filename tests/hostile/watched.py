"""A run of the program that is given its script by stages, and what memory it takes in each."""
import collections
import os
import re
import subprocess
import threading
import time

from runs import BYTES_SHOWN, program

PIECE = 2**16

# script: bytes; pieces: those of the answers, one after the other; of, count: what the stage makes,
# and how much of it, if memory is to be shown for each, or None.
Stage = collections.namedtuple("Stage", "name script pieces of count", defaults=(None, None))
# held: the memory before the stage; most: the peak within it; in bytes.
Measure = collections.namedtuple("Measure", "stage held most seconds")


def difference_on(stream, pieces):
    """Returns how a stream differs from the pieces that are to come on it, or None."""
    place = 0
    for piece in pieces:
        got = stream.read(len(piece))
        if got != piece:
            at = len(os.path.commonprefix([got, piece]))
            near = slice(max(0, at - BYTES_SHOWN // 4), at + BYTES_SHOWN // 4)
            return f"at byte {place + at}: {got[near]!r}, wanted {piece[near]!r}"
        place += len(piece)
    return None


def memory_of(process, kind):
    """Returns the bytes that a process holds (VmRSS) or held at most (VmHWM), 0 once it ended."""
    try:
        with open(f"/proc/{process.pid}/status", encoding="ascii") as file:
            found = re.search(rf"^{kind}:\s+(\d+) kB", file.read(), re.M)
    except OSError:
        return 0
    return 1024 * int(found.group(1)) if found else 0


def reset_peak(process):
    """Starts the count of a process's peak memory again, which is what a 5 written there does."""
    try:
        with open(f"/proc/{process.pid}/clear_refs", "w", encoding="ascii") as file:
            file.write("5")
    except OSError:
        pass


class Watched:
    """A run of the program, used by `with`. It is ended if its answers take too long."""

    def __init__(self, words, seconds):
        pipes = {"stdin": subprocess.PIPE, "stdout": subprocess.PIPE, "stderr": subprocess.PIPE}
        self.process = subprocess.Popen([program(), *words], **pipes)
        self.timer = threading.Timer(seconds, self.process.kill)
        self.feeder, self.is_begun = None, False

    def __enter__(self):
        self.timer.start()
        return self

    def __exit__(self, *_):
        self.timer.cancel()
        self.process.kill()
        if self.feeder:
            self.feeder.join()
        self.process.__exit__(None, None, None)

    def feed(self, script):
        try:
            for place in range(0, len(script), PIECE):
                self.process.stdin.write(script[place : place + PIECE])
            self.process.stdin.flush()
        except (BrokenPipeError, ValueError):
            pass

    def run_stage(self, stage):
        """Gives the run a stage's script, and returns how its answers differ, and a Measure."""
        begun, held = time.monotonic(), 0
        # The first stage counts what is opened before it too
        if self.is_begun:
            held = memory_of(self.process, "VmRSS")
            reset_peak(self.process)
        self.is_begun = True
        self.feeder = threading.Thread(target=self.feed, args=(stage.script,), daemon=True)
        self.feeder.start()
        wrong = difference_on(self.process.stdout, stage.pieces)
        most = memory_of(self.process, "VmHWM")
        if wrong:
            self.process.kill()
        self.feeder.join()
        return wrong, Measure(stage, held, most, time.monotonic() - begun)

    def end(self):
        """Ends the script, and returns what isn't as at a good end, or None."""
        try:
            self.process.stdin.close()
        except BrokenPipeError:
            pass
        output = self.process.stdout.read(BYTES_SHOWN)
        errors = self.process.stderr.read(BYTES_SHOWN)
        status = self.process.wait()
        if (status, output, errors) == (0, b"", b""):
            return None
        return f"status {status}, {output!r}, {errors!r}"
