"""Runs of the built program, and how many of them ended as wanted."""
import collections
import os
import subprocess
import time

TOP = os.path.dirname(os.path.dirname(os.path.dirname(os.path.realpath(__file__))))
# A run that isn't meant to take long counts as one without an end after this many seconds.
SECONDS = 120
# At most this many differences of a row are shown.
MOST_SHOWN = 8
BYTES_SHOWN = 300
_BUILT = []

# status: that of the exit, less than 0 for a signal, or None if the run had no end.
Ended = collections.namedtuple("Ended", "status output errors")


def program():
    """Returns the path of the proved program, built if it must be, or "" if it can't be."""
    if not _BUILT:
        done = subprocess.run([f"{TOP}/tools/program"], stdout=subprocess.PIPE, check=False)
        _BUILT.append(os.fsdecode(done.stdout).strip() if done.returncode == 0 else "")
    return _BUILT[0]


def write_file(path, data):
    """Writes bytes to a file, and returns its path."""
    with open(path, "wb") as file:
        file.write(data)
    return path


def end_of_run(words, script=b"", seconds=SECONDS, **how):
    """Runs the program over a script, its bytes or an open file, and returns how it ended."""
    given = {"input": script} if isinstance(script, bytes) else {"stdin": script}
    how = {"stdout": subprocess.PIPE, "stderr": subprocess.PIPE, **given, **how}
    try:
        done = subprocess.run([program(), *words], timeout=seconds, check=False, **how)
    except subprocess.TimeoutExpired as late:
        return Ended(None, late.stdout or b"", late.stderr or b"")
    return Ended(done.returncode, done.stdout or b"", done.stderr or b"")


def end_by_fault(line, output=b""):
    """Returns how a run ends that reports a fault."""
    return Ended(1, output, f"towerbench: {line}\n".encode())


def good_end(output):
    return Ended(0, output, b"")


def shown(data):
    """Returns some bytes as they can be shown, the first of them if there are many."""
    more = f" and {len(data) - BYTES_SHOWN} bytes more" if len(data) > BYTES_SHOWN else ""
    return f"{bytes(data[:BYTES_SHOWN])!r}{more}"


def difference(got, want):
    """Returns how an end differs from the one that is wanted, or None."""
    if got == want:
        return None
    found = []
    for name, has, wants in zip(Ended._fields, got, want):
        if has != wants:
            are_bytes = isinstance(has, bytes)
            found.append(
                f"{name}: {shown(has) if are_bytes else has}, "
                f"wanted {shown(wants) if are_bytes else wants}"
            )
    return "; ".join(found)


class Counts:
    """How many tests passed, failed and weren't run, shown row by row."""

    def __init__(self):
        self.passed = self.failed = 0
        self.skipped = []
        self.row, self.before, self.begun = "", (0, 0), time.monotonic()

    def begin(self, row):
        self.row, self.before, self.begun = row, (self.passed, self.failed), time.monotonic()

    def end(self):
        """Prints the result of the row."""
        passed, failed = self.passed - self.before[0], self.failed - self.before[1]
        if passed or failed:
            more = f", {failed} failed" if failed else ""
            took = time.monotonic() - self.begun
            print(f"{self.row}: {passed} passed{more}, {took:.1f} s", flush=True)

    def count(self, name, wrong):
        """Counts a test that was run, and shows what is wrong, if anything."""
        if wrong is None:
            self.passed += 1
            return
        self.failed += 1
        shown_before = self.failed - self.before[1] - 1
        if shown_before < MOST_SHOWN:
            print(f"{self.row}: {name}: {wrong}", flush=True)
        elif shown_before == MOST_SHOWN:
            print(f"{self.row}: more fail, which aren't shown", flush=True)

    def compare(self, name, got, want):
        self.count(name, difference(got, want))

    def skip(self, name, why):
        self.skipped.append(f"{self.row}: {name}")
        print(f"{self.row}: {name}: not run: {why}", flush=True)

    def close(self):
        """Prints the whole, on one line, and returns the exit status."""
        if self.skipped:
            print(f"not run, as said above: {'; '.join(self.skipped)}")
        more = f", {len(self.skipped)} skipped" if self.skipped else ""
        print(f"{self.passed} passed, {self.failed} failed{more}", flush=True)
        return 1 if self.failed else 0
