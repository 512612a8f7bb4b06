"""./towerbench at a terminal: it says how to end, Ctrl-D ends and saves, Ctrl-C leaves without
saving."""
import os
import pty
import select
import signal
import time

import cases

TYPED = b"0 insert main 0 r 1\n"
ANSWER = b"0: edit 1"
SAID = (
    b"towerbench: Ctrl-D ends the script and saves where --save says; Ctrl-C leaves without saving"
)
SAVED = b"bench 1\nsafe 0\nbranch main 0 0\nr 1\n"
CTRL_C, CTRL_D = b"\x03", b"\x04"
MOST_SECONDS = 60


def are_available():
    """Returns whether the system gives terminals here."""
    try:
        for it in pty.openpty():
            os.close(it)
        return True
    except OSError:
        return False


def shown_until(terminal, text):
    """Returns what a terminal shows up to a text, or all of it if the text doesn't come."""
    shown = b""
    while text not in shown and select.select([terminal], [], [], MOST_SECONDS)[0]:
        try:
            shown += os.read(terminal, 2**12)
        except OSError:
            break
    return shown


def run_at_terminal(words, end):
    """Types a line and an end at a terminal of its own; returns the output, and how it ended."""
    process, terminal = pty.fork()
    if process == 0:
        # Jobs in the background of a shell ignore Ctrl-C
        signal.signal(signal.SIGINT, signal.SIG_DFL)
        os.execv("./towerbench", ["./towerbench", *words])
    os.write(terminal, TYPED)
    shown = shown_until(terminal, ANSWER)
    os.write(terminal, end)
    status = status_of(process)
    os.close(terminal)
    return shown, status


def status_of(process):
    """Returns how a process ended, which is killed if it doesn't end in time."""
    for _ in range(MOST_SECONDS * 10):
        ended, status = os.waitpid(process, os.WNOHANG)
        if ended:
            return status
        time.sleep(0.1)
    os.kill(process, signal.SIGKILL)
    return os.waitpid(process, 0)[1]


def fault(scratch):
    """Returns what is wrong at a terminal, or nothing."""
    path = f"{scratch}/terminal.bench"
    shown, status = run_at_terminal(["--save", path], CTRL_D)
    if SAID not in shown or ANSWER not in shown:
        return f"it shows {shown!r}"
    if status != 0 or cases.read(path) != SAVED:
        return f"after Ctrl-D: status {status}, saved {cases.read(path)!r}"
    cases.put_kept(path)
    status = run_at_terminal(["--save", path], CTRL_C)[1]
    if not os.WIFSIGNALED(status) or os.WTERMSIG(status) != signal.SIGINT:
        return f"after Ctrl-C: status {status}"
    return cases.fault_of_kept(path)
