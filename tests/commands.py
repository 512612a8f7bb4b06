"""Commands that tests run, and what they write."""
import os
import subprocess


def run(words, text=None):
    """Runs a command over a text, and returns how it ended."""
    return subprocess.run(words, input=text, capture_output=True, text=True, check=False)


def output_of(words, text=None):
    """Returns what a command writes; another status than 0 is an error."""
    done = run(words, text)
    if done.returncode:
        said = done.stderr.strip()[-300:]
        raise ValueError(f"{os.path.basename(words[0])}: status {done.returncode}: {said}")
    return done.stdout
