"""Branches that are saved after a script, and loaded again.

Of each row, example and lesson that ends well:
- the answers are the same with `--save`;
- the saved file, loaded and saved again, is the same, byte for byte;
- the branches that are loaded show the pages that they showed after the script: states, bits,
  pending operations, histories and verdicts, at their ends and halfway.
If a script ends by a fault, the file at the path is as it was.
"""
import shutil
import tempfile

import cases

LOOKS = ("state", "bits", "pending", "history", "verdict")
# A script of this many bytes is too long.
SCRIPT_BYTES = 2**24
SAVE = "--save"


def options_of(words):
    """Returns the words after a file's path; all of them if there is no file."""
    return words[1:] if words and not words[0].startswith("-") else words


def looks_at(program, words):
    """Returns the lines that look at all branches of a file, at their ends and halfway."""
    page = cases.run(program, words, b"0 branches\n").output.decode().splitlines()
    lines = []
    for name, length in (line.split() for line in page[1:]):
        for place in dict.fromkeys((int(length), int(length) // 2)):
            lines += [f"0 {look} {name} {place}\n" for look in LOOKS]
    return "".join(lines).encode()


def fault_of_saving(case, words, program, temporary):
    """Returns what is wrong with the branches that a case's run saves, or nothing."""
    first, second = f"{temporary}/first", f"{temporary}/second"
    fault = cases.difference(case, cases.run(program, [*words, SAVE, first], case.script))
    if fault:
        return f"with {SAVE}: {fault}"
    loaded = [first, *options_of(words)]
    again = cases.run(program, [*loaded, SAVE, second], b"")
    if again.status != 0 or again.output:
        return f"loaded again: status {again.status}, {again.errors!r}"
    fault = cases.first_difference(cases.read(first), cases.read(second))
    if fault:
        return f"saved again: {fault}"
    looks = looks_at(program, loaded)
    script = cases.read(case.script) + b"\n" + looks
    if len(script) >= SCRIPT_BYTES:
        return None
    pages = cases.run(program, loaded, looks).output
    here = cases.run(program, words, script).output
    if not here.startswith(case.output):
        return "more lines change what came before"
    fault = cases.first_difference(here[len(case.output) :], pages)
    return f"loaded: {fault}" if fault else None


def fault_of(name, program, scratch):
    """Returns what is wrong with saving after a case, or nothing."""
    temporary = tempfile.mkdtemp(dir=scratch)
    case = cases.case_of(name, temporary)
    if case.status == cases.REFUSED_WORDS or {SAVE, "--help"} & set(case.words):
        return None
    if case.status == 0:
        return fault_of_saving(case, case.words, program, temporary)
    path = f"{temporary}/kept"
    cases.put_kept(path)
    fault = cases.difference(case, cases.run(program, [*case.words, SAVE, path], case.script))
    if fault:
        return f"with {SAVE}: {fault}"
    return cases.fault_of_kept(path)


def fault_of_saving_over(name, program, scratch):
    """Returns what is wrong with saving over the file that was read, or nothing."""
    temporary = tempfile.mkdtemp(dir=scratch)
    case = cases.case_of(name, temporary)
    path = f"{temporary}/lesson.bench"
    shutil.copyfile(case.words[0], path)
    ran = cases.run(program, [path, SAVE, path], case.script)
    if ran.status != 0 or ran.output != case.output:
        return f"status {ran.status}, {ran.errors!r}"
    return cases.first_difference(case.saved, cases.read(path))
