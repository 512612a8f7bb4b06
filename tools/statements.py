"""Proofs from nothing, over libraries that hold what they state and not its proofs.

`rt lib` builds a library with its checked proofs, and keeps the check's work for the next one. For
the program alone neither is needed: a library that is cut to its statements, as in `rt ci`, makes
each proof over it cheaper. What is built so lies in crates/NAME/out/statements, next to what `rt`
keeps, and serves until the crate or one below it changes.
"""
import functools
import hashlib
import os
import shutil
import subprocess

import side_by_side as side

TARGET = "x86_64-unknown-linux-gnu"


def said_by_rt(word):
    """Returns what a command of `rt` prints."""
    return subprocess.run(
        ["rt", word], check=True, stdout=subprocess.PIPE, text=True
    ).stdout.strip()


@functools.lru_cache(None)
def kit():
    """Returns the folder of the Rattle kit, of the page that `rt doc` names."""
    return os.path.dirname(said_by_rt("doc"))


@functools.lru_cache(None)
def kit_name():
    return said_by_rt("version")


def folder_of(name):
    return f"{side.TOP}/crates/{name}"


def built_path(name):
    """Returns where a crate's library or program is built."""
    return f"{folder_of(name)}/out/statements/{name}{'' if side.is_program(name) else '.rlib'}"


def crate_sum(crates, name):
    """Returns a sum of all that a crate's library or program is made from."""
    found, lines = hashlib.sha256(kit_name().encode()), side.crate_lines()
    for it in [*side.all_below(crates, name), name]:
        found.update(repr(lines[it]).encode())
        for part in side.PARTS:
            for at, _, files in sorted(os.walk(f"{folder_of(it)}/{part}")):
                for path in sorted(f"{at}/{file}" for file in files):
                    with open(path, "rb") as source:
                        content = os.path.relpath(path, side.TOP), source.read()
                    found.update(repr(content).encode())
    return found.hexdigest()


def words_of(crates, name, made=built_path):
    """Returns the words that give `rattle` a crate, the libraries that its line of crates.txt
    names, and where theirs are; `made`: where each is built."""
    words = ["--crate-name", name, f"src/{'main' if side.is_program(name) else 'lib'}.rt"]
    named = side.libraries_in(side.crate_lines()[name])
    for it in ["std", *[it for it in named if it not in crates]]:
        words += ["--extern", f"{it}={kit()}/rlibs/{it}.rlib"]
    for it in crates[name]:
        words += ["--extern", f"{it}={made(it)}"]
    for at in [
        f"{kit()}/rlibs",
        *[os.path.dirname(made(it)) for it in side.all_below(crates, name)],
    ]:
        words += ["-L", f"dependency={at}"]
    words += [
        "--antt-project",
        f"{kit()}/rattle/logic/antt-project.json",
        "--logic-built",
        f"{kit()}/logic_built",
    ]
    return [*words, "--links", f"{name}="]


def toolchain_words():
    """Returns the words that give `rattle` and the linker the kit's compilers."""
    return ["--toolchain", f"{kit()}/toolchain"]


def c_libraries():
    """Returns the paths of the kit's C libraries, with which a program is linked."""
    return [f"{kit()}/c/lib{it}_c.a" for it in ("os", "libc")]


def link_command(unlinked, linked):
    """Returns the words that link a program from its object file."""
    return [
        f"{kit()}/bin/rattle-link",
        "--target",
        TARGET,
        *toolchain_words(),
        "-o",
        linked,
        unlinked,
        *c_libraries(),
    ]


def steps_of(crates, name, jobs):
    """Returns the commands that prove and build a crate, in the crate's folder."""
    prover = [f"{kit()}/bin/rattle", "build", *words_of(crates, name), "--jobs", str(jobs)]
    if not side.is_program(name):
        return [[*prover, "--statements", "-o", built_path(name)]]
    unlinked = f"out/statements/{name}.o"
    # Rattle's own compiler is done a minute sooner than LLVM, and nothing else is left to do
    return [
        [*prover, *toolchain_words(), "--backend", "rattle", "-o", unlinked],
        link_command(unlinked, built_path(name)),
    ]


def llvm_steps_of(crates, name, unlinked, built):
    """Returns the commands that prove a program's own crate, build it by LLVM and link it, in its
    folder."""
    prover = [f"{kit()}/bin/rattle", "build", *words_of(crates, name), *toolchain_words()]
    return [[*prover, "-o", unlinked], link_command(unlinked, built)]


def prove(crates, name, jobs, niceness):
    """Proves and builds one crate over the statements of those below it, unless that is done, and
    returns whether it is proved."""
    is_proved = is_current(crates, name) or build(crates, name, jobs, niceness)
    if is_proved and side.is_program(name):
        # It replaces the program that `rt` built at one stroke, even if that is running
        shutil.copy2(built_path(name), f"{built_path(name)}.new")
        os.replace(f"{built_path(name)}.new", f"{folder_of(name)}/out/{name}")
    return is_proved


def is_current(crates, name):
    """Returns whether a crate is built from the sources that are here now."""
    return os.path.exists(built_path(name)) and side.text_of(
        f"{folder_of(name)}/out/statements/sum"
    ) == crate_sum(crates, name)


def build(crates, name, jobs, niceness):
    """Proves and builds one crate in place, and returns whether it is proved; the sum of what it
    was made from is kept with it."""
    kept, wanted = f"{folder_of(name)}/out/statements", crate_sum(crates, name)
    shutil.rmtree(kept, ignore_errors=True)
    os.makedirs(kept)
    for step in steps_of(crates, name, jobs):
        log = f"{kept}/{os.path.basename(step[0])}.log"
        if not side.PROCESSES.call(["nice", "-n", str(niceness), *step], folder_of(name), log):
            if not side.PROCESSES.are_ended:
                side.show_failure(log, name)
            return False
    # Edits made meanwhile may or may not be in it
    if crate_sum(crates, name) == wanted:
        with open(f"{kept}/sum", "w", encoding="utf-8") as file:
            file.write(wanted)
    return True
