"""What page/build makes: the programs' modules, and the page as one file; or those of a release."""
import os
import shutil
import sys
import threading

TOP = os.path.dirname(os.path.dirname(os.path.dirname(os.path.realpath(__file__))))
sys.path[:0] = [f"{TOP}/page/build", f"{TOP}/tools"]
import module  # noqa: E402
import pack  # noqa: E402
import releases  # noqa: E402

# Tests run side by side, and one of them makes the module
TURN = threading.Lock()
# The paths of the release's modules by program, if tests take the release and nothing is made
RELEASED = {}


def take_release(scratch):
    """Makes all tests take the page and the modules of release/, and puts the modules into a
    folder."""
    RELEASED.update(releases.put_modules(scratch))


def made_module(program=module.PROGRAM):
    """Returns the path of a program's module, which is made first if it has to be."""
    if RELEASED:
        return RELEASED[program]
    with TURN:
        return module.module(program)


def has_module():
    return bool(RELEASED) or module.is_current()


def made_modules():
    """Returns the path of each program's module, by the program's name."""
    return {it: made_module(it) for it in module.PROGRAMS}


def packed(modules):
    """Returns the page with these modules, each of a path, as it opens with its first screen."""
    if RELEASED and modules == RELEASED:
        return releases.read(releases.PAGE).decode()
    return pack.packed(modules, None)


def put_modules(scratch, script):
    """Puts the page's modules and a script of this folder into a folder, so that node takes each of
    them for a module."""
    shutil.copytree(f"{TOP}/page", f"{scratch}/page")
    shutil.copy(f"{TOP}/tests/pages/{script}", scratch)
    with open(f"{scratch}/package.json", "w", encoding="ascii") as file:
        file.write('{ "type": "module" }')
