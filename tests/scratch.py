"""Tools as modules, each loaded for one test by itself, and files for scratch folders."""
import importlib.machinery
import importlib.util
import os
import sys

TOP = os.path.dirname(os.path.dirname(os.path.realpath(__file__)))


def loaded(path):
    """Returns a tool as a module of its own."""
    loader = importlib.machinery.SourceFileLoader(
        os.path.basename(path).partition(".")[0], f"{TOP}/{path}"
    )
    module = importlib.util.module_from_spec(importlib.util.spec_from_loader(loader.name, loader))
    with_tools = f"{TOP}/tools"
    if with_tools not in sys.path:
        sys.path.append(with_tools)
    loader.exec_module(module)
    return module


def write_text(path, text, mode=0o644):
    """Writes a text to a file, whose folders are made if they must be."""
    os.makedirs(os.path.dirname(path), exist_ok=True)
    with open(path, "w", encoding="utf-8") as file:
        file.write(text)
    os.chmod(path, mode)
