"""The toolchain's command `rt` as a module: scripts call its parts, some with a part of their own in the place of one."""

import importlib.machinery
import importlib.util
import os
import shutil


def command():
    """Where the command stands, or None where it isn't on PATH."""
    found = shutil.which("rt")
    return found and os.path.realpath(found)


def load(path):
    """The command as a module, or None where it is no Python or doesn't come to its end."""
    loader = importlib.machinery.SourceFileLoader("rt_command", path)
    made = importlib.util.module_from_spec(importlib.util.spec_from_loader("rt_command", loader))
    try:
        loader.exec_module(made)
    except (SyntaxError, ValueError, ImportError, OSError):
        return None
    return made
