"""The kit's program rt, for scripts that do one of its steps."""

import importlib.machinery
import importlib.util
import os
import shutil
import sys


def load_rt():
    """The program rt as a module; `rtlib` in it is what it knows of crates."""
    program = os.path.realpath(shutil.which("rt") or sys.exit("rt isn't here"))
    loader = importlib.machinery.SourceFileLoader("rt", program)
    made = importlib.util.module_from_spec(importlib.util.spec_from_loader("rt", loader))
    sys.dont_write_bytecode = True
    loader.exec_module(made)
    return made
