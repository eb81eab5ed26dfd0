"""The toolchain's own rt, as a Python module."""
import importlib.machinery
import importlib.util
import os
import shutil
import sys


def load_rt():
    """What `rt` runs, without running it. Ends the program if there is no toolchain."""
    found = shutil.which("rt")
    if not found:
        sys.exit("there is no toolchain: rt is not on the path")
    loader = importlib.machinery.SourceFileLoader("kit_rt", os.path.realpath(found))
    module = importlib.util.module_from_spec(importlib.util.spec_from_loader("kit_rt", loader))
    loader.exec_module(module)
    return module
