"""What scripts here take of the toolchain's own command: its list of crates, the words of a check, and the memory that a check may take.

No page of the toolchain promises these, so a newer one may want a change here.
"""

import importlib.machinery
import importlib.util
import os
import shutil
import subprocess
import sys


def load():
    """Returns the command rt of the PATH as a module, which has rtlib, the part that knows crates."""
    path = shutil.which("rt") or sys.exit("the Rattle toolchain (the command rt) must be on the PATH")
    loader = importlib.machinery.SourceFileLoader("rt", os.path.realpath(path))
    module = importlib.util.module_from_spec(importlib.util.spec_from_loader("rt", loader))
    loader.exec_module(module)
    return module


def identity():
    """Returns the toolchain's line about itself."""
    return subprocess.run(["rt", "version"], check=True, capture_output=True, text=True).stdout.strip()
