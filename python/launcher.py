"""Runs a module of this checkout's packages, none of which is installed while it is worked on.

A command finds this file by its own place. It names its module, and ends with the status that the module's main gives.
"""

import importlib
import sys
from pathlib import Path

TOP = Path(__file__).resolve().parents[1]
# looked through before all else: the packages, the client, and what builds it
PACKAGES = [str(TOP / place) for place in ("python/src", "clients/python/src", "clients/python/backend")]


def launch(module: str, *words: str) -> None:
    """Calls main of the module, with these words before those of the command line."""
    sys.dont_write_bytecode = True
    # this folder stays, after them: a process that multiprocessing spawns imports the command again
    sys.path[:0] = PACKAGES
    sys.argv[1:1] = words
    sys.exit(importlib.import_module(module).main())
