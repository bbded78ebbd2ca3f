"""The program `store`, the server of the object store, as pip installs it: the package store_server."""

from __future__ import annotations

import os
import sys
from pathlib import Path
from typing import NoReturn


def path() -> str:
    """Where the program is."""
    return str(Path(__file__).resolve().with_name("store"))


def main() -> NoReturn:
    """Becomes the program, with the words of the command line."""
    os.execv(path(), ["store", *sys.argv[1:]])
