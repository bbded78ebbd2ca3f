"""A folder to begin with: settings, and a key for job 1."""

from __future__ import annotations

import os
import secrets
from pathlib import Path
from typing import Optional

_SETTINGS = """\
# What each option means is in docs/OPERATING.md and store-daemon(1). Paths are taken from this folder on.
[store]
{program}nodes = 1
memory = 256M
socket = store
control = control
spill = spill

[job 1]
window = 64M
device = 1G
key_file = job1.key
"""


def make_first(folder: Path, program: Optional[Path]) -> Path:
    """Makes the folder, for its owner alone, and what is in it. The path of the settings, which name the program if one is given.

    What is there already stays as it is.
    """
    folder.mkdir(mode=0o700)
    _write(folder / "job1.key", secrets.token_hex(32) + "\n")
    _write(folder / "store.ini", _SETTINGS.format(program=f"program = {program}\n" if program else ""))
    return folder / "store.ini"


def _write(path: Path, text: str) -> None:
    with open(os.open(path, os.O_WRONLY | os.O_CREAT | os.O_EXCL, 0o600), "w", encoding="utf-8") as file:
        file.write(text)
