"""The file of a job's key: 64 lower-case hexadecimal digits, and a line feed if one likes."""

from __future__ import annotations

import os
import re
import stat
from pathlib import Path

_KEY = re.compile(r"[0-9a-f]{64}\n?", re.ASCII)
# enough to see that a file is none
_LONGEST = 66


class KeyFault(Exception):
    """A key's file that can't be used; the text says which and why."""


def read_key(path: Path) -> str:
    """The key's digits. A file that every user may read or write is refused, since it keeps no secret."""
    try:
        # a pipe that nobody writes to isn't waited for
        with open(os.open(path, os.O_RDONLY | os.O_NONBLOCK | os.O_CLOEXEC), "rb") as file:
            found = os.fstat(file.fileno()).st_mode
            text = file.read(_LONGEST).decode("latin-1") if stat.S_ISREG(found) else ""
    except OSError as error:
        raise KeyFault(f"key file {path}: {error.strerror}") from error
    mode = stat.S_IMODE(found)
    if mode & 0o007:
        raise KeyFault(f"key file {path}: every user may use it (mode {mode:04o}): chmod o= {path}")
    if not _KEY.fullmatch(text):
        raise KeyFault(f"key file {path}: not 64 lower-case hexadecimal digits")
    return text.rstrip("\n")
