"""Files that are there as long as the server serves."""

from __future__ import annotations

import os
from pathlib import Path
from typing import Optional


def write_new(path: Path, text: str, mode: int = 0o600, group: Optional[int] = None) -> None:
    """Puts a new file at the path, all at once, whatever is there: a link is replaced, and what it leads to stays as it is."""
    part = path.with_name(f"{path.name}.{os.getpid()}.part")
    try:
        with open(os.open(part, os.O_WRONLY | os.O_CREAT | os.O_EXCL | os.O_CLOEXEC, 0o600), "w", encoding="ascii") as file:
            file.write(text)
            if group is not None:
                os.fchown(file.fileno(), -1, group)
            os.fchmod(file.fileno(), mode)
        part.replace(path)
    except OSError:
        part.unlink(missing_ok=True)
        raise
