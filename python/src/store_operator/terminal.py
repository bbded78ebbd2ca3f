"""The terminal from which the daemon was started. Its end is told by the signal by which an operator tells of new settings."""

from __future__ import annotations

import asyncio
import os
import time
from typing import Optional

# seconds between two looks; and for which a signal that comes after the terminal was seen to be gone may still tell of that
_PAUSE, _HANGING_UP = 1.0, 3.0


class Terminal:
    """There may be none."""

    def __init__(self) -> None:
        self._was_there = _is_there()
        self._seen_gone: Optional[float] = None

    @property
    def has_just_gone(self) -> bool:
        """Whether a SIGHUP that comes now tells of its end."""
        if not self._was_there or _is_there():
            return False
        return self._seen_gone is None or time.monotonic() - self._seen_gone < _HANGING_UP

    async def watch(self) -> None:
        """Until it has gone: a daemon in the background may not be told."""
        while self._was_there and _is_there():
            await asyncio.sleep(_PAUSE)
        self._seen_gone = time.monotonic()


def _is_there() -> bool:
    """Whether the process has a terminal that is still there."""
    try:
        os.close(os.open("/dev/tty", os.O_RDWR | os.O_NOCTTY | os.O_CLOEXEC))
    except OSError:
        return False
    return True
