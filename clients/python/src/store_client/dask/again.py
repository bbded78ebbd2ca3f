"""When something that failed may be tried again."""

from __future__ import annotations

import time
from typing import Callable

# in seconds
_FIRST, _LONGEST = 0.5, 30.0


class Tries:
    """Tries with a pause after each that fails. It is twice as long as the one before, and 30 seconds at most."""

    def __init__(self, clock: Callable[[], float] = time.monotonic) -> None:
        self._clock = clock
        self._pause = _FIRST
        self._next = 0.0

    @property
    def seconds_left(self) -> float:
        """Of the pause; 0 if it is over."""
        return max(0.0, self._next - self._clock())

    def failed(self) -> None:
        """A try has failed: the pause begins."""
        self._next = self._clock() + self._pause
        self._pause = min(2 * self._pause, _LONGEST)
