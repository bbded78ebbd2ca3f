"""Waiting for what comes a little later."""

from __future__ import annotations

import time
from typing import Any, Callable

from . import PATIENCE


def until(holds: Callable[[], Any], what: str, seconds: float = PATIENCE) -> Any:
    """Waits for what the function gives, if it is neither False nor None nor empty."""
    end = time.monotonic() + seconds
    while not (found := holds()):
        if time.monotonic() > end:
            raise AssertionError(f"not after {seconds:.0f} seconds: {what}")
        time.sleep(0.02)
    return found
