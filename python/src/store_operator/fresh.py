"""Work that many ask for, and that is done once for all of them."""

from __future__ import annotations

import asyncio
import time
from typing import Awaitable, Callable, Generic, Optional, TypeVar

T = TypeVar("T")


class Fresh(Generic[T]):
    """One piece of work at a time. What it gave is given again until so many seconds after its begin; what it raised never is."""

    def __init__(self, work: Callable[[], Awaitable[T]], seconds: float) -> None:
        self._work = work
        self._seconds = seconds
        self._begun = 0.0
        self._last: Optional["asyncio.Future[T]"] = None

    async def get(self) -> T:
        if self._last is None or self._is_over(self._last):
            self._begun = time.monotonic()
            self._last = asyncio.ensure_future(self._work())
            # who asked may have gone
            self._last.add_done_callback(lambda done: done.cancelled() or done.exception())
        return await asyncio.shield(self._last)

    def _is_over(self, last: "asyncio.Future[T]") -> bool:
        if not last.done():
            return False
        return last.cancelled() or last.exception() is not None or time.monotonic() - self._begun >= self._seconds
