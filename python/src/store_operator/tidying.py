"""Erases that failed are tried again: what a job that has ended left in the spill folders is removed, soon and then ever more rarely.

Only of a job that is over is it known here that the server needs none of its files. Which files of a live job are still needed
the server alone knows; they go when the job ends, or the server.
"""

from __future__ import annotations

import asyncio
import contextlib
import logging
import threading
from typing import Callable, Sequence, TypeVar

from .jobs import Over
from .spill import SpillFault, SpillFolders

# seconds from the end of a job to the first look, which are doubled after each look, up to the last
_FIRST_PAUSE, _LONGEST_PAUSE = 1.0, 300.0

T = TypeVar("T")


async def aside(work: Callable[[], T]) -> T:
    """What the work gives, done in a thread for which the process doesn't wait when it ends: a disk may hang."""
    loop = asyncio.get_running_loop()
    done: "asyncio.Future[T]" = loop.create_future()

    def settle(settled: Callable[[], None]) -> None:
        def unless_done() -> None:
            if not done.done():
                settled()

        # who waited may have gone, and the loop too
        with contextlib.suppress(RuntimeError):
            loop.call_soon_threadsafe(unless_done)

    def run() -> None:
        try:
            given = work()
        except Exception as error:
            fault = error
            settle(lambda: done.set_exception(fault))
        else:
            settle(lambda: done.set_result(given))

    threading.Thread(target=run, daemon=True, name="disk").start()
    return await done


class Tidying:
    """Sweeps as long as a server runs."""

    def __init__(self, spill: SpillFolders, over: Callable[[], Sequence[Over]], log: logging.Logger) -> None:
        self._spill = spill
        self._over = over
        self._log = log
        self._ended = asyncio.Event()

    def job_ended(self) -> None:
        """The pauses begin anew."""
        self._ended.set()

    async def run(self) -> None:
        """Until it is cancelled."""
        await self._ended.wait()
        pause = _FIRST_PAUSE
        while True:
            if self._ended.is_set():
                pause = _FIRST_PAUSE
            self._ended.clear()
            await asyncio.sleep(pause)
            pause = min(2 * pause, _LONGEST_PAUSE)
            await self._sweep()

    async def _sweep(self) -> None:
        over = self._over()
        try:
            count = await aside(lambda: self._spill.sweep_jobs(over))
        except (SpillFault, OSError) as fault:
            self._log.warning("files of jobs that have ended are looked for again later: %s", fault)
            return
        if count:
            self._log.info("removed %d spilled files of jobs that have ended", count)
