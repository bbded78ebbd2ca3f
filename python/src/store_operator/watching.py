"""Looks now and then whether the server answers, says so in the log, and ends one that doesn't if the settings want that."""

from __future__ import annotations

import asyncio
import logging
import os
import time
from typing import Optional

from .answering import Silent, ask_all
from .counting import OwnHellos
from .notify import tell_manager
from .settings import Settings
from .strangers import Strangers

# seconds that a look waits, and the rest after one that wasn't answered
_PATIENCE, _REST = 5.0, 1.0


class Watcher:
    """`silent_since` is the time of the first look that wasn't answered, in seconds since 1970; None of a server that answers."""

    def __init__(self, settings: Settings, own: OwnHellos, log: logging.Logger) -> None:
        self.silent_since: Optional[float] = None
        # the same by the clock that nobody sets
        self._silent_from = 0.0
        self._settings = settings
        self._own = own
        self._strangers = Strangers(settings, own, log)
        self._log = log
        self._is_told = False

    async def run(self) -> None:
        """Returns once the server is to be started again. Otherwise it goes on until it is cancelled."""
        self.silent_since, self._is_told = None, False
        self._strangers.begin()
        if not self._settings.watch:
            await asyncio.Event().wait()
        while not self._is_stuck():
            await asyncio.sleep(self._settings.watch if self.silent_since is None else min(self._settings.watch, _REST))
            await self._look()

    async def _look(self) -> None:
        asked = time.monotonic()
        try:
            await ask_all(self._settings.sockets(), self._own, min(_PATIENCE, self._settings.watch_patience))
        except Silent as why:
            self._was_silent(asked, str(why))
        else:
            self._has_answered()
            await self._strangers.look()

    def _has_answered(self) -> None:
        if self.silent_since is None:
            return
        self.silent_since = None
        self._log.info("the server answers again, after %.1f seconds", time.monotonic() - self._silent_from)
        tell_manager(f"STATUS=serves {self._settings.nodes} nodes")
        self._is_told = False

    def _was_silent(self, asked: float, why: str) -> None:
        """It is told once."""
        silence = time.monotonic() - asked
        if self.silent_since is None:
            self.silent_since, self._silent_from = time.time() - silence, asked
            tell_manager(f"STATUS=the server has not answered since {moment(self.silent_since)}")
        if not self._is_told and time.monotonic() - self._silent_from >= self._settings.watch_patience:
            self._is_told = True
            self._log.warning("the server has not answered since %s: %s", moment(self.silent_since), why)

    def _is_stuck(self) -> bool:
        """Whether the settings want it to be ended. Its objects are lost then."""
        if not (self._is_told and self._settings.restart_stuck):
            return False
        self._log.error("the server is stuck, and is ended and started again: its objects are lost")
        return True


def moment(seconds: float) -> str:
    return time.strftime("%Y-%m-%dT%H:%M:%SZ", time.gmtime(seconds))


async def tell_watchdog() -> None:
    """Tells the service manager that the daemon itself goes on, if it asks for that. Whether the server does is the watcher's."""
    pause = _watchdog_pause()
    while pause:
        tell_manager("WATCHDOG=1")
        await asyncio.sleep(pause)


def _watchdog_pause() -> float:
    """Half of the time after which the manager would take this process for stuck, in seconds; 0 if it doesn't look."""
    text, process = os.environ.get("WATCHDOG_USEC", ""), os.environ.get("WATCHDOG_PID", "")
    if not (text.isascii() and text.isdigit()) or process not in ("", str(os.getpid())):
        return 0.0
    return int(text) / 2_000_000
