"""Tells the log of Hellos that were refused, and of sessions that sent what is no frame: how many, and nothing else of a client."""

from __future__ import annotations

import logging
import time

from .counting import OwnHellos, look_at_counts
from .counts import Counts, NodeCounts
from .relaying import NoSuchLine, Unanswered
from .settings import Settings

# seconds that a look may take
_LONGEST_LOOK = 4.0


class Strangers:
    """At one run of the server after another: a line a node and look at most."""

    def __init__(self, settings: Settings, own: OwnHellos, log: logging.Logger) -> None:
        self._settings = settings
        self._own = own
        self._log = log
        self.begin()

    def begin(self) -> None:
        """Of a run that begins nothing was counted yet."""
        self._last = Counts(time.monotonic(), tuple(NodeCounts(node, 0, 0, 0, 0, 0, 0) for node in range(self._settings.nodes)), ())
        self._is_older = False

    async def look(self) -> None:
        """What couldn't be looked at is told at the next look. A server that has no such line isn't asked again."""
        if self._is_older:
            return
        try:
            seen = await look_at_counts(self._settings.server_control(), self._settings.nodes, (), self._own, _LONGEST_LOOK)
        except Unanswered as why:
            self._is_older = isinstance(why, NoSuchLine)
            return
        seconds = seen.moment - self._last.moment
        for before, after in zip(self._last.nodes, seen.nodes):
            said = _said(after.hellos_refused - before.hellos_refused, after.malformed - before.malformed)
            if said:
                self._log.warning("node %d: %s, in %.*f seconds", after.node, said, int(seconds < 1), seconds)
        self._last = seen


def _said(refused: int, malformed: int) -> str:
    """Nothing if nothing was."""
    parts = []
    if refused > 0:
        parts.append("1 Hello was refused" if refused == 1 else f"{refused} Hellos were refused")
    if malformed > 0:
        parts.append(f"{malformed} {'session' if malformed == 1 else 'sessions'} sent what is no frame")
    return " and ".join(parts)
