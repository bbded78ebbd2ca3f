"""A store that is away for a while, as `store-daemon` starts it again after a crash, is waited for up to a bound."""

from __future__ import annotations

import time
from typing import Callable, Optional, Tuple, Type, TypeVar

from .refusals import ConnectionLost, ServerSilent, StoreError
from .steps import Deadline

T = TypeVar("T")

# between two tries, in seconds
_PAUSE = 0.2


class Absence:
    """How long a store has been away, as one call has met it."""

    def __init__(self, patience: float, deadline: Deadline, away: Tuple[Type[StoreError], ...] = (ConnectionLost,)) -> None:
        """It is waited for so many seconds from when it is missed first, and no longer than the call may take. `away` are the errors by
        which it is missed. A server that is silent isn't waited for: that was done before it was said to be so."""
        self._patience = patience
        self._deadline = deadline
        self._away = away
        # of the absence that goes on
        self._end: Optional[Deadline] = None

    def outlast(self, work: Callable[[], T]) -> T:
        """What the work gives. While it finds the store away it is done again, and once the bound is over that is raised."""
        while True:
            try:
                given = work()
            except ServerSilent:
                raise
            except self._away:
                if self._is_too_long():
                    raise
            else:
                self._end = None
                return given
            time.sleep(self._deadline.within(_PAUSE))

    def _is_too_long(self) -> bool:
        self._end = self._end or Deadline(self._patience)
        return self._end.is_over or self._deadline.is_over
