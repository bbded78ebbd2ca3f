"""What those share who wait for objects of a job at one node, in one process, over whatever connections.

A few ask each for their own. Of many, one leads: it asks by one List for all, as often as its pauses say, and wakes those whose objects
have come. The others rest for longer, and then look also at other nodes, of which a List says nothing. Who began to wait last leads, since
what it waits for may come soonest; when its wait is over it wakes another, who leads then.
"""

from __future__ import annotations

import contextlib
import os
import threading
import weakref
from typing import TYPE_CHECKING, Callable, Dict, Mapping, Optional, Tuple

from .items import State

if TYPE_CHECKING:
    from .finding import Search

# so many things that are waited for are many
_MANY = 5
# states of a copy that a Get brings, in a List; -1 is what is granted
_THERE = (State.SEALED, State.RESTORING, State.AWAY, -1)


class Bell:
    """Ends the rest of who has it."""

    def __init__(self) -> None:
        self.is_rung = False
        #: whether what is waited for has come, as far as is known
        self.has_come = False
        #: what wakes who rests just now; by itself a thread
        self.wake: Callable[[], object] = self._wake_thread
        # it is free from a ring to the end of the rest
        self._quiet = threading.Lock()
        self._quiet.acquire()

    def ring(self) -> None:
        """Also if nobody rests yet."""
        self.is_rung = True
        self.wake()

    def _wake_thread(self) -> None:
        # it may be rung already
        with contextlib.suppress(RuntimeError):
            self._quiet.release()

    def rest(self, seconds: float) -> None:
        """The thread rests so long, or until it is rung."""
        self._quiet.acquire(timeout=seconds)
        self.is_rung = False

    def hush(self) -> None:
        """As if it hadn't been rung."""
        self._quiet.acquire(blocking=False)
        self.is_rung = False


class Board:
    """Who waits for what."""

    def __init__(self) -> None:
        #: the bell of who waits for each object
        self.waits: Dict[Search, Bell] = {}
        self._leader: Optional[Bell] = None
        self._pause = 0.0

    @property
    def is_shared(self) -> bool:
        """Whether many wait."""
        return len(self.waits) >= _MANY

    def leads(self, bell: Bell, pause: float) -> bool:
        """Whether who has this bell, and would pause so long, asks for all."""
        if self._leader is None or self._leader is bell or 2 * pause < self._pause:
            self._leader, self._pause = bell, pause
        return self._leader is bell

    def leave(self, bell: Bell) -> None:
        """Who has this bell waits no longer."""
        if self._leader is bell:
            self._leader = None
            for other in list(self.waits.values())[-1:]:
                other.ring()

    def tell(self, names: Mapping[bytes, int]) -> None:
        """Wakes those whose objects are listed."""
        for search, bell in list(self.waits.items()):
            if is_there(search.name, names):
                bell.has_come = True
                bell.ring()


# of each socket's path and job, as long as somebody may wait
_boards: weakref.WeakValueDictionary[Tuple[str, int], Board] = weakref.WeakValueDictionary()
_lock = threading.RLock()


def board_of(path: str, job: int) -> Board:
    """That of the process for the node whose socket this is, and the job."""
    name = os.path.realpath(path), job
    with _lock:
        return _boards.setdefault(name, Board())


def _forget_all() -> None:
    """In a process that was forked off nobody waits. The lock may be held by a thread that isn't here."""
    global _lock
    _lock = threading.RLock()
    _boards.clear()


# before what has a board asks for one anew: these are done in the order in which the modules are imported
os.register_at_fork(after_in_child=_forget_all)


def is_there(name: bytes, names: Mapping[bytes, int]) -> bool:
    """Whether a List says that a Get brings the object, or that it is granted."""
    return names.get(name) in _THERE
