"""How the workers of a host share what one of them fetches.

A part of a value of another host is fetched once a host, and offered to the host's store as a copy. A server says nothing of who made
a copy that isn't sealed, and lets anybody of the job write to it, so these rules are the workers':

* **A copy has an id of its own.** Who has fetched a part, and has compared its digest, puts it under an id that was drawn by lot
  for this try, and is made once. Nobody writes to an id that it hasn't drawn. So however slow a writer is, what it writes
  and seals is its own copy and no other's, and a sealed copy has all bytes. Others find it by the value's name, in a list.
* **A claim says whose turn it is.** Before it fetches, a worker creates the claim of the part's first turn: an object of one
  byte that is never sealed. Only one can; the others wait for a sealed copy. Who has the claim looks once more: a turn may have
  passed since it looked. The claim is deleted once the copy is sealed, or the fetch has failed.
* **A claim has a lease.** If nothing that the host has of the part has changed for the time of the lease, by the clock of the worker
  that waits, it creates the claim of the next turn. Only one can. It deletes the claims and copies that it had seen of the part, which a
  dead worker left, and fetches. If the first one was only slow, its copy is deleted under it: its Write or Seal is refused, it keeps
  nothing, and has the bytes for itself.

Claims save fetches and no more: if one is lost or the clocks are wrong, a part is fetched twice, and nothing else happens. If there is
no room for a claim or a copy, a worker fetches for itself alone.
"""

from __future__ import annotations

import contextlib
import time
from dataclasses import dataclass
from typing import Callable, Dict, Optional

from ..ids import ObjectId
from ..items import Kind, State
from ..refusals import ConnectionLost, Exists, Refused, TimedOut
from ..requests import Pieces
from ..steps import Deadline, Pauses
from .host import HostStore
from .names import Name, turn_of

# how long room for a copy is waited for, in seconds
_OFFER = 2.0

Fetch = Callable[[memoryview], None]


@dataclass(frozen=True)
class Turn:
    """That a worker may fetch, and its claim if it has one."""

    claim: Optional[ObjectId]


class Lease:
    """How long what is seen of a part has been the same."""

    def __init__(self, seconds: float) -> None:
        self._seconds = seconds
        self._seen: Optional[Dict[ObjectId, State]] = None
        self._since = 0.0

    def is_over(self, seen: Dict[ObjectId, State]) -> bool:
        """Whether this has been seen, and nothing else, for the time of the lease."""
        if seen != self._seen:
            self._seen, self._since = seen, time.monotonic()
        return time.monotonic() - self._since >= self._seconds


class Sharing:
    """The parts that a host brings from others."""

    def __init__(self, store: HostStore, lease: float) -> None:
        self._store = store
        self._lease = lease

    def bring(self, name: Name, part: int, into: memoryview, fetch: Fetch, deadline: Deadline) -> bool:
        """Fills the buffer: from a copy that the host has, or else by `fetch`. Whether it was fetched."""
        lease, pauses = Lease(self._lease), Pauses(deadline)
        while True:
            try:
                seen = self._store.copies_of(name, part)
                if self._read(seen, into, deadline):
                    return False
                turn = self._turn(seen, name, part, lease)
            except ConnectionLost:
                # the host has no store just now
                turn = Turn(None)
            if turn is not None:
                return self._take(turn, name, part, into, fetch, deadline)
            if deadline.is_over:
                raise TimedOut(f"part {part} is still being fetched by another worker of this host")
            time.sleep(pauses.next().seconds)

    def _read(self, seen: Dict[ObjectId, State], into: memoryview, deadline: Deadline) -> bool:
        whole = (id for id, state in seen.items() if state is State.SEALED)
        return any(self._store.read_into(id, into, deadline) for id in whole)

    def _turn(self, seen: Dict[ObjectId, State], name: Name, part: int, lease: Lease) -> Optional[Turn]:
        """Whose turn it is to fetch: None if it is another's."""
        latest = max(map(turn_of, seen), default=0)
        if latest and not lease.is_over(seen):
            return None
        claim = name.claim(part, latest + 1, self._store.job)
        try:
            self._store.create(claim, 1, Kind.SECONDARY)
        except Exists:
            return None
        except Refused:
            return Turn(None)
        if latest:
            self._store.delete(seen)
        return Turn(claim)

    def _take(self, turn: Turn, name: Name, part: int, into: memoryview, fetch: Fetch, deadline: Deadline) -> bool:
        """Fetches, and offers what came. Whether it fetched: another may have, between the list and the claim."""
        try:
            if turn.claim is not None and self._read(self._store.copies_of(name, part), into, deadline):
                return False
            fetch(into)
            if turn.claim is not None:
                # without room, or if it was taken for dead, this worker alone has the bytes
                with contextlib.suppress(Refused, ConnectionLost):
                    self._store.put(name.copy(part, self._store.job), Pieces([into]), Kind.SECONDARY, Deadline(_OFFER))
            return True
        finally:
            if turn.claim is not None:
                self._store.delete([turn.claim])
