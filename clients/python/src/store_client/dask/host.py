"""The store of a host, as the workers of one job use it.

A server may have several nodes: then the parts of a value are spread over them, by epoch and number. Each node has a window and a lock
of its own, so a host has the sum of the windows, and parts are sealed beside each other.
"""

from __future__ import annotations

import concurrent.futures
import contextlib
import time
from typing import Callable, Dict, Iterable, Iterator, List, Optional, Sequence, Tuple, Type, TypeVar

from ..frames import LARGEST
from ..ids import ObjectId
from ..items import Kind, State, Usage
from ..pool import Pool
from ..putting import write_and_seal
from ..refusals import Absent, Busy, ConnectionLost, Full, Granted, NotHeld, Pending, Refused, ServerSilent, StoreError, TooMany
from ..requests import Pieces
from ..steps import Deadline, Pauses, ask
from .names import Name, is_primary, prefix_of

T = TypeVar("T")

# what a moment later may be different: another's hold has ended, another's spill is done
PASSING: Tuple[Type[Refused], ...] = (Full, TooMany, Busy, Pending)
# how long a server may be silent, in seconds: one that much is sealed at, on a machine that does much else, has been so for a minute
_SILENCE = 300.0
# so many parts have room in a window beside each other
_PARTS_OF_A_WINDOW = 8


class HostStore:
    """A pool for each node of the host's server."""

    def __init__(self, socket: str, nodes: int, job: int, key: bytes, part: int) -> None:
        """The socket of node K is `SOCKET.K`. `ConnectionLost`, `NotAdmitted`."""
        self.job = job
        self._pools = [Pool(f"{socket}.{node}", job, key, _SILENCE, connections=1) for node in range(nodes)]
        try:
            window = min(usage.window for usage in self.usage())
        except BaseException:
            self.close()
            raise
        #: how long a part is, in bytes
        self.part = max(16, min(part, LARGEST, window // _PARTS_OF_A_WINDOW // 16 * 16))

    def close(self) -> None:
        """All sessions end."""
        for pool in self._pools:
            pool.close()

    def usage(self) -> List[Usage]:
        """What the job uses, of each node."""
        return [reconnected(pool.usage) for pool in self._pools]

    def put(self, id: ObjectId, pieces: Pieces, kind: Kind, deadline: Deadline) -> Optional[str]:
        """A sealed object, under an id that nobody else makes. Room is waited for until the deadline. The epoch of its store."""
        pool = self._pool(id)
        patiently(lambda: self.create(id, pieces.length, kind), deadline)
        try:
            pool._run(write_and_seal(pool._requests, pieces, id))
        except BaseException:
            self.delete([id])
            raise
        return pool.epoch

    def has(self, id: ObjectId) -> bool:
        """Whether the object is here, sealed."""
        return reconnected(lambda: self._pool(id).contains(id))

    def epoch(self, id: ObjectId) -> Optional[str]:
        """The epoch of the store that is here now, by the node of this object."""
        self.has(id)
        return self._pool(id).epoch

    def read_into(self, id: ObjectId, into: memoryview, deadline: Deadline) -> bool:
        """Whether the object is here, sealed; its bytes are in the buffer then."""
        try:
            patiently(lambda: reconnected(lambda: self._pool(id).get_into(id, into)), deadline)
        except Absent:
            return False
        return True

    def create(self, id: ObjectId, length: int, kind: Kind) -> None:
        """A copy that isn't sealed."""
        reconnected(lambda: self._pool(id).create(id, length, kind))

    def delete(self, ids: Iterable[ObjectId]) -> None:
        """These copies go, if they are there; nothing is raised."""
        for id in ids:
            with contextlib.suppress(StoreError):
                self._pool(id).delete(id)

    def copies_of(self, name: Name, part: int) -> Dict[ObjectId, State]:
        """The claims and copies that the host has of a part, in the order of their ids."""
        primary = name.primary(part, self.job)
        pool = self._pool(primary)
        own, _ = reconnected(lambda: pool._run(ask(pool._requests.list(name.prefix))))
        return {item.id: item.state for item in own if item.id.index == primary.index and not is_primary(item.id)}

    def sealed_copies_of(self, name: Name, part: int) -> List[ObjectId]:
        """Those from which the part can be read."""
        return [id for id, state in self.copies_of(name, part).items() if state is State.SEALED]

    def forget(self, prefixes: Sequence[bytes]) -> int:
        """Removes all that the host has of these values. What is granted stays until its grants end. How many copies that were."""
        gone, wanted = 0, frozenset(prefixes)
        for pool in self._pools:
            for item in reconnected(pool.list)[0]:
                if prefix_of(item.id) in wanted:
                    gone += _let_go(pool, item.id)
        return gone

    def grant(self, id: ObjectId, job: int) -> None:
        """Lets another job read the object, which is brought into memory for that and stays there."""
        pool = self._pool(id)
        patiently(lambda: reconnected(lambda: pool.hold(id, wait=True, timeout=_SILENCE)), Deadline(_SILENCE))
        try:
            pool.grant(id, job)
        finally:
            pool.release(id)

    def withdraw(self, id: ObjectId, job: int) -> None:
        """The other job can read it no longer."""
        self._pool(id).withdraw(id, job)

    def _pool(self, id: ObjectId) -> Pool:
        return self._pools[(Name(prefix_of(id)).epoch + id.index) % len(self._pools)]


def _let_go(pool: Pool, id: ObjectId) -> bool:
    try:
        pool.delete(id)
    except Granted:
        # it goes with its last grant
        with contextlib.suppress(NotHeld):
            pool.unpin(id, id.task)
    except Absent:
        return False
    return True


def reconnected(work: Callable[[], T]) -> T:
    """What the work gives. If the server went away since this thread last asked, it is asked once more, by a new connection."""
    try:
        return work()
    except ServerSilent:
        raise
    except ConnectionLost:
        return work()


def patiently(work: Callable[[], T], deadline: Deadline) -> T:
    """What the work gives. As long as it is refused for what may pass, and there is time, it is done again."""
    pauses = Pauses(deadline)
    while True:
        try:
            return work()
        except PASSING:
            if deadline.is_over:
                raise
        time.sleep(pauses.next().seconds)


@contextlib.contextmanager
def all_under_way(
    threads: concurrent.futures.Executor, work: Callable[[int], T], numbers: Sequence[int]
) -> Iterator[List[concurrent.futures.Future[T]]]:
    """Does the work for each of the numbers, several at once, beside what the block does. At its end all have ended. After a fault no
    more are begun, and it is raised then."""
    running = [threads.submit(work, number) for number in numbers]
    try:
        yield running
        concurrent.futures.wait(running, return_when=concurrent.futures.FIRST_EXCEPTION)
    finally:
        for future in running:
            future.cancel()
        concurrent.futures.wait(running)
    faults = [future.exception() for future in running if not future.cancelled() and future.exception()]
    if faults and faults[0]:
        raise faults[0]


def all_of(threads: concurrent.futures.Executor, work: Callable[[int], T], numbers: Sequence[int]) -> List[T]:
    """What the work gives for each of the numbers, several at once."""
    with all_under_way(threads, work, numbers) as running:
        pass
    return [future.result() for future in running]
