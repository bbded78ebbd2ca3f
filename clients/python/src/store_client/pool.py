"""A connection for each thread."""

from __future__ import annotations

import concurrent.futures
import os
import threading
import weakref
from typing import Any, List, Optional, Sequence, TypeVar

from .board import board_of
from .checks import LAST_NUMBER, PathLike, key_bytes, seconds, socket_path, whole_number
from .connection import Connection, NewIds
from .held import Holder
from .ids import ObjectId
from .keeping import Keeping
from .parts import MOST_AT_ONCE
from .refusals import ConnectionLost
from .steps import Steps
from .values import ValueCalls

T = TypeVar("T")

_pools: weakref.WeakSet[Pool] = weakref.WeakSet()


class Pool(ValueCalls):
    """Connections to one node, one for each thread that calls, opened when it first does.

    A process that is forked off opens its own, and a lost connection is replaced at the next call. What belongs to a session, such
    as the holds of `hold`, belongs to the thread's. Values that are put or got in parts use `connections` threads more, 1 to 8. A
    pool can be pickled, for a process that is to open its own: the pickle has the job's key.
    """

    def __init__(
        self, path: PathLike, job: int, key: bytes, timeout: Optional[float] = None, connections: int = 4, keeper: bool = True
    ) -> None:
        """As `connect`; nothing is opened yet."""
        super().__init__(whole_number(job, "a job", 0, LAST_NUMBER))
        self._words = socket_path(path), self.job, key_bytes(key), seconds(timeout)
        self._has_keeper = keeper
        self._requests.keeping = Keeping(*self._words[:3], keeper)
        self._connections = whole_number(connections, "how many connections there are for parts", 1, MOST_AT_ONCE)
        self._is_closed = False
        self._begin()
        _pools.add(self)

    def _begin(self) -> None:
        """What belongs to this process, also to one that was forked off, while it has but one thread."""
        self._lock = threading.Lock()
        self._local = threading.local()
        self._members: weakref.WeakSet[_Member] = weakref.WeakSet()
        self._requests.board = board_of(self._words[0], self.job)
        self._ids = NewIds(self.job, self._requests.keeping)
        self._workers: Optional[concurrent.futures.ThreadPoolExecutor] = None

    def connection(self) -> Connection:
        """This thread's own. `NotAdmitted`, `ConnectionLost`."""
        if self._is_closed:
            raise ConnectionLost("the pool is closed")
        member: Optional[_Member] = getattr(self._local, "member", None)
        if member is None or not member.is_usable:
            member = self._local.member = _Member(self, *self._words)
            with self._lock:
                self._members.add(member)
        return member

    def close(self) -> None:
        """All its sessions end."""
        self._is_closed = True
        with self._lock:
            workers, self._workers = self._workers, None
            members = list(self._members)
        if workers:
            workers.shutdown()
        self._requests.keeping.close(is_clean=all(member.is_usable for member in members))
        for member in members:
            member.close()

    def __enter__(self) -> Pool:
        return self

    def __exit__(self, *_: object) -> None:
        self.close()

    def __repr__(self) -> str:
        return f"<Pool of job {self.job} at {self._words[0]}{', closed' if self._is_closed else ''}>"

    def __reduce__(self) -> Any:
        return Pool, (*self._words, self._connections, self._has_keeper)

    @property
    def epoch(self) -> Optional[str]:
        return self.connection().epoch

    def new_id(self) -> ObjectId:
        return self.connection().new_id()

    def _run(self, steps: Steps[T], timeout: Optional[float] = None) -> T:
        return self.connection()._run(steps, timeout)

    def _holder(self) -> Holder:
        return self.connection()

    def drive_all(self, all: Sequence[Steps[Any]], end: Optional[float]) -> List[Any]:
        """What each of the steps gives, several at a time. After a fault no more are begun, and it is raised once all have ended."""
        running: List[concurrent.futures.Future[Any]] = []
        try:
            with self._lock:
                if self._workers is None:
                    self._workers = concurrent.futures.ThreadPoolExecutor(self._connections, "store_client")
                for steps in all:
                    running.append(self._workers.submit(self._drive_one, steps, end))
            concurrent.futures.wait(running, return_when=concurrent.futures.FIRST_EXCEPTION)
        finally:
            for future in running:
                future.cancel()
            concurrent.futures.wait(running)
        return [future.result() for future in running if not future.cancelled()]

    def _drive_one(self, steps: Steps[Any], end: Optional[float]) -> Any:
        return self.connection()._drive(steps, end)


class _Member(Connection):
    """A connection of a pool's. It ends with its thread, as soon as nothing that it holds is left."""

    def __init__(self, pool: Pool, path: str, job: int, key: bytes, timeout: Optional[float]) -> None:
        self._pool = weakref.ref(pool)
        super().__init__(path, job, key, timeout, keeper=False)
        self._requests.keeping, self._ids = pool._requests.keeping, pool._ids

    def _drive_all(self, all: Sequence[Steps[Any]], end: Optional[float]) -> List[Any]:
        pool = self._pool()
        return pool.drive_all(all, end) if pool else super()._drive_all(all, end)

    def _end_keeping(self, is_clean: bool) -> None:
        """The pool does that."""

    def __del__(self) -> None:
        stream = getattr(self, "_stream", None)
        if stream:
            stream.close()


def _begin_all() -> None:
    for pool in list(_pools):
        pool._begin()


os.register_at_fork(after_in_child=_begin_all)
