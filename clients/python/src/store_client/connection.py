"""A session with a node, over its Unix socket."""

from __future__ import annotations

import contextlib
import inspect
import os
import threading
import time
import weakref
from typing import Any, List, Optional, Sequence, TypeVar, Union

from .board import board_of
from .checks import LAST_NUMBER, PathLike, key_bytes, seconds, socket_path, whole_number
from .epochs import read_epoch
from .frames import Command
from .held import Holder
from .ids import ObjectId, Task
from .keeping import Keeping
from .refusals import ConnectionLost, ProtocolError, ServerSilent, StoreError, TimedOut, of_another_process
from .requests import Answer, Request, hello, holds_after, value_of
from .steps import GRACE, Ask, Effect, Over, Rest, Steps, TakeBack, Together, answers_due, fail, go_on
from .stream import Stream
from .values import ValueCalls

T = TypeVar("T")

# how long the server has to do what it was sent before, and to delete what was left, once a put was cut off, in seconds
_LAST_RESPECTS = 1.0
# how long connecting takes at most, if no timeout is given, in seconds
OPENING = 60.0
# by which an object comes to be
_MAKING = (Command.CREATE, Command.CREATE_WAIT, Command.WRITE, Command.SEAL)

_open: weakref.WeakSet[Connection] = weakref.WeakSet()


class NewIds:
    """Ids that no other process, thread or connection makes: of a random task of 20 bytes, which the keeper is told of."""

    def __init__(self, job: int, keeping: Keeping) -> None:
        self._job, self._keeping = job, keeping
        self._lock = threading.Lock()
        self._task = Task(os.urandom(20))
        self._index = 0

    def next(self) -> ObjectId:
        with self._lock:
            if self._index == LAST_NUMBER:
                self._task, self._index = Task(os.urandom(20)), 0
            if not self._index:
                self._keeping.task(self._task)
            self._index += 1
            return ObjectId(self._task, self._job, self._index)


class Connection(ValueCalls):
    """A session. Threads may share it: their exchanges with the server take turns. No process may use another's.

    After `ConnectionLost` or `ProtocolError` each call raises `ConnectionLost`. So it is after a call that was interrupted while
    the server's answer was due.
    """

    def __init__(self, path: PathLike, job: int, key: bytes, timeout: Optional[float] = None, keeper: bool = True) -> None:
        """See `connect`."""
        self._path, self._key = socket_path(path), key_bytes(key)
        self._timeout = seconds(timeout)
        super().__init__(whole_number(job, "a job", 0, LAST_NUMBER))
        self._process = os.getpid()
        # of a thread's exchange; it can be given up by its owner alone, and so in any case
        self._lock = threading.RLock()
        self._is_exchanging = False
        self._lost: Optional[str] = None
        # whether the server has done all that it was sent, once the connection is lost
        self._is_settled = False
        # how many holds the session has, and those that were dropped while the connection was in use
        self._holds = 0
        self._dropped: List[ObjectId] = []
        self._requests.keeping = Keeping(self._path, self.job, self._key, keeper)
        self._requests.board = board_of(self._path, self.job)
        self._ids = NewIds(self.job, self._requests.keeping)
        due = answers_due([], None, OPENING if self._timeout is None else self._timeout)
        self._stream = Stream(self._path, due)
        try:
            value_of(self._exchange([hello(self.job, self._key)], due)[0])
        except ServerSilent as error:
            raise ServerSilent(f"{self._path}: {error}") from None
        except BaseException:
            self._stream.close()
            raise
        self._epoch = read_epoch(self._path)
        _open.add(self)

    def close(self) -> None:
        """The session ends, and gives up its holds. Nothing is sent any more; a call that waits in another thread is told that the
        connection is lost."""
        self._end_keeping(is_clean=self.is_usable)
        self._lost = self._lost or "the connection is closed"
        if os.getpid() == self._process:
            self._stream.interrupt()
        with self._lock:
            self._stream.close()

    def _end_keeping(self, is_clean: bool) -> None:
        self._requests.keeping.close(is_clean)

    @property
    def is_usable(self) -> bool:
        """Whether the connection is neither lost nor closed, and is this process's."""
        return self._lost is None and os.getpid() == self._process

    def __enter__(self) -> Connection:
        return self

    def __exit__(self, *_: object) -> None:
        self.close()

    def __repr__(self) -> str:
        return f"<Connection of job {self.job} to {self._path}{': ' + self._lost if self._lost else ''}>"

    def __reduce__(self) -> Any:
        raise TypeError("a connection isn't pickled: each process opens its own, or uses a Pool, which can be pickled")

    @property
    def epoch(self) -> Optional[str]:
        return self._epoch

    def new_id(self) -> ObjectId:
        self._check_process()
        return self._ids.next()

    def release_later(self, id: ObjectId) -> None:
        """One hold of the session less, now or with the next call. This raises nothing; it is what a dropped `Held` does."""
        if not self.is_usable:
            return
        self._dropped.append(id)
        # whoever has the lock, perhaps this very thread, is in a call; the next one sends it
        if self._lock.acquire(blocking=False):
            try:
                if not self._is_exchanging:
                    self._exchange_locked([], time.monotonic() + GRACE)
            except StoreError:
                pass
            finally:
                self._lock.release()

    # ---- how

    def _holder(self) -> Holder:
        return self

    def _run(self, steps: Steps[T], timeout: Optional[float] = None) -> T:
        return self._drive(steps, None if timeout is None else time.monotonic() + timeout)

    def _drive(self, steps: Steps[T], end: Optional[float]) -> T:
        try:
            return self._go_through(steps, go_on(steps), end)
        except BaseException as error:
            # what comes between two of the steps they haven't heard of yet
            if inspect.getgeneratorstate(steps) != inspect.GEN_CLOSED:
                self._go_through(steps, fail(steps, error), end)
            raise

    def _go_through(self, steps: Steps[T], effect: Union[Effect, Over], end: Optional[float]) -> T:
        while not isinstance(effect, Over):
            effect = self._advance(steps, effect, end)
        result: T = effect.result
        return result

    def _advance(self, steps: Steps[Any], effect: Effect, end: Optional[float]) -> Union[Effect, Over]:
        """Does what the steps ask for, and tells them what came of it, also if that is a fault."""
        try:
            outcome = self._do(effect, end)
        except BaseException as error:
            return fail(steps, error)
        return go_on(steps, outcome)

    def _do(self, effect: Effect, end: Optional[float]) -> Any:
        if isinstance(effect, Ask):
            return self._exchange(effect.requests, answers_due(effect.requests, end, self._timeout), effect.last)
        if isinstance(effect, Rest):
            return _rest(effect)
        if isinstance(effect, Together):
            return self._drive_all(effect.all, end)
        return self._take_back(effect, end)

    def _drive_all(self, all: Sequence[Steps[Any]], end: Optional[float]) -> List[Any]:
        """What each of the steps gives: here one after the other."""
        return [self._drive(steps, end) for steps in all]

    def _exchange(self, requests: Sequence[Request[Any]], end: Optional[float], last: Sequence[Request[Any]] = ()) -> List[Answer]:
        self._check_process()
        try:
            if not self._lock.acquire(timeout=-1 if end is None else min(max(0.0, end - time.monotonic()), threading.TIMEOUT_MAX)):
                raise TimedOut("the connection was in use by other threads all the time")
            if self._is_exchanging:
                raise StoreError("a call was made in the middle of another one of the same thread, as by the handler of a signal")
            return self._exchange_locked(requests, end, last)
        finally:
            # an interruption may come just when the lock was taken, or before
            try:
                self._lock.release()
            except RuntimeError:
                pass

    def _exchange_locked(
        self, requests: Sequence[Request[Any]], end: Optional[float], last: Sequence[Request[Any]] = ()
    ) -> List[Answer]:
        if self._lost is not None:
            raise ConnectionLost(self._lost)
        try:
            self._is_exchanging = True
            dropped, self._dropped = self._dropped, []
            releases = [self._requests.release(id) for id in dropped]
            last = last if self._holds == len(releases) else ()
            sent = [*releases, *requests, *last] if releases or last else requests
            answers = self._stream.exchange(sent, end)
            self._holds = holds_after(self._holds, sent, answers)
            return answers[len(releases) :]
        except BaseException as error:
            self._give_up(error, requests)
            raise
        finally:
            self._is_exchanging = False

    def _give_up(self, error: BaseException, requests: Sequence[Request[Any]]) -> None:
        """Which replies are still to come isn't known any more, so no other call can follow."""
        if isinstance(error, ProtocolError):
            self._lost = self._lost or f"the connection was given up: {error}"
        else:
            self._lost = self._lost or (str(error) if isinstance(error, StoreError) else "the connection was lost: a call was cut short")
        try:
            if any(request.command in _MAKING for request in requests):
                self._is_settled = self._stream.finish(time.monotonic() + _LAST_RESPECTS)
        finally:
            self._stream.close()

    def _take_back(self, effect: TakeBack, end: Optional[float]) -> None:
        deletes = [self._requests.delete(id) for id in effect.ids]
        with contextlib.suppress(StoreError):
            if self._lost is None:
                self._exchange(deletes, answers_due(deletes, end, self._timeout))
            elif self._is_settled and os.getpid() == self._process:
                with Connection(self._path, self.job, self._key, _LAST_RESPECTS, keeper=False) as other:
                    other._exchange(deletes, time.monotonic() + _LAST_RESPECTS)

    def _check_process(self) -> None:
        if os.getpid() != self._process:
            raise of_another_process(self._process, os.getpid())

    def _forget(self) -> None:
        """In a process that was forked off: the session is the parent's. The lock may be held by a thread that isn't here."""
        self._lock = threading.RLock()
        self._stream.close()


def _rest(rest: Rest) -> None:
    if rest.bell is None:
        return time.sleep(rest.seconds)
    rest.bell.rest(rest.seconds)


def _forget_all() -> None:
    for connection in list(_open):
        connection._forget()


os.register_at_fork(after_in_child=_forget_all)


def connect(path: PathLike, job: int, key: bytes, timeout: Optional[float] = None, keeper: bool = True) -> Connection:
    """A session of the job at the node whose socket this is; the operator gave the key of 32 bytes. `NotAdmitted`, `ConnectionLost`.

    With a timeout, in seconds, the server has so long to answer: now, and to each call that has no timeout of its own.
    A server that doesn't is `ServerSilent`, and the connection is lost. Without one connecting takes a minute at most, and a call any time.

    The first put starts the keeper, a small process that deletes what is left half put if this one is killed; without it that stays.
    """
    return Connection(path, job, key, timeout, keeper)
