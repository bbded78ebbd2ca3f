"""The same calls as coroutines, over asyncio's own streams: many waits on one loop, over one connection.

    async with await store_client.aio.connect("/tmp/store.0", job=1, key=bytes(32)) as store:
        one = await store.put(b"Hello")
        async with await store.get(one) as view:
            print(bytes(view))

Coroutines that share a connection don't wait for each other's answers: what they send goes one after the other, and each is
told its own. A call that is cancelled leaves the connection as it is; the copy that it made is deleted, the hold that it took given
up, the fetch that it entered taken away. A connection belongs to one loop and one process.
"""

from __future__ import annotations

import asyncio
import contextlib
import functools
import time
from typing import TYPE_CHECKING, Any, Callable, List, Optional, Sequence, Tuple, Type, TypeVar, Union, overload

from . import finding, parts, putting
from .aio_session import Session
from .board import board_of
from .calls import JobTask
from .checks import LAST_NUMBER, Buffer, PathLike, flat, key_bytes, length_limit, seconds, socket_path, whole_number, writable
from .connection import OPENING, NewIds
from .encoding import decode_array, decode_value, encode_array, encode_value
from .epochs import checked_epoch, getting, read_epoch
from .held import ReadBytes
from .ids import ObjectId, Task, expect_id
from .items import GrantedItem, Kind, OwnItem, Placed, Usage
from .keeping import Keeping
from .putting import Progress
from .refusals import ConnectionLost, ServerSilent, StoreError
from .requests import Pieces, Request, Requests, hello, value_of
from .steps import Ask, Deadline, Effect, Over, Rest, Steps, TakeBack, Together, answers_due, ask, fail, go_on
from .tables import decode_table, encode_table
from .values import check_trust, expected

if TYPE_CHECKING:
    import numpy
    import pyarrow

T = TypeVar("T")
V = TypeVar("V")

# how much the reading end keeps before it lets the server wait, in bytes
_READ_LIMIT = 1 << 20
_PARTS_AT_ONCE = 4


class Held(ReadBytes):
    """An object's bytes, read, and a hold of the session on the object until the end of an `async with`, or `release`."""

    def __init__(self, holder: Optional[Connection], id: ObjectId, view: memoryview, job: int) -> None:
        super().__init__(id, view, job)
        self._holder: Optional[Connection] = holder

    async def release(self) -> None:
        """The session's hold is given up, once; the bytes that were read stay."""
        holder, self._holder = self._holder, None
        if holder:
            await holder.release(self.id)

    async def __aenter__(self) -> memoryview:
        return self.view

    async def __aexit__(self, kind: Any, *_: Any) -> None:
        try:
            await self.release()
        except StoreError:
            # what the block raised says more
            if kind is None:
                raise


class Connection:
    """A session: the calls of `store_client.Connection` as coroutines. After `ConnectionLost` each call raises it."""

    def __init__(self, session: Session, job: int, timeout: Optional[float], keeping: Keeping, epoch: Optional[str]) -> None:
        """See `connect`."""
        #: the number of the job that speaks
        self.job = job
        #: as `store_client.Connection.epoch`
        self.epoch = epoch
        self._session = session
        self._timeout = timeout
        self._requests = Requests(job)
        self._requests.keeping = keeping
        self._requests.board = board_of(keeping.path, job)
        self._ids = NewIds(job, keeping)

    async def close(self) -> None:
        """The session ends, and gives up its holds."""
        self._requests.keeping.close(is_clean=self._session.lost is None)
        self._session.end("the connection is closed")
        await self._session.ended()

    async def __aenter__(self) -> Connection:
        return self

    async def __aexit__(self, *_: object) -> None:
        await self.close()

    def __repr__(self) -> str:
        return f"<aio.Connection of job {self.job}{': ' + self._session.lost if self._session.lost else ''}>"

    def new_id(self) -> ObjectId:
        """An id that nobody else makes: of a random task, with the next index."""
        self._session.check_process()
        return self._ids.next()

    def task(self, number: int) -> JobTask:
        """The job's task of this number, whose objects are `store.task(n).object(i)`."""
        return JobTask(Task.numbered(number), self.job)

    # ---- objects and values, whole

    async def put(
        self,
        data: Buffer,
        id: Optional[ObjectId] = None,
        progress: Optional[Progress] = None,
        timeout: Optional[float] = None,
        kind: Kind = Kind.PRIMARY,
    ) -> ObjectId:
        """As `store_client.Connection.put`."""
        timeout = seconds(timeout)
        with flat(data) as view:
            pieces, deadline = Pieces([view]), Deadline(timeout)
            if id is None:
                id = self.new_id()
                await self._run(putting.put_new(self._requests, pieces, id, deadline, progress, kind), timeout)
            else:
                await self._run(putting.put_named(self._requests, pieces, expect_id(id), deadline, progress, kind), timeout)
        return id

    async def get(
        self, id: ObjectId, timeout: Optional[float] = None, progress: Optional[Progress] = None, since: Optional[str] = None
    ) -> Held:
        """As `store_client.Connection.get`, for `async with await store.get(id) as view`."""
        expect_id(id)
        view = await self._get(lambda deadline: putting.get(self._requests, id, deadline, True, progress), id, timeout, since)
        return Held(self if id.job == self.job else None, id, view, self.job)

    async def get_into(self, id: ObjectId, buffer: Buffer, timeout: Optional[float] = None, since: Optional[str] = None) -> None:
        """As `store_client.Connection.get_into`."""
        expect_id(id)
        with writable(buffer) as view:
            if not await self._get(lambda deadline: putting.get_into(self._requests, id, view, deadline), id, timeout, since):
                raise ValueError(f"{id.text(self.job)} has another length than the buffer, which takes {len(view)} bytes")

    async def wait(
        self, ids: Sequence[ObjectId], count: int = 1, timeout: Optional[float] = None
    ) -> Tuple[List[ObjectId], List[ObjectId]]:
        """As `store_client.Connection.wait`."""
        names, count, timeout = finding.checked_wait(ids, count, timeout)
        here = await self._run(finding.wait(self._requests, names, count, Deadline(timeout)), timeout)
        return finding.parted(names, here)

    async def contains(self, id: ObjectId) -> bool:
        """As `store_client.Connection.contains`."""
        return await self._run(finding.contains(self._requests, expect_id(id)))

    async def put_value(self, value: Any, id: Optional[ObjectId] = None, timeout: Optional[float] = None) -> ObjectId:
        """As `store_client.Connection.put_value`."""
        return await self._put_pieces(encode_value(value), id, timeout)

    @overload
    async def get_value(
        self,
        id: ObjectId,
        timeout: Optional[float] = None,
        trust: bool = False,
        limit: Optional[int] = None,
        expect: None = None,
        since: Optional[str] = None,
    ) -> Any: ...

    @overload
    async def get_value(
        self,
        id: ObjectId,
        timeout: Optional[float] = None,
        trust: bool = False,
        limit: Optional[int] = None,
        *,
        expect: Type[V],
        since: Optional[str] = None,
    ) -> V: ...

    async def get_value(
        self,
        id: ObjectId,
        timeout: Optional[float] = None,
        trust: bool = False,
        limit: Optional[int] = None,
        expect: Optional[Type[Any]] = None,
        since: Optional[str] = None,
    ) -> Any:
        """As `store_client.Connection.get_value`: it runs what the pickle says."""
        check_trust(id, self.job, trust)
        return expected(decode_value(await self._get_whole(id, timeout, limit, since), id.text(self.job)), expect, id.text(self.job))

    async def put_array(self, array: Any, id: Optional[ObjectId] = None, timeout: Optional[float] = None) -> ObjectId:
        """As `store_client.Connection.put_array`."""
        return await self._put_pieces(encode_array(array), id, timeout)

    async def get_array(
        self, id: ObjectId, timeout: Optional[float] = None, limit: Optional[int] = None, since: Optional[str] = None
    ) -> numpy.ndarray[Any, numpy.dtype[Any]]:
        """As `store_client.Connection.get_array`."""
        whole = await self._get_whole(id, timeout, limit, since)
        array: numpy.ndarray[Any, numpy.dtype[Any]] = decode_array(whole, id.text(self.job))
        return array

    async def put_table(self, table: Any, id: Optional[ObjectId] = None, timeout: Optional[float] = None) -> ObjectId:
        """As `store_client.Connection.put_table`."""
        return await self._put_pieces(encode_table(table), id, timeout)

    async def get_table(
        self, id: ObjectId, timeout: Optional[float] = None, limit: Optional[int] = None, since: Optional[str] = None
    ) -> pyarrow.Table:
        """As `store_client.Connection.get_table`."""
        return decode_table(await self._get_whole(id, timeout, limit, since), id.text(self.job))

    async def delete_value(self, id: ObjectId) -> None:
        """As `store_client.Connection.delete_value`."""
        await self._run(parts.delete_whole(self._requests, expect_id(id)))

    async def grant_value(self, id: ObjectId, job: int) -> None:
        """As `store_client.Connection.grant_value`."""
        await self._run(parts.grant_whole(self._requests, expect_id(id), job))

    async def withdraw_value(self, id: ObjectId, job: int) -> None:
        """As `store_client.Connection.withdraw_value`."""
        await self._run(parts.withdraw_whole(self._requests, expect_id(id), job))

    # ---- the commands, as those of `store_client.Connection`

    async def create(self, id: ObjectId, length: int, kind: Kind = Kind.PRIMARY, wait: bool = False) -> Placed:
        """A copy of zeros to be written. With `wait` the server answers nothing else of this connection before."""
        return await self._value(self._requests.create(id, length, kind, wait))

    async def write(self, id: ObjectId, offset: int, data: Buffer) -> None:
        """At most 65,536 bytes from the offset on."""
        with flat(data) as view:
            await self._value(self._requests.write(id, offset, [view]))

    async def seal(self, id: ObjectId) -> None:
        """The copy is immutable from now on."""
        await self._value(self._requests.seal(id))

    async def hold(self, id: ObjectId, wait: bool = False) -> int:
        """One hold more. Its length in bytes. With `wait` the server answers nothing else of this connection before."""
        return await self._value(self._requests.get(id, wait))

    async def read(self, id: ObjectId, offset: int, length: int) -> bytes:
        """At most 65,536 bytes of an object that the session holds."""
        return await self._value(self._requests.read(id, offset, length))

    async def release(self, id: ObjectId) -> None:
        """One hold of the session less."""
        await self._value(self._requests.release(id))

    async def unpin(self, id: ObjectId, task: Task) -> None:
        """The owner task lets the object go."""
        await self._value(self._requests.unpin(id, task))

    async def borrow(self, id: ObjectId, task: Task) -> None:
        """The task refers to the object."""
        await self._value(self._requests.borrow(id, task))

    async def give_up(self, id: ObjectId, task: Task) -> None:
        """The task refers to the object no longer."""
        await self._value(self._requests.give_up(id, task))

    async def delete(self, id: ObjectId) -> None:
        """The copy is removed once nobody holds it."""
        await self._value(self._requests.delete(id))

    async def end_task(self, task: Task) -> None:
        """Removes all objects of the task at this node."""
        await self._value(self._requests.end_task(task))

    async def grant(self, id: ObjectId, job: int) -> None:
        """The job may peek at the object."""
        await self._value(self._requests.grant(id, job))

    async def withdraw(self, id: ObjectId, job: int) -> None:
        """The job may peek at the object no longer."""
        await self._value(self._requests.withdraw(id, job))

    async def peek(self, id: ObjectId, offset: int, length: int) -> bytes:
        """At most 65,536 bytes of an object that another job granted."""
        return await self._value(self._requests.peek(id, offset, length))

    async def list(self) -> Tuple[List[OwnItem], List[GrantedItem]]:
        """The job's copies at the node in order of id, and what others granted to it."""
        return await self._value(self._requests.list())

    async def usage(self) -> Usage:
        """The job's quotas at the node, and what is used of them."""
        return await self._value(self._requests.usage())

    async def leave(self) -> None:
        """All holds of the session are given up."""
        await self._value(self._requests.leave())

    def release_later(self, id: ObjectId) -> None:
        """One hold less, as soon as the loop runs. This raises nothing; it is what a dropped `Held` does."""

        def send() -> None:
            if self._session.lost is None:
                answer = self._session.send(self._requests.release(id))
                # nobody waits for it
                answer.add_done_callback(lambda done: done.cancelled() or done.exception())

        # a loop that is closed has no session
        with contextlib.suppress(RuntimeError):
            self._session.loop.call_soon_threadsafe(send)

    # ---- how

    async def _value(self, request: Request[T]) -> T:
        return await self._run(ask(request))

    async def _put_pieces(self, pieces: Pieces, id: Optional[ObjectId], timeout: Optional[float]) -> ObjectId:
        timeout = seconds(timeout)
        name = None if id is None else expect_id(id)
        return await self._run(parts.put_whole(self._requests, pieces, name, self.new_id, Deadline(timeout)), timeout)

    async def _get_whole(self, id: ObjectId, timeout: Optional[float], limit: Optional[int], since: Optional[str]) -> memoryview:
        expect_id(id)
        most = length_limit(limit)
        return await self._get(lambda deadline: parts.get_whole(self._requests, id, deadline, most), id, timeout, since)

    async def _get(
        self, get: Callable[[Optional[Deadline]], Steps[T]], id: ObjectId, timeout: Optional[float], since: Optional[str]
    ) -> T:
        """Runs the steps that get an object by a deadline."""
        timeout, since = seconds(timeout), checked_epoch(since)
        return await self._run(getting(get, id, self.job, timeout, since, self.epoch), timeout)

    async def _run(self, steps: Steps[T], timeout: Optional[float] = None) -> T:
        return await self._drive(steps, None if timeout is None else time.monotonic() + timeout)

    async def _drive(self, steps: Steps[T], end: Optional[float]) -> T:
        effect = go_on(steps)
        while not isinstance(effect, Over):
            effect = await self._advance(steps, effect, end)
        result: T = effect.result
        return result

    async def _advance(self, steps: Steps[Any], effect: Effect, end: Optional[float]) -> Union[Effect, Over]:
        """Does what the steps ask for, and tells them what came of it, also if that is a fault or they are cancelled."""
        try:
            outcome = await self._do(effect, end)
        except BaseException as error:
            return fail(steps, error)
        return go_on(steps, outcome)

    async def _do(self, effect: Effect, end: Optional[float]) -> Any:
        if isinstance(effect, Ask):
            return await self._session.exchange(effect.requests, answers_due(effect.requests, end, self._timeout), effect.last)
        if isinstance(effect, Rest):
            return await _rest(effect)
        if isinstance(effect, Together):
            return await self._drive_all(effect.all, end)
        return await self._take_back(effect)

    async def _take_back(self, effect: TakeBack) -> None:
        with contextlib.suppress(StoreError):
            deletes = [self._requests.delete(id) for id in effect.ids]
            await self._session.exchange(deletes, answers_due(deletes, None, self._timeout))

    async def _drive_all(self, all: Sequence[Steps[Any]], end: Optional[float]) -> List[Any]:
        """What each of the steps gives, several at a time. After a fault no more are begun, and it is raised once all have ended."""
        turns = asyncio.Semaphore(_PARTS_AT_ONCE)

        async def drive(steps: Steps[Any]) -> Any:
            async with turns:
                return await self._drive(steps, end)

        running = [asyncio.ensure_future(drive(steps)) for steps in all]
        try:
            await asyncio.wait(running, return_when=asyncio.FIRST_EXCEPTION)
            fault = next((task.exception() for task in running if task.done() and not task.cancelled() and task.exception()), None)
            if fault:
                raise fault
            return [task.result() for task in running]
        finally:
            for task in running:
                task.cancel()
            await asyncio.gather(*running, return_exceptions=True)


def _wake_in(loop: asyncio.AbstractEventLoop, wake: Callable[[], None]) -> None:
    with contextlib.suppress(RuntimeError):
        # a loop that is closed rests no more
        loop.call_soon_threadsafe(wake)


async def _rest(rest: Rest) -> None:
    if rest.bell is None:
        return await asyncio.sleep(rest.seconds)
    loop = asyncio.get_running_loop()
    woken: asyncio.Future[None] = loop.create_future()

    def wake() -> None:
        if not woken.done():
            woken.set_result(None)

    # it may be rung by another thread, as one that listens to the keeper
    rest.bell.wake = functools.partial(_wake_in, loop, wake)
    timer = loop.call_later(0.0 if rest.bell.is_rung else rest.seconds, wake)
    try:
        await woken
    finally:
        timer.cancel()
        rest.bell.is_rung = False


async def connect(path: PathLike, job: int, key: bytes, timeout: Optional[float] = None, keeper: bool = True) -> Connection:
    """As `store_client.connect`: a session of the job at the node whose socket this is. `NotAdmitted`, `ConnectionLost`."""
    name, secret, number = socket_path(path), key_bytes(key), whole_number(job, "a job", 0, LAST_NUMBER)
    patience = seconds(timeout)
    end = time.monotonic() + (OPENING if patience is None else patience)
    try:
        opening = asyncio.open_unix_connection(name, limit=_READ_LIMIT)
        reader, writer = await asyncio.wait_for(opening, end - time.monotonic())
    except asyncio.TimeoutError:
        raise ServerSilent(f"{name}: the server took no connection in time") from None
    except (OSError, ValueError) as error:
        raise ConnectionLost(f"{name}: {getattr(error, 'strerror', None) or error}") from error
    session = Session(reader, writer)
    try:
        value_of((await session.exchange([hello(number, secret)], end))[0])
    except BaseException:
        session.end("the connection is closed")
        await session.ended()
        raise
    return Connection(session, number, patience, Keeping(name, number, secret, keeper), read_epoch(name))
