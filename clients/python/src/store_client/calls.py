"""What can be called: the same of a connection and of a pool."""

from __future__ import annotations

import abc
from typing import Callable, List, Optional, Sequence, Tuple, TypeVar

from . import finding, putting
from .checks import Buffer, flat, seconds, writable
from .epochs import checked_epoch, getting
from .held import Held, Holder
from .ids import ObjectId, Task, expect_id
from .items import GrantedItem, Kind, OwnItem, Placed, Usage
from .putting import Progress
from .requests import Pieces, Request, Requests
from .steps import Deadline, Steps, ask

T = TypeVar("T")


class JobTask:
    """A task of a job that speaks: its objects are named by their index alone."""

    def __init__(self, task: Task, job: int) -> None:
        self.task = task
        self.job = job

    def __repr__(self) -> str:
        return f"JobTask({self.task!r}, {self.job})"

    def object(self, index: int) -> ObjectId:
        """The task's object of this index, from 1."""
        return self.task.object(index, job=self.job)


class Calls(abc.ABC):
    """A session's commands, and what is made of them. A refused command raises its class of `Refused`."""

    def __init__(self, job: int) -> None:
        #: the number of the job that speaks
        self.job = job
        self._requests = Requests(job)

    @abc.abstractmethod
    def _run(self, steps: Steps[T], timeout: Optional[float] = None) -> T:
        """Runs the steps. The timeout bounds how long the server may be silent."""

    @abc.abstractmethod
    def _holder(self) -> Holder:
        """The connection by which this thread runs its steps."""

    @abc.abstractmethod
    def new_id(self) -> ObjectId:
        """An id that nobody else makes: of a random task, with the next index."""

    @property
    @abc.abstractmethod
    def epoch(self) -> Optional[str]:
        """What tells this run of the store from every other: 32 hexadecimal digits that were drawn by lot at its start. None if nobody
        keeps that, as at a server that was started by hand; `store-daemon` does, and `local`.

        Objects end with the store. Note the epoch before a put, and give it to a later get as `since`: if the object is gone then, and the
        store was restarted meanwhile, that is told as `LostAtRestart`. Of a connection the epoch never changes. A pool has that of this
        thread's connection, which is opened if need be: another one once the pool has connected to a restarted store.
        """

    # ---- objects, whole

    def task(self, number: int) -> JobTask:
        """The job's task of this number, whose objects are `store.task(n).object(i)`."""
        return JobTask(Task.numbered(number), self.job)

    def put(
        self,
        data: Buffer,
        id: Optional[ObjectId] = None,
        progress: Optional[Progress] = None,
        timeout: Optional[float] = None,
        kind: Kind = Kind.PRIMARY,
    ) -> ObjectId:
        """A sealed object of these bytes, 1 to 16,777,216, under the id or a new one (`new_id`).

        Waits while room is to come, with a timeout at most so many seconds: then the last refusal is raised. A fetch in the object's
        place, which a waiting Get has left there, is taken away. Arrays that aren't contiguous are stored in the order of their
        indexes; arrays of objects, and what is no buffer, are a `TypeError`.

        `Kind.SECONDARY` offers a copy of what lies elsewhere: it is removed if its room is needed, and never written to the device.

        If the object can't be written whole it is deleted again, also if the call is interrupted, by another connection if this one
        is lost by that. If the process is killed the keeper deletes it, within ten seconds. It stays unsealed if the server doesn't answer
        any more, if there is no keeper, and, under an id that was given, if the call is cut off before Create is answered; `list` shows it
        as `State.CREATED`. An interruption that comes when the put has just been done leaves the object, sealed.
        """
        timeout = seconds(timeout)
        with flat(data) as view:
            pieces, deadline = Pieces([view]), Deadline(timeout)
            if id is None:
                id = self.new_id()
                self._run(putting.put_new(self._requests, pieces, id, deadline, progress, kind), timeout)
            else:
                self._run(putting.put_named(self._requests, pieces, expect_id(id), deadline, progress, kind), timeout)
        return id

    def get(
        self, id: ObjectId, timeout: Optional[float] = None, progress: Optional[Progress] = None, since: Optional[str] = None
    ) -> Held:
        """The object's bytes, held until `release` or the end of a `with`.

        Without a timeout, the object is got if it is sealed at this node or another one, and brought here if need be;
        otherwise `Absent` or `NotSealed` is raised. With a timeout, in seconds, it is also waited for until somebody has put it,
        here or at another node; once the time is over the last refusal is raised. 0 looks once, and `float("inf")` waits without
        end. A server that doesn't answer is `ServerSilent`, at the end of that time but not before a second.

        An object of another job is got if it is granted, and otherwise is `NotGranted`.

        `since` is the `epoch` in which the object was put, or None. If the store was restarted since then, the object is lost unless
        somebody has put it again. So it isn't waited for, and what was `Absent` or `NotGranted` is `LostAtRestart`, which is an `Absent`.
        """

        def get(deadline: Optional[Deadline]) -> Steps[Held]:
            return self._get_held(id, deadline, progress)

        return self._get(get, expect_id(id), timeout, since)

    def _get(
        self, get: Callable[[Optional[Deadline]], Steps[T]], id: ObjectId, timeout: Optional[float], since: Optional[str]
    ) -> T:
        """Runs the steps that get an object by a deadline."""
        timeout, since = seconds(timeout), checked_epoch(since)
        return self._run(getting(get, id, self.job, timeout, since, self.epoch if since else None), timeout)

    def _get_held(self, id: ObjectId, deadline: Optional[Deadline], progress: Optional[Progress]) -> Steps[Held]:
        view = yield from putting.get(self._requests, id, deadline, True, progress)
        return Held(self._holder() if id.job == self.job else None, id, view, self.job)

    def get_into(self, id: ObjectId, buffer: Buffer, timeout: Optional[float] = None, since: Optional[str] = None) -> None:
        """Fills a writable buffer with the object's bytes, which are as many, with several Reads in flight; no hold stays. Waits and
        is refused as `get`. `ValueError` if the object has another length: the buffer is as it was then."""
        expect_id(id)
        with writable(buffer) as view:
            if not self._get(lambda deadline: putting.get_into(self._requests, id, view, deadline), id, timeout, since):
                raise ValueError(f"{id.text(self.job)} has another length than the buffer, which takes {len(view)} bytes")

    def wait(
        self, ids: Sequence[ObjectId], count: int = 1, timeout: Optional[float] = None
    ) -> Tuple[List[ObjectId], List[ObjectId]]:
        """Waits until `count` of the objects are here, brought here if need be. Those that are, and the others, each in their order.

        With a timeout, at most so many seconds; 0 looks once. An object that is there and can't be had here (`Full`, `Damaged`,
        `Gone`, ..) isn't waited for: it is among the first, and a get of it says why.
        """
        names, count, timeout = finding.checked_wait(ids, count, timeout)
        return finding.parted(names, self._run(finding.wait(self._requests, names, count, Deadline(timeout)), timeout))

    def contains(self, id: ObjectId) -> bool:
        """Whether the object lies sealed at this node, in memory or on the device, or is granted to the job. Nothing changes by
        it. (`wait` with timeout 0 also looks at other nodes.) A copy that is deleted and still held by a session counts."""
        return self._run(finding.contains(self._requests, expect_id(id)))

    # ---- the commands

    def create(
        self, id: ObjectId, length: int, kind: Kind = Kind.PRIMARY, wait: bool = False, timeout: Optional[float] = None
    ) -> Placed:
        """A copy of zeros to be written, of this length in bytes. With `wait` and the timeout as `hold`."""
        return self._value(self._requests.create(id, length, kind, wait), seconds(timeout))

    def write(self, id: ObjectId, offset: int, data: Buffer) -> None:
        """At most 65,536 bytes from the offset on, while the copy is being written."""
        with flat(data) as view:
            self._value(self._requests.write(id, offset, [view]))

    def seal(self, id: ObjectId) -> None:
        """The copy is immutable from now on."""
        self._value(self._requests.seal(id))

    def hold(self, id: ObjectId, wait: bool = False, timeout: Optional[float] = None) -> int:
        """One hold more of the session on the sealed copy, or what brings it here. Its length in bytes.

        `Pending` enters or drives on a fetch, which lies in the object's place until another call is told what came of it;
        with `wait` the server answers once it isn't pending any more, whatever timeout the connection has. That may be never: after
        the timeout of this call, but not before a second, the server is `ServerSilent`, and the connection lost."""
        return self._value(self._requests.get(id, wait), seconds(timeout))

    def read(self, id: ObjectId, offset: int, length: int) -> bytes:
        """At most 65,536 bytes of an object that the session holds."""
        return self._value(self._requests.read(id, offset, length))

    def release(self, id: ObjectId) -> None:
        """One hold of the session less."""
        self._value(self._requests.release(id))

    def unpin(self, id: ObjectId, task: Task) -> None:
        """The owner task lets the object go: it is removed once no task borrows it."""
        self._value(self._requests.unpin(id, task))

    def borrow(self, id: ObjectId, task: Task) -> None:
        """The task refers to the object, which stays until the task gives it up or ends, also if its owner lets it go."""
        self._value(self._requests.borrow(id, task))

    def give_up(self, id: ObjectId, task: Task) -> None:
        """The task that borrowed the object refers to it no longer. The object is removed if its owner has let it go and no other
        task borrows it."""
        self._value(self._requests.give_up(id, task))

    def delete(self, id: ObjectId) -> None:
        """The copy is removed once nobody holds it."""
        self._value(self._requests.delete(id))

    def end_task(self, task: Task) -> None:
        """Removes all objects of the task at this node once nobody holds them, with all grants of them, and gives up what the task
        borrowed. No object of the task can be created or got here any more."""
        self._value(self._requests.end_task(task))

    def grant(self, id: ObjectId, job: int) -> None:
        """The job may peek at the object, also one that another job granted to this one."""
        self._value(self._requests.grant(id, job))

    def withdraw(self, id: ObjectId, job: int) -> None:
        """The job may peek at the object no longer, nor may those to whom it handed the grant on."""
        self._value(self._requests.withdraw(id, job))

    def peek(self, id: ObjectId, offset: int, length: int) -> bytes:
        """At most 65,536 bytes of an object that another job granted."""
        return self._value(self._requests.peek(id, offset, length))

    def list(self) -> Tuple[List[OwnItem], List[GrantedItem]]:
        """The job's copies at the node in order of id, and what others granted to it."""
        return self._value(self._requests.list())

    def usage(self) -> Usage:
        """The job's quotas at the node, and what is used of them."""
        return self._value(self._requests.usage())

    def leave(self) -> None:
        """All holds of the session are given up. The session goes on."""
        self._value(self._requests.leave())

    def _value(self, request: Request[T], timeout: Optional[float] = None) -> T:
        return self._run(ask(request), timeout)

