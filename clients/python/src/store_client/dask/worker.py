"""What a worker has of a store: the plugin, and what a task can do with it."""

from __future__ import annotations

import asyncio
import collections
import concurrent.futures
import contextlib
import os
import random
import socket
import threading
from pathlib import Path
from typing import Any, Counter, Coroutine, Dict, Iterator, List, NoReturn, Optional, Sequence, Set, Tuple, TypeVar

from distributed import Reschedule, WorkerPlugin

from ..absence import Absence
from ..checks import key_bytes, seconds, whole_number
from ..ids import ObjectId
from ..items import Kind, Usage
from ..memory import blank
from ..refusals import ConnectionLost, StoreError
from ..requests import Pieces
from ..steps import Deadline
from .again import Tries
from .errors import KeyReleased, StoreAway, ValueLost
from .host import HostStore, all_of, all_under_way
from .names import Name
from .peers import GONE, RESTARTED, Peers, Route, answer_part, is_store_away
from .reference import PLUGIN, StoreRef, digest_of, encode, in_words
from .sharing import Sharing

T = TypeVar("T")

# in bytes, if nothing else is said: how long a part is; and how long a value may be that lies in its reference, since a store has 1,024
# copies of a job at a node
PART, SMALL = 1 << 22, 1 << 16
# how long a store that is away is waited for, in seconds, if nothing else is said
RETURN = 30.0
# so many parts are moved at once for tasks, and as many for other hosts: who waits for another host never keeps one waiting
_THREADS = 4
# what is counted
MOVES = ("put", "local", "fetched", "served")
# how long a scheduler or a worker has for a small question, in seconds
_PATIENCE = 60.0


class StoreWorkers(WorkerPlugin):  # type: ignore[misc]  # Dask's classes have no types
    """On each worker: connects it to its host's store, and answers the workers of other hosts. `attach` registers it.

    A worker's environment goes before what is said here: `STORE_SOCKET`, `STORE_NODES`, `STORE_JOB`, `STORE_KEY` (64 hexadecimal digits),
    `STORE_KEY_FILE` and `STORE_HOST`, the name of its host.
    """

    name = PLUGIN
    #: why the worker has no store, if it has none: Dask doesn't say it of a worker that joins later
    fault: Optional[Exception] = None

    def __init__(
        self,
        socket: str,
        job: int = 1,
        key_file: Optional[str] = None,
        nodes: int = 1,
        part: int = PART,
        small: int = SMALL,
        lease: float = 5.0,
        patience: float = RETURN,
    ) -> None:
        """The socket of the server's node K is `SOCKET.K`. A part has so many bytes at most, and a value that lies in its reference; a
        lease so many seconds. A task waits so many seconds for a store that is away."""
        self._pickled = (socket, job, key_file, nodes, part, small, lease, patience)
        self._words = {"STORE_SOCKET": socket, "STORE_JOB": job, "STORE_KEY_FILE": key_file, "STORE_NODES": nodes}
        self._part = whole_number(part, "the length of a part", 16, 1 << 24)
        self._small = whole_number(small, "the length of a small value", 0, 1 << 24)
        self._lease = lease
        self._patience = seconds(patience, "the patience with a store") or 0.0
        # whether `setup` has ended, well or not; and the tries of tasks after that
        self._is_set_up = threading.Event()
        self._trying = threading.Lock()
        self._tries = Tries()
        self._threads = concurrent.futures.ThreadPoolExecutor(_THREADS, "store")
        self._answering = concurrent.futures.ThreadPoolExecutor(_THREADS, "store_answers")
        self._lock = threading.Lock()
        self._under_way: Counter[bytes] = collections.Counter()
        self._gone: Set[bytes] = set()
        self._counts: Counter[str] = collections.Counter()

    def __reduce__(self) -> Any:
        return type(self), self._pickled

    async def setup(self, worker: Any) -> None:
        """The worker starts, or the plugin is registered once more: what runs goes on with the one before, so there is no teardown."""
        self._worker = worker
        self.host = os.environ.get("STORE_HOST") or socket.gethostname()
        try:
            self._open()
            await self._join()
        except Exception as fault:
            self._note(fault)
            raise
        finally:
            self._is_set_up.set()

    def await_store(self) -> None:
        """In a task: if the worker found no store, it is looked for again, now or after a pause. `RuntimeError` says why there is none."""
        if self._is_set_up.is_set() and self.fault is None:
            return
        self._check_thread()
        if not self._is_set_up.wait(_PATIENCE):
            raise RuntimeError("this worker has no store yet: it waits for an answer of it, or of the scheduler")
        with self._trying:
            if self.fault is not None and not self._tries.seconds_left:
                self._try_again()
            if self.fault is not None:
                why = f"{type(self.fault).__name__}: {self.fault}"
                again = f"the first task that needs it in {self._tries.seconds_left:.1f} seconds or later looks for it again"
                raise RuntimeError(f"this worker of host {self.host} has no store, as {why}; {again}") from self.fault

    def _try_again(self) -> None:
        try:
            self._open()
            self._ask(self._join())
            self.fault = None
        except Exception as fault:
            self._note(fault)

    def _note(self, fault: Exception) -> None:
        self.fault = fault
        self._tries.failed()

    def _open(self) -> None:
        """Connects to the store. This waits for it."""
        said: Dict[str, Any] = {**self._words, **os.environ}
        self._job = _number(said["STORE_JOB"], "the job, or STORE_JOB,", 1, 2**32 - 1)
        nodes = _number(said["STORE_NODES"], "how many nodes a server has, or STORE_NODES,", 1, 8)
        self._store = HostStore(said["STORE_SOCKET"], nodes, self._job, _key(said), self._part)
        self._sharing = Sharing(self._store, self._lease)
        self._peers = Peers(self._worker, self.host)

    async def _join(self) -> None:
        """From now on others ask for what the store has."""
        self._worker.handlers["store_part"] = self._answer_part
        self._worker.handlers["store_ping"] = self._answer_ping
        self._worker.handlers["store_forget"] = self._answer_forget
        await self._worker.scheduler.store_join(worker=self._worker.address, host=self.host)

    # ---- for other workers and the scheduler, on the worker's event loop; the store is asked in a thread

    async def _answer_part(self, comm: Any = None, name: bytes = b"", part: int = 0, id: bytes = b"", length: int = 0) -> Dict[str, Any]:
        words = (self._store, Name(bytes(name)), part, ObjectId.from_bytes(id), length)
        answer = await asyncio.get_running_loop().run_in_executor(self._answering, answer_part, *words)
        if answer["status"] == "OK":
            self._count("served", length)
        return answer

    async def _answer_ping(self, comm: Any = None) -> Dict[str, str]:
        return {"status": "OK"}

    async def _answer_forget(self, comm: Any = None, prefixes: Sequence[bytes] = (), sweep: bool = False) -> int:
        names = [bytes(prefix) for prefix in prefixes]
        with self._lock:
            self._gone.update(name for name in names if self._under_way[name])
        if not sweep:
            return 0
        return await asyncio.get_running_loop().run_in_executor(self._answering, self._store.forget, names)

    # ---- for a task, in its thread

    def put(self, value: Any, with_key: bool, timeout: float) -> StoreRef:
        """See `reference.put`."""
        key, (pieces, is_pickled) = self._task_key(), encode(value)
        about = in_words(value)
        if pieces.length <= self._small:
            name, inline = Name.of(key, 0), b"".join(pieces.views)
            return StoreRef(key, self.host, self._job, about, pieces.length, name, self._store.part, (), is_pickled, inline)
        epoch = self._ask(self._worker.scheduler.store_begin(key=key, worker=self._worker.address, with_key=with_key))
        if epoch is None:
            raise KeyReleased(f"{key} was released while it ran")
        name = Name.of(key, epoch)
        with self._working_on(name):
            digests, epoch = self._put_parts(name, pieces, timeout)
        self._count("put", pieces.length)
        length, part = pieces.length, self._store.part
        return StoreRef(key, self.host, self._job, about, length, name, part, tuple(digests), is_pickled, store_epoch=epoch)

    def _put_parts(self, name: Name, pieces: Pieces, timeout: float) -> Tuple[List[bytes], Optional[str]]:
        """Of each part the digest; and the epoch of the store in which all of them lie."""
        cut, deadline = pieces.cut(self._store.part), Deadline(timeout)
        ids, absence = [name.primary(part, self._job) for part in range(len(cut))], Absence(self._patience, deadline)
        digests: List[bytes] = []
        # of the parts that are put
        epochs: Dict[int, Optional[str]] = {}

        def put_part(part: int) -> None:
            epochs[part] = self._store.put(ids[part], cut[part], Kind.PRIMARY, deadline)

        def put_missing() -> None:
            with all_under_way(self._threads, put_part, [part for part in range(len(cut)) if part not in epochs]):
                # this thread has nothing else to do
                digests.extend(digest_of(*part.views) for part in cut[len(digests) :])

        try:
            absence.outlast(put_missing)
            while len(set(epochs.values())) > 1:
                # a restart came between two of them, and lost the first
                gone = absence.outlast(lambda: [part for part in epochs if not self._store.has(ids[part])])
                if not gone:
                    break
                for part in gone:
                    del epochs[part]
                absence.outlast(put_missing)
            return digests, epochs[0]
        except BaseException:
            self._store.delete(ids)
            raise

    def load(self, ref: StoreRef, timeout: float) -> Any:
        """See `StoreRef.load`."""
        self._check_thread()
        if ref.inline:
            return ref.decode(memoryview(ref.inline), self._job)
        body, deadline = blank(ref.length), Deadline(timeout)
        absence = Absence(self._patience, deadline, (StoreAway,))
        route = _Once(lambda: self._ask(self._peers.route(ref)))
        # workers of a host that begin at the same time begin at different parts
        first = 0 if ref.host == self.host else random.randrange(len(ref.parts))
        missing = dict.fromkeys([*ref.parts[first:], *ref.parts[:first]])

        def load_part(part: int) -> None:
            self._load_part(ref, part, body[ref.place(part)], route, deadline)
            del missing[part]

        try:
            with self._working_on(ref.name):
                # it waits in the task's own thread: others have use for those that move parts
                absence.outlast(lambda: all_of(self._threads, load_part, list(missing)))
        except StoreAway as away:
            self._tell_lost(ref, ValueLost(away.host, away.about, f"{away.why}; the store wasn't there again in time"))
        except ValueLost as lost:
            self._tell_lost(ref, lost)
        return ref.decode(body.toreadonly(), self._job)

    def _tell_lost(self, ref: StoreRef, lost: ValueLost) -> NoReturn:
        """That nobody has the value any more."""
        # a task that depends on the key isn't to fail, however late its end is heard of: it runs again after the key has
        if self._ask(self._worker.scheduler.store_lost(name=ref.name.prefix, asker=self._asker())):
            raise Reschedule() from None
        with contextlib.suppress(StoreError):
            if ref.host == self.host and ref.is_older_than(self._store.epoch(ref.primary(0))):
                lost = ValueLost(ref.host, ref.about, RESTARTED, at_restart=True)
        raise lost from None

    def _load_part(self, ref: StoreRef, part: int, into: memoryview, route: _Once, deadline: Deadline) -> None:
        """`StoreAway` if its host has no store just now, and nobody else has it."""
        away: Optional[StoreError] = None
        if ref.host == self.host:
            try:
                if self._store.read_into(ref.primary(part), into, deadline):
                    return self._count("local", len(into))
            except GONE as error:
                away = error if is_store_away(error) else None
        try:
            self._fetch_part(ref, part, into, route, deadline)
        except ValueLost as lost:
            if away:
                raise StoreAway(lost.host, lost.about, str(away)) from None
            raise

    def _fetch_part(self, ref: StoreRef, part: int, into: memoryview, route: _Once, deadline: Deadline) -> None:
        def fetch(space: memoryview) -> None:
            # whom to ask is answered by the scheduler, so it isn't asked on the event loop's own thread
            space[:] = self._ask(self._peers.part(route.get(), ref, part, deadline), timeout=None)

        if ref.job != self._job:
            # a copy would outlast the grant, and nobody would remove it
            fetch(into)
            return self._count("fetched", len(into))
        fetched = self._sharing.bring(ref.name, part, into, fetch, deadline)
        self._count("fetched" if fetched else "local", len(into))

    def keep(self, ref: StoreRef) -> None:
        """See `StoreRef.keep`."""
        if not ref.inline and not self._ask(self._worker.scheduler.store_keep(name=ref.name.prefix, key=self._task_key())):
            raise ValueLost(ref.host, ref.about, "it was released before it was kept")

    def release(self, ref: StoreRef) -> None:
        """See `StoreRef.release`."""
        if not ref.inline:
            self._ask(self._worker.scheduler.store_release(name=ref.name.prefix))

    def grant(self, ref: StoreRef, job: int) -> None:
        """See `StoreRef.grant`."""
        self._check_host(ref)
        given: List[int] = []
        try:
            for part in ref.parts:
                self._store.grant(ref.primary(part), job)
                given.append(part)
        except BaseException:
            for part in given:
                self._store.withdraw(ref.primary(part), job)
            raise

    def withdraw(self, ref: StoreRef, job: int) -> None:
        """See `StoreRef.withdraw`."""
        self._check_host(ref)
        for part in ref.parts:
            self._store.withdraw(ref.primary(part), job)

    def counts(self) -> Dict[str, int]:
        """What this worker has moved, in bytes. See `store_client.dask.counts`."""
        with self._lock:
            return dict(self._counts)

    def usage(self) -> List[Usage]:
        """What the job has and uses of each node of the host's store."""
        return self._store.usage()

    # ---- what these need

    @contextlib.contextmanager
    def _working_on(self, name: Name) -> Iterator[None]:
        """If the value is released meanwhile, what this worker has made of it afterwards is removed at the end."""
        with self._lock:
            self._under_way[name.prefix] += 1
        try:
            yield
        finally:
            with self._lock:
                self._under_way[name.prefix] -= 1
                is_gone = not self._under_way[name.prefix] and name.prefix in self._gone
                if not self._under_way[name.prefix]:
                    del self._under_way[name.prefix]
                    self._gone.discard(name.prefix)
            if is_gone:
                with contextlib.suppress(ConnectionLost):
                    self._store.forget([name.prefix])

    def _ask(self, question: Coroutine[Any, Any, T], timeout: Optional[float] = _PATIENCE) -> T:
        """What a coroutine of the event loop gives."""
        return asyncio.run_coroutine_threadsafe(question, self._worker.loop.asyncio_loop).result(timeout)

    def _task_key(self) -> str:
        self._check_thread()
        try:
            return str(self._worker.get_current_task())
        except KeyError:
            raise RuntimeError("this is to be called in a task, in the thread that it runs in") from None

    def _asker(self) -> str:
        """The key of the task that loads; of none in a thread that a task has started."""
        return str(self._worker.active_threads.get(threading.get_ident(), ""))

    def _check_thread(self) -> None:
        try:
            asyncio.get_running_loop()
        except RuntimeError:
            return
        raise RuntimeError("this waits, so it can't be called in a coroutine: make the task a plain function")

    def _check_host(self, ref: StoreRef) -> None:
        if ref.host != self.host:
            raise ValueError(f"{ref.about} is on host {ref.host}, and grants are given there, not on {self.host}")
        if ref.inline:
            raise ValueError(f"{ref.about} is small and lies in the reference: nothing of it is in a store")

    def _count(self, what: str, bytes_moved: int) -> None:
        with self._lock:
            self._counts[what] += bytes_moved


class _Once:
    """What is found out when it is first needed."""

    def __init__(self, find: Any) -> None:
        self._find = find
        self._lock = threading.Lock()
        self._found: Optional[Route] = None

    def get(self) -> Route:
        with self._lock:
            if self._found is None:
                self._found = self._find()
            return self._found


def _number(said: Any, what: str, least: int, most: int) -> int:
    """A number, which the environment has as a text."""
    try:
        number = int(said) if isinstance(said, str) else said
    except ValueError:
        raise ValueError(f"{what} is {least} to {most}, not {said!r}") from None
    return whole_number(number, what, least, most)


def _key(said: Dict[str, Any]) -> bytes:
    """The job's key; what was given isn't repeated in an error."""
    text, file = said.get("STORE_KEY"), said["STORE_KEY_FILE"]
    if text is None and file is None:
        raise ValueError("a worker needs the job's key: say key_file, or set STORE_KEY_FILE or STORE_KEY")
    try:
        return key_bytes(bytes.fromhex((text or Path(file).read_text(encoding="ascii")).strip()))
    except ValueError:
        raise ValueError(f"a key is 64 hexadecimal digits, and {'STORE_KEY' if text else file} hasn't got them") from None
