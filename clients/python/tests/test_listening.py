"""A wait hears of puts by other processes of this host, as soon as they have ended, and needn't look for them."""

from __future__ import annotations

import asyncio
import contextlib
import os
import select
import signal
import statistics
import threading
import time
from typing import Any, Callable, Iterator, List, Optional
from unittest import mock

from support import PATIENCE, WithServer, in_child, key
from test_killed import keepers

import store_client
from store_client import Absent, Connection, ObjectId, Pending, Pool, aio, finding, keeping, listening, parts, steps
from store_client.aio_session import Session
from store_client.board import Bell
from store_testing.waiting import until


class NoPauses(steps.Pauses):
    """None of them ends before the wait does, until something has come."""

    FIRST = LONGEST = LONGEST_IF_TOLD = 0.0

    def restart(self) -> None:
        super().restart()
        self.FIRST = self.LONGEST = self.LONGEST_IF_TOLD = 0.001 if self.FIRST else 2.0 * PATIENCE


class Kept(steps.Pauses):
    """The last ones are kept, and whether those that rested were told of what they waited for."""

    last: Kept

    def __init__(self, deadline: steps.Deadline) -> None:
        super().__init__(deadline)
        self.told: List[bool] = []
        Kept.last = self

    def next(self, bell: Optional[Bell] = None) -> steps.Rest:
        self.told.append(self.is_told)
        return super().next(bell)


@contextlib.contextmanager
def looks_never() -> Iterator[None]:
    """A wait looks at its beginning and at its end, and otherwise only when it has heard of something."""
    with mock.patch.object(finding, "Pauses", NoPauses), mock.patch.object(finding, "_LISTENS_AFTER", 0.0):
        yield


def listeners() -> List[threading.Thread]:
    """The threads of this process that listen. Once one has ended its connections are closed."""
    return [thread for thread in threading.enumerate() if thread.name == "store_client listens"]


class Listening(WithServer):
    def setUp(self) -> None:
        super().setUp()
        linger = mock.patch.object(listening, "_LINGER", 0.1)
        linger.start()
        self.addCleanup(linger.stop)
        self.addCleanup(listening._ears.clear)
        self.addCleanup(lambda: until(lambda: not listeners(), "the thread's end", PATIENCE))
        self.producer = self.connect_producer()
        # its keeper is there, and can tell it that somebody listens
        self.producer.put(b"abcd", self.object_id(1000))

    def connect_producer(self) -> Connection:
        return self.connect()

    def ear(self) -> listening.Ear:
        return listening.ear_of(self.store._requests.keeping)

    def is_listened_to(self) -> bool:
        return self.producer._requests.keeping._hears_of_listeners()

    def hears(self, wait: Callable[[ObjectId], Any], put: Optional[Callable[[bytes, ObjectId], Any]] = None) -> None:
        """The wait for an object ends long before it would look, by a put of the producer's."""
        came: List[float] = []

        def work() -> None:
            wait(self.object_id())
            came.append(time.monotonic())

        with looks_never():
            thread = threading.Thread(target=work)
            thread.start()
            until(self.is_listened_to, "somebody listens", PATIENCE)
            began = time.monotonic()
            (put or self.producer.put)(b"abcd", self.object_id())
            thread.join(2 * PATIENCE)
        self.assertLess(came[0] - began, PATIENCE / 2)

    def test_a_get_hears_of_a_put(self) -> None:
        self.hears(lambda id: self.store.get(id, PATIENCE).release())

    def test_it_is_heard_of_at_once(self) -> None:
        """Within some tens of milliseconds: the median of nine in a row is below fifty, as soon as the machine doesn't do much else."""
        self.hears(lambda id: self.store.get(id, PATIENCE).release())
        found: List[float] = []
        end = time.monotonic() + PATIENCE
        while (len(found) < 9 or statistics.median(found[-9:]) >= 0.05) and time.monotonic() < end:
            found.append(self.seconds_until_heard(self.object_id(2 + len(found))))
        self.assertLess(statistics.median(found[-9:]), 0.05)

    def seconds_until_heard(self, id: ObjectId) -> float:
        """From the put of an object on. A keeper that was told of it before it knew who listens tells nobody: then it is never heard of."""
        came = float("inf")

        def work() -> None:
            nonlocal came
            with contextlib.suppress(Absent, Pending):
                self.store.get(id, PATIENCE / 10).release()
                came = time.monotonic()

        with looks_never():
            thread = threading.Thread(target=work)
            thread.start()
            until(lambda: len(self.ear().streams) == self.nodes and self.store._requests.board.waits, "somebody listens", PATIENCE)
            self.producer.put(b"abcd", id)
            put = time.monotonic()
            thread.join()
        return came - put

    def test_what_nobody_tells_of_is_looked_for(self) -> None:
        """As what another client puts."""
        with mock.patch.object(finding, "_LISTENS_AFTER", 0.0):
            thread = threading.Thread(target=lambda: self.store.get(self.object_id(), 2 * PATIENCE).release())
            thread.start()
            until(lambda: self.is_listened_to() and self.ear().streams, "it listens", PATIENCE)
            began = time.monotonic()
            self.producer.create(self.object_id(), 4)
            self.producer.write(self.object_id(), 0, b"abcd")
            self.producer.seal(self.object_id())
            thread.join(2 * PATIENCE)
        self.assertLess(time.monotonic() - began, PATIENCE / 2)

    def test_what_it_is_told_of(self) -> None:
        """Not of grants: a wait for one looks as often as if it didn't listen."""
        told = {}
        for id in (self.object_id(), self.task.object(1, job=2)):
            with mock.patch.object(finding, "_LISTENS_AFTER", 0.0), mock.patch.object(finding, "Pauses", Kept):
                until(lambda: self.pauses_of(id) and self.ear().streams, "it listens", PATIENCE)
                told[id.job] = until(lambda: self.pauses_of(id), "it pauses", PATIENCE)[-1]
        self.assertEqual(told, {1: True, 2: False})

    def pauses_of(self, id: ObjectId) -> List[bool]:
        """Of each pause of a short wait in vain whether it was told of what it waited for. At a slow server there may be none."""
        self.store.wait([id], timeout=0.1)
        return Kept.last.told

    def test_waits_that_have_ended_leave_nothing_open(self) -> None:
        before = len(os.listdir("/proc/self/fd")), threading.active_count()
        for index in (1, 2):
            with self.server.connect() as store, looks_never(), self.assertRaises(Absent):
                store.get(self.object_id(index), 0.3)
        until(lambda: not self.ear().has_thread and threading.active_count() == before[1], "the thread's end", PATIENCE)
        self.assertEqual((len(os.listdir("/proc/self/fd")), self.ear().streams, dict(self.store._requests.board.waits)), (before[0], {}, {}))

    def test_a_long_wait_keeps_few_answers(self) -> None:
        looks, exchange = 0, Session.exchange

        async def counted(session: Session, *words: Any) -> Any:
            nonlocal looks
            looks += 1
            return await exchange(session, *words)

        async def wait() -> List[int]:
            async with await aio.connect(self.server.path, 1, key(1)) as store:
                waiting = asyncio.ensure_future(store.wait([self.object_id()], timeout=PATIENCE))
                while looks < 50 and not waiting.done():
                    await asyncio.sleep(0.01)
                kept = [len(search._gets) for search in store._requests.board.waits]
                waiting.cancel()
                return kept

        with mock.patch.object(Session, "exchange", counted):
            (kept,) = asyncio.run(wait())
        self.assertLessEqual(kept, 2)

    def test_a_wait_hears_of_a_put_among_others(self) -> None:
        self.hears(lambda id: self.store.wait([id, *(self.object_id(index) for index in range(2, 10))], timeout=PATIENCE))

    def test_a_coroutine_hears_of_a_put(self) -> None:
        async def wait(id: ObjectId) -> None:
            async with await aio.connect(self.server.path, 1, key(1)) as store:
                await (await store.get(id, PATIENCE)).release()

        self.hears(lambda id: asyncio.run(wait(id)))

    def test_a_wait_hears_of_parts_that_are_put(self) -> None:
        def put(data: bytes, id: ObjectId) -> None:
            with mock.patch.object(parts, "LARGEST", 1000):
                self.producer.put_value(bytes(5000), id)

        self.hears(lambda id: self.store.wait([id], timeout=PATIENCE), put)
        self.assertEqual(self.store.get_value(self.object_id()), bytes(5000))

    def test_many_threads_of_a_pool_hear_each_of_its_own(self) -> None:
        ids, came = [self.object_id(index) for index in range(1, 9)], []
        with Pool(self.server.path, 1, key(1)) as pool, looks_never():
            def work(id: ObjectId) -> None:
                pool.get(id, PATIENCE).release()
                came.append(id)

            threads = [threading.Thread(target=work, args=(id,)) for id in ids]
            for thread in threads:
                thread.start()
            until(self.is_listened_to, "somebody listens", PATIENCE)
            until(lambda: len(pool._requests.board.waits) == len(ids), "all wait", PATIENCE)
            began = time.monotonic()
            for id in ids:
                self.producer.put(b"abcd", id)
            for thread in threads:
                thread.join(2 * PATIENCE)
        self.assertLess(time.monotonic() - began, PATIENCE / 2)
        self.assertEqual(sorted(came), sorted(ids))

    def test_the_first_put_of_a_process_is_heard_of(self) -> None:
        """It may be over before the process is told that somebody listens."""
        def put(data: bytes, id: ObjectId) -> None:
            with mock.patch.object(keeping.Keeping, "_hears_of_listeners", lambda _: False):
                self.connect_producer().put(data, id)

        self.hears(lambda id: self.store.get(id, PATIENCE).release(), put)

    def test_a_put_tells_of_its_end_at_once_only_if_somebody_listens(self) -> None:
        told: List[bytes] = []

        def put(index: int) -> List[bytes]:
            told.clear()
            with mock.patch.object(keeping.Keeping, "_tell", lambda _, message: told.append(message[:1])):
                self.producer.put(b"abcd", self.object_id(index))
            return told

        self.assertFalse(self.is_listened_to())
        self.assertEqual(put(4), [keeping.BEGIN, keeping.END])
        self.producer._requests.keeping._is_new_until = 0.0
        self.assertEqual(put(2), [keeping.BEGIN])
        self.hears(lambda id: self.store.get(id, PATIENCE).release())
        self.assertEqual(put(3), [keeping.BEGIN, keeping.END])

    def test_a_wait_without_a_keeper_looks(self) -> None:
        with mock.patch.object(finding, "_LISTENS_AFTER", 0.0), mock.patch.object(listening, "connected", side_effect=OSError) as tried:
            with store_client.connect(self.server.path, 1, key(1), keeper=False) as store:
                threading.Timer(0.2, self.producer.put, (b"abcd", self.object_id())).start()
                store.get(self.object_id(), PATIENCE).release()
                tried.assert_not_called()
            # if no keeper can be started, that is tried once
            with self.connect() as store:
                self.tries_once(store, tried)

    def test_a_process_that_can_t_start_a_thread_looks(self) -> None:
        with mock.patch.object(finding, "_LISTENS_AFTER", 0.0), mock.patch.object(threading, "Thread") as thread:
            thread.return_value.start.side_effect = RuntimeError("can't start new thread")
            self.tries_once(self.store, thread)

    def tries_once(self, store: store_client.Connection, tried: mock.Mock) -> None:
        """Waits in vain until that was tried, and once more. At a slow server a short wait is over before anything is."""
        def waits_in_vain(index: int) -> bool:
            with self.assertRaises(Absent):
                store.get(self.object_id(index), 0.1)
            return bool(tried.called)

        until(lambda: waits_in_vain(2), "it is tried", PATIENCE)
        waits_in_vain(3)
        self.assertEqual(tried.call_count, 1)

    def test_a_keeper_that_was_killed_is_listened_to_anew(self) -> None:
        def listens() -> bool:
            # at a slow server a short wait is over before it does
            with looks_never(), self.assertRaises(Absent):
                self.store.get(self.object_id(2), 0.3)
            return len(self.ear().streams) > 0

        until(listens, "it listens", PATIENCE)
        for keeper in keepers(os.path.realpath(self.server.path)):
            os.kill(keeper, signal.SIGKILL)
        until(lambda: not self.ear().has_thread and not keepers(os.path.realpath(self.server.path)), "the keeper's end", PATIENCE)
        self.producer = self.connect_producer()
        self.producer.put(b"abcd", self.object_id(3))
        self.hears(lambda id: self.store.get(id, PATIENCE).release())

    def test_nobody_listens_once_nobody_waits(self) -> None:
        self.hears(lambda id: self.store.get(id, PATIENCE).release())
        until(lambda: not self.ear().has_thread, "the thread's end", PATIENCE)

    def test_one_thread_listens_for_all_connections_of_a_process(self) -> None:
        stores = [self.connect() for _ in range(8)]
        ids = [self.object_id(index) for index in range(1, 9)]
        with looks_never():
            threads = [threading.Thread(target=store.get, args=(id, PATIENCE)) for store, id in zip(stores, ids)]
            for thread in threads:
                thread.start()
            until(self.is_listened_to, "somebody listens", PATIENCE)
            until(lambda: len(self.store._requests.board.waits) == len(ids), "all wait", PATIENCE)
            self.assertEqual(len(listeners()), 1)
            began = time.monotonic()
            for id in ids:
                self.producer.put(b"abcd", id)
            for thread in threads:
                thread.join(2 * PATIENCE)
        self.assertLess(time.monotonic() - began, PATIENCE / 2)

    def test_a_process_that_is_forked_off_listens_for_itself(self) -> None:
        self.hears(lambda id: self.store.get(id, PATIENCE).release())
        ids = [self.object_id(index) for index in range(2, 100)]
        reading, writing = os.pipe()
        self.addCleanup(os.close, reading)
        self.addCleanup(os.close, writing)

        def work() -> str:
            with looks_never(), self.server.connect() as store:
                ear = listening.ear_of(store._requests.keeping)
                begins = threading.Thread(target=lambda: until(lambda: ear.streams, "it listens", PATIENCE) and os.write(writing, b"."))
                begins.start()
                here, _ = store.wait(ids, timeout=2 * PATIENCE)
                begins.join()
                return str(len(here) > 0)

        told: List[str] = []
        thread = threading.Thread(target=lambda: told.append(in_child(work)))
        thread.start()
        self.assertTrue(select.select([reading], [], [], PATIENCE)[0], "it doesn't listen")
        # nobody tells when the keeper knows that, so there is another put if one isn't heard of
        end = time.monotonic() + PATIENCE
        while thread.is_alive() and time.monotonic() < end:
            self.producer.put(b"abcd", ids.pop(0))
            thread.join(2)
        self.assertEqual(told, ["True"])


class AtTwoNodes(Listening):
    """The producer is at the other node: its keeper is listened to, too."""

    nodes = 2

    def connect_producer(self) -> Connection:
        return self.connect(node=1)

    def test_a_keeper_that_comes_later_is_listened_to(self) -> None:
        self.producer.close()
        until(lambda: not keepers(os.path.realpath(f"{self.server.folder.name}/store.1")), "the keeper's end", PATIENCE)

        def put(data: bytes, id: ObjectId) -> None:
            self.producer = self.connect_producer()
            self.producer.put(b"abcd", self.object_id(3))
            until(self.producer._requests.keeping._hears_of_listeners, "somebody listens", PATIENCE)
            self.producer.put(data, id)

        with mock.patch.object(self, "is_listened_to", lambda: bool(self.ear().streams)):
            self.hears(lambda id: self.store.get(id, PATIENCE).release(), put)
