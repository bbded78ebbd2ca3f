"""A pool gives each thread and each process a connection of its own."""

from __future__ import annotations

import concurrent.futures
import multiprocessing
import os
import pickle
import random
import time
from typing import Callable, List, Tuple, TypeVar

from support import PATIENCE, ServerOfAll, in_child, key

import store_client
from store_client import ConnectionLost, ObjectId, Pool

# how long processes and threads work at one job, in seconds, and how many of each
T = TypeVar("T")
HAMMERING = float(os.environ.get("STORE_HAMMERING", "2"))
HANDS = int(os.environ.get("STORE_HANDS", "3"))


def double(pool: Pool, name: bytes) -> bytes:
    """What a worker process does: it gets an object, and puts one of twice its bytes."""
    with pool.get(ObjectId.from_bytes(name)) as view:
        return pool.put(bytes(view) * 2).to_bytes()


def hammer(pool: Pool, seed: int, seconds: float) -> int:
    """Puts, gets and deletes, each byte looked at, until the time is over. How many rounds that were."""
    rounds, end, chance = 0, time.monotonic() + seconds, random.Random(seed)
    while time.monotonic() < end:
        data = chance.randbytes(chance.choice([1, 100, 5000, 70_000]))
        id = pool.put(data)
        with pool.get(id) as view:
            if view != data:
                raise AssertionError("other bytes came back")
        if pool.get_value(pool.put_value([seed, rounds], id.task.object(2**31 + id.index, job=id.job))) != [seed, rounds]:
            raise AssertionError("another value came back")
        pool.delete(id)
        pool.delete_value(id.task.object(2**31 + id.index, job=id.job))
        rounds += 1
    return rounds


def hammer_in_threads(pool: Pool, seed: int, seconds: float) -> List[int]:
    with concurrent.futures.ThreadPoolExecutor(HANDS) as threads:
        return list(threads.map(lambda number: hammer(pool, 1000 * seed + number, seconds), range(HANDS)))


class Pools(ServerOfAll):
    def setUp(self) -> None:
        self.pool = self.connect_pool()

    def read(self, id: ObjectId) -> bytes:
        with self.pool.get(id) as view:
            return bytes(view)

    def in_thread(self, work: Callable[[], T]) -> T:
        with concurrent.futures.ThreadPoolExecutor(1) as threads:
            return threads.submit(work).result(PATIENCE)

    def test_each_thread_has_its_own(self) -> None:
        mine = self.pool.connection()
        self.assertIs(self.pool.connection(), mine)
        self.assertIsNot(self.in_thread(self.pool.connection), mine)

    def test_a_session_ends_with_its_thread(self) -> None:
        id = self.pool.put(b"abcd")
        self.in_thread(lambda: self.pool.hold(id))
        self.pool.delete(id)
        end = time.monotonic() + PATIENCE
        while self.pool.contains(id) and time.monotonic() < end:
            time.sleep(0.01)
        self.assertFalse(self.pool.contains(id))

    def test_what_a_thread_got_outlives_it(self) -> None:
        id = self.pool.put(b"abcd")
        held = self.in_thread(lambda: self.pool.get(id))
        with held as view:
            self.assertEqual(bytes(view), b"abcd")
        self.pool.delete(id)

    def test_a_lost_connection_is_replaced(self) -> None:
        self.pool.connection().close()
        self.pool.usage()

    def test_a_child_opens_its_own(self) -> None:
        id = self.pool.put(b"abcd")
        self.pool.put_value(bytes(10))
        self.assertEqual(in_child(lambda: self.read(id)), "b'abcd'")
        self.pool.usage()
        self.pool.delete(id)

    def test_processes_share_objects(self) -> None:
        names = [self.pool.put(bytes([number])).to_bytes() for number in range(6)]
        for method in ("fork", "spawn"):
            with concurrent.futures.ProcessPoolExecutor(2, multiprocessing.get_context(method)) as workers:
                doubled = list(workers.map(double, [self.pool] * 6, names, timeout=PATIENCE))
            for number, name in enumerate(doubled):
                with self.pool.get(ObjectId.from_bytes(name)) as view:
                    self.assertEqual(bytes(view), bytes([number]) * 2)

    def test_it_can_be_pickled(self) -> None:
        with pickle.loads(pickle.dumps(self.pool)) as other:
            other.usage()

    def test_a_pool_that_is_closed(self) -> None:
        self.pool.usage()
        self.pool.close()
        calls: Tuple[Callable[[], object], ...] = (self.pool.usage, self.pool.new_id, lambda: self.pool.put(b"a"))
        for call in calls:
            with self.assertRaisesRegex(ConnectionLost, "the pool is closed"):
                call()

    def test_wrong_words(self) -> None:
        with self.assertRaisesRegex(ValueError, "1 to 8, not 0"):
            Pool(self.server.path, 1, key(1), connections=0)
        with self.assertRaises(store_client.NotAdmitted):
            Pool(self.server.path, 1, key(2)).usage()

    def test_processes_and_threads_hammer_one_job(self) -> None:
        before = self.pool.usage()
        with concurrent.futures.ProcessPoolExecutor(HANDS, multiprocessing.get_context("spawn")) as workers:
            futures = [workers.submit(hammer_in_threads, self.pool, seed, HAMMERING) for seed in range(HANDS)]
            rounds = [count for future in futures for count in future.result(HAMMERING + PATIENCE)]
        self.assertEqual(len(rounds), HANDS * HANDS)
        self.assertGreater(min(rounds), 0)
        self.assertEqual(self.pool.usage(), before)
