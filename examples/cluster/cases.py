"""The tests of the cluster: values pass, are fetched once a host, and go with their keys; and each fault. test.py runs them."""

from __future__ import annotations

import dataclasses
import os
import time
import unittest
from pathlib import Path
from typing import Any, Callable, ClassVar, Dict, List

import faults
import inside
from distributed import wait
from distributed.client import Client
from hosts import Hosts, Job, await_end, wait_until

import store_client
from store_client import dask as store

UNIT = int(os.environ.get("STORE_CLUSTER_UNIT", 2**20))
# long enough for a part on a machine that does much else, in seconds
LEASE = 10.0
# how long a store that is away is waited for
AWAY = 5.0
# that one answer may take, in seconds
PATIENCE = 150


def count(parts: int) -> int:
    """How many numbers of 8 bytes fill so many parts, with the header of an array."""
    return parts * UNIT // 8 - 16


def expected(parts: int, seed: int) -> float:
    """The sum of an array that fills so many parts."""
    return float(faults.numbers(count(parts), seed).sum())


class OfCluster(unittest.TestCase):
    """What the tests of a cluster share. Who runs them says in which folder."""

    folder: ClassVar[Path]
    hosts: Hosts
    one: Client
    two: Client

    @classmethod
    def setUpClass(cls) -> None:
        # the second job's window is full after a few values, and so is its device
        jobs = {1: Job(16 * UNIT, 256 * UNIT, 2), 2: Job(8 * UNIT, 8 * UNIT, 1)}
        cls.hosts = Hosts(cls.folder, "ABC", jobs, part=UNIT, small=UNIT // 8, lease=LEASE, patience=AWAY)
        cls.hosts.__enter__()
        cls.addClassCleanup(cls.hosts.__exit__)
        cls.one, cls.two = cls.hosts.clients[1], cls.hosts.clients[2]

    def on(self, worker: str, work: Callable[..., Any], *words: Any, **more: Any) -> Any:
        """A future of a task on this worker, and no other."""
        client = self.one if worker[1] == "1" else self.two
        return client.submit(work, *words, workers=[worker], allow_other_workers=False, pure=False, **more)

    def states(self, worker: str) -> Dict[str, List[str]]:
        told: Dict[str, List[str]] = self.on(worker, faults.states).result(PATIENCE)
        return told

    def await_nothing(self, workers: str, job: str = "1") -> None:
        """All that the job had at these hosts is removed."""
        for host in workers:
            wait_until(lambda name=host: not any(self.states(f"{name}{job}.0").values()), "an empty store", PATIENCE)

    def restart(self, worker: str) -> None:
        """A worker that was killed comes again, and has a store."""
        client = self.one if worker[1] == "1" else self.two
        self.hosts.work(worker[0], int(worker[1]), int(worker[3:]))
        wait_until(lambda: worker in {told["name"] for told in client.scheduler_info()["workers"].values()}, worker, PATIENCE)


class Sharing(OfCluster):
    """Values pass, are fetched once a host, and go with their keys; and workers are killed."""

    def test_a_value_of_several_arrays(self) -> None:
        ref = self.on("A1.0", faults.put_mixed, count(3))
        due = (float(faults.numbers(count(3), 1).sum()), True, "text", b"xyz", False)
        looks = [self.on(worker, faults.look, ref) for worker in ("A1.0", "A1.1", "B1.0", "C1.1")]
        self.assertEqual(self.one.gather(looks), [due] * 4)

    def test_what_is_loaded_is_read_only(self) -> None:
        for size in (100, count(1)):
            ref = self.on("A1.0", faults.put_numbers, size, 1)
            with self.assertRaisesRegex(ValueError, "read-only"):
                self.on("A1.1", faults.change, ref).result(PATIENCE)

    def test_it_is_loaded_outside_of_tasks(self) -> None:
        future = self.on("B1.0", faults.put_numbers, count(2), 5)
        self.assertEqual(future.result(PATIENCE).load().tobytes(), faults.numbers(count(2), 5).tobytes())

    def test_it_is_fetched_once_a_host(self) -> None:
        ref = self.on("A1.0", faults.put_numbers, count(8), 2)
        wait(ref)
        before = sum(told.get("fetched", 0) for told in store.counts(self.one).values())
        loads = [self.on(worker, faults.total, ref) for worker in ("B1.0", "B1.1", "C1.0", "C1.1", "B1.0")]
        self.assertEqual(set(self.one.gather(loads)), {expected(8, 2)})
        fetched = sum(told.get("fetched", 0) for told in store.counts(self.one).values()) - before
        self.assertEqual(fetched, 2 * ref.result().length)

    @unittest.skipUnless(inside.has_network(), "each host needs a network of its own")
    def test_the_link_carries_it_once(self) -> None:
        ref = self.on("A1.0", faults.put_numbers, count(8), 3)
        wait(ref)
        before = self.hosts.delivered("B")
        loads = [self.on(worker, faults.total, ref) for worker in ("B1.0", "B1.1")]
        self.assertEqual(set(self.one.gather(loads)), {expected(8, 3)})
        self.assertLess((self.hosts.delivered("B") - before) / ref.result().length, 1.5)

    def test_it_goes_with_its_key(self) -> None:
        ref = self.on("A1.0", faults.put_numbers, count(3), 4)
        self.assertEqual(self.on("B1.0", faults.total, ref).result(PATIENCE), expected(3, 4))
        self.assertTrue(self.states("A1.0")["PRIMARY"])
        del ref
        self.await_nothing("AB")

    def test_it_is_released_by_hand(self) -> None:
        first, second = (self.on("A1.0", faults.put_numbers, count(2), seed, with_key=False) for seed in (1, 2))
        refs = [first.result(PATIENCE), second.result(PATIENCE)]
        del first, second
        time.sleep(1)
        self.assertEqual(self.on("C1.0", faults.total, refs[0]).result(PATIENCE), expected(2, 1))
        self.on("B1.0", faults.released, refs[0]).result(PATIENCE)
        refs[1].release()
        self.await_nothing("AC")
        self.assertIn("ValueLost: ndarray float64", self.on("B1.0", faults.loaded_in_time, refs[0]).result(PATIENCE)[0])

    def test_a_key_released_and_computed_again_at_once(self) -> None:
        for turn in range(5):
            future = self.one.submit(faults.put_numbers, count(3), 6, key="again", workers=["A1.0"])
            self.on("B1.0", faults.total, future).result(PATIENCE)
            future.release()
            del future
            time.sleep(0.02 * turn / 4)
            future = self.one.submit(faults.put_numbers, count(3), 7, key="again", workers=["A1.1"])
            wait(future)
            # what was on its way for the first run has come by now
            time.sleep(0.5)
            totals = self.one.gather([self.on(worker, faults.total, future) for worker in ("A1.0", "B1.1", "C1.0")])
            # if the key was still known, the scheduler has kept the first run's
            self.assertIn(set(totals), ({expected(3, 6)}, {expected(3, 7)}))
            del future
            self.await_nothing("ABC")

    def test_a_reference_in_another_result(self) -> None:
        for keep in (True, False):
            ref = self.on("A1.0", faults.put_numbers, count(2), 8)
            handed = self.on("B1.0", faults.hand_on, ref, keep)
            wait(handed)
            del ref
            time.sleep(1.5)
            load = self.on("C1.0", faults.loaded_in_time, handed.result()[0]).result(PATIENCE)
            self.assertEqual(load[0].partition(":")[0], "loaded" if keep else "ValueLost")
            del handed
            self.await_nothing("AC")

    def test_65_readers(self) -> None:
        ref = self.on("A1.0", faults.put_numbers, count(1), 9)
        object = ref.result(PATIENCE).primary(0)
        readers = []
        for node in range(2):
            with store_client.connect(self.hosts.socket("A", node), 1, bytes.fromhex(self.hosts.jobs[1].key(1))) as session:
                if session.contains(object):
                    for _ in range(64):
                        session.hold(object)
                    told = self.on("A1.1", faults.total, ref, 1.0)
                    with self.assertRaisesRegex(store_client.TooMany, "64 holds"):
                        told.result(PATIENCE)
                    readers = [self.on(f"A1.{reader % 2}", faults.total, ref) for reader in range(65)]
                    time.sleep(1)
        # with the session its holds are gone
        self.assertEqual(self.one.gather(readers), [expected(1, 9)] * 65)

    def test_a_full_window_and_device(self) -> None:
        futures = [self.on("A2.0", faults.put_numbers, count(4), seed, timeout=2.0) for seed in range(10)]
        wait(futures)
        told = [future.exception(PATIENCE) for future in futures]
        self.assertIsNone(told[0])
        self.assertTrue(any(isinstance(one, store_client.Full) for one in told), told)
        # what is still being spilled is Pending or Busy when the time is over
        refusals = (store_client.Full, store_client.Pending, store_client.Busy)
        self.assertTrue(all(one is None or isinstance(one, refusals) for one in told), told)
        # the other job has all its room
        other = self.on("A1.0", faults.put_numbers, count(8), 1)
        self.assertEqual(self.on("A1.0", faults.total, other).result(PATIENCE), expected(8, 1))
        del futures, told
        self.await_nothing("A", "2")
        again = self.on("A2.0", faults.put_numbers, count(4), 1)
        self.assertEqual(self.on("A2.0", faults.total, again).result(PATIENCE), expected(4, 1))

    def test_more_than_the_window_is_spilled(self) -> None:
        refs = [self.on(f"A1.{seed % 2}", faults.put_numbers, count(8), seed) for seed in range(8)]
        totals = self.one.gather([self.on(f"B1.{seed % 2}", faults.total, ref) for seed, ref in enumerate(refs)])
        self.assertEqual(totals, [expected(8, seed) for seed in range(8)])
        self.assertIn("AWAY", self.states("A1.0")["PRIMARY"])
        del refs
        self.await_nothing("AB")

    def test_another_job_s_result(self) -> None:
        future = self.on("B2.0", faults.granted, count(3), 11, 1, False)
        ref = future.result(PATIENCE)
        totals = [self.on(worker, faults.total, ref) for worker in ("B1.0", "C1.0", "C1.1")]
        self.assertEqual(self.one.gather(totals), [expected(3, 11)] * 3)
        self.on("B2.0", faults.withdrawn, ref, 1).result(PATIENCE)
        for worker in ("A1.0", "B1.0", "C1.0"):
            with self.assertRaises(store_client.NotGranted):
                self.on(worker, faults.total, ref).result(PATIENCE)
        self.await_nothing("ABC")
        wrapped = self.on("B2.0", faults.granted, count(1), 12, 1, True)
        with self.assertRaisesRegex(ValueError, "of another job only arrays are loaded"):
            self.on("B1.0", faults.total, wrapped.result(PATIENCE)).result(PATIENCE)
        del future, wrapped

    def test_a_host_that_nobody_knows(self) -> None:
        known = self.on("A1.0", faults.put_numbers, count(1), 1).result(PATIENCE)
        ref = dataclasses.replace(known, host="Z", name=store.Name(bytes(14)))
        with self.assertRaisesRegex(store.HostUnknown, "no worker of this scheduler ever was there"):
            self.on("B1.0", faults.total, ref).result(PATIENCE)

    def test_a_worker_that_dies_while_it_fetches(self) -> None:
        for death in (faults.die_fetching, faults.die_writing):
            ref = self.on("A1.0", faults.put_numbers, count(1), 13)
            wait(ref)
            dying = self.on("B1.0", death, ref)
            await_end(self.hosts.process("B1.0"), PATIENCE)
            self.assertIn("CREATED", self.states("B1.1")["SECONDARY"])
            self.assertEqual(self.on("B1.1", faults.total, ref).result(PATIENCE), expected(1, 13))
            self.assertEqual(self.states("B1.1")["SECONDARY"], ["SEALED"])
            dying.cancel()
            del dying, ref
            self.restart("B1.0")
            self.await_nothing("AB")

    def test_a_slow_writer_seals_its_own_alone(self) -> None:
        ref = self.on("A1.0", faults.put_numbers, count(1), 14)
        slow = self.on("B1.0", faults.write_late, ref, 2 * LEASE)
        wait_until(lambda: self.states("B1.1")["SECONDARY"], "the claim", PATIENCE)
        self.assertEqual(self.on("B1.1", faults.total, ref).result(PATIENCE), expected(1, 14))
        self.assertEqual(slow.result(PATIENCE), expected(1, 14))
        self.assertGreaterEqual(self.on("B1.1", faults.copies_are_right, ref).result(PATIENCE), 1)
        self.assertNotIn("CREATED", self.states("B1.1")["SECONDARY"])

    def test_a_worker_that_dies_while_it_puts(self) -> None:
        ref = self.one.submit(faults.die_putting_once, count(4), 15, str(self.folder / "died"), key="dies", workers=["A1.0", "A1.1"])
        self.assertEqual(self.on("B1.0", faults.total, ref).result(PATIENCE), expected(4, 15))
        del ref
        dead = next(name for name in ("A1.0", "A1.1") if not self.hosts.process(name).is_alive())
        self.restart(dead)
        self.await_nothing("AB")


class Losses(OfCluster):
    """A store is killed, and a host."""

    def test_0_a_worker_that_starts_before_its_store(self) -> None:
        self.hosts.kill_store("B")
        self.hosts.kill_worker("B1.0")
        self.restart("B1.0")
        with self.assertRaisesRegex(RuntimeError, "this worker of host B has no store, as ConnectionLost: .* looks for it again"):
            self.on("B1.0", faults.put_numbers, count(1), 1).result(PATIENCE)
        self.hosts.serve(self.hosts.hosts["B"])
        put: List[Any] = []

        def is_put() -> bool:
            put[:] = [self.on("B1.0", faults.put_numbers, count(2), 19)]
            return put[0].exception(PATIENCE) is None

        wait_until(is_put, "a store", PATIENCE)
        # the others know that the worker is there
        self.assertEqual(self.on("A1.0", faults.total, put[0]).result(PATIENCE), expected(2, 19))

    def test_1_a_store_that_comes_back_in_time(self) -> None:
        future = self.on("B1.0", faults.put_numbers, count(3), 27)
        future.result(PATIENCE)
        self.hosts.kill_store("B")
        loads = [self.on(worker, faults.patiently, faults.total, future) for worker in ("A1.0", "B1.1")]
        # as store-daemon starts it again
        self.hosts.serve(self.hosts.hosts["B"])
        for load in loads:
            self.assertEqual(load.result(PATIENCE), expected(3, 27))
        self.hosts.kill_store("B")
        put = self.on("B1.0", faults.patiently, faults.put_numbers, count(3), 28)
        self.hosts.serve(self.hosts.hosts["B"])
        self.assertEqual(self.on("C1.0", faults.total, put).result(PATIENCE), expected(3, 28))

    def test_1_a_store_that_is_killed(self) -> None:
        future = self.on("B1.0", faults.put_numbers, count(3), 20)
        ref = future.result(PATIENCE)
        self.hosts.kill_store("B")
        for worker in ("A1.0", "B1.1"):
            told, seconds = self.on(worker, faults.loaded_in_time, ref).result(PATIENCE)
            self.assertRegex(told, "ValueLost: ndarray float64 .* of host B is lost")
            self.assertLess(seconds, 30)
        with self.assertRaises(store_client.ConnectionLost):
            self.on("B1.1", faults.put_numbers, count(1), 1).result(PATIENCE)
        # as store-daemon starts it again
        self.hosts.serve(self.hosts.hosts["B"])
        again = self.on("B1.1", faults.put_numbers, count(3), 21)
        self.assertEqual(self.on("C1.0", faults.total, again).result(PATIENCE), expected(3, 21))

    def test_2_what_was_lost_is_computed_again(self) -> None:
        future = self.on("B1.0", faults.put_numbers, count(3), 22)
        self.assertEqual(self.on("C1.0", faults.total, future).result(PATIENCE), expected(3, 22))
        before = future.result(PATIENCE).name
        for host in "BC":
            self.hosts.kill_store(host)
            self.hosts.serve(self.hosts.hosts[host])
        self.assertEqual(self.on("A1.0", faults.total, future).result(PATIENCE), expected(3, 22))
        self.assertNotEqual(future.result(PATIENCE).name, before)

    def test_3_a_host_that_is_lost(self) -> None:
        kept = self.one.submit(faults.put_numbers, count(3), 23, workers=["C1.0"], allow_other_workers=True)
        copied, lost = (self.on("C1.0", faults.put_numbers, count(3), seed) for seed in (24, 25))
        copy, gone = copied.result(PATIENCE), lost.result(PATIENCE)
        wait(kept)
        self.assertEqual(self.on("B1.0", faults.total, copy).result(PATIENCE), expected(3, 24))
        self.hosts.kill_host("C")
        # another host has a copy; of this one nobody has
        self.assertEqual(self.on("A1.0", faults.total, copy).result(PATIENCE), expected(3, 24))
        told, seconds = self.on("B1.0", faults.loaded_in_time, gone).result(PATIENCE)
        self.assertRegex(told, "ValueLost: ndarray float64 .* of host C is lost")
        self.assertLess(seconds, 30)
        self.assertEqual(self.on("A1.1", faults.total, kept).result(PATIENCE), expected(3, 23))
