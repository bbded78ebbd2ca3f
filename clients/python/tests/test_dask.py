"""What store_client.dask does without Dask's processes: ids, references, errors, and the sharing of what a host fetches.

With them it is tested by examples/cluster/test.py, over several hosts.
"""

from __future__ import annotations

import array
import asyncio
import concurrent.futures
import importlib.util
import os
import pickle
import threading
import time
import unittest
from pathlib import Path
from types import SimpleNamespace
from typing import Any, Callable, ContextManager, Dict, List, Tuple
from unittest import mock

from support import PATIENCE, Server, ServerOfAll, key

from store_client import Absent, ConnectionLost, Kind, ObjectId, State, absence
from store_client.requests import Pieces
from store_client.steps import Deadline

HAS_DASK = importlib.util.find_spec("distributed") is not None
if HAS_DASK:
    from store_client import dask
    from store_client.dask import again, host, names, reference, scheduler, sharing

LEASE = 1.0
FIRST, SECOND = "0123456789abcdef" * 2, "fedcba9876543210" * 2


def noted_sleep(missed: threading.Semaphore) -> ContextManager[object]:
    """Each pause of a wait for an absent store releases the semaphore first."""

    def sleep(seconds: float) -> None:
        missed.release()
        time.sleep(seconds)

    return mock.patch.object(absence, "time", SimpleNamespace(sleep=sleep))


@unittest.skipUnless(HAS_DASK, "distributed isn't there")
class Names(unittest.TestCase):
    """Ids, references and errors. No server is needed."""

    def test_ids_of_a_value(self) -> None:
        name = names.Name.of("sum-1", 2**40 + 7)
        ids = [name.primary(0, 1), name.claim(0, 1, 1), name.claim(0, 2**40, 1), name.copy(0, 1), name.copy(0, 1)]
        self.assertEqual(len(set(ids)), 5)
        self.assertEqual({names.prefix_of(id) for id in ids}, {name.prefix})
        self.assertEqual([names.turn_of(id) for id in ids], [0, 1, 2**40, 0, 0])
        self.assertEqual([names.is_primary(id) for id in ids], [True, False, False, False, False])
        self.assertEqual((name.epoch, name.primary(4, 1).index), (2**40 + 7, 5))

    def test_another_epoch_has_other_ids(self) -> None:
        self.assertNotEqual(names.Name.of("sum-1", 1).prefix, names.Name.of("sum-1", 2).prefix)
        self.assertNotEqual(names.Name.of("sum-1", 1).prefix, names.Name.of("sum-2", 1).prefix)

    def ref(self, value: Any, job: int = 1) -> dask.StoreRef:
        pieces, is_pickled = reference.encode(value)
        inline = b"".join(pieces.views)
        return dask.StoreRef("key", "A", job, reference.in_words(value), len(inline), names.Name(bytes(14)), 64, (), is_pickled, inline)

    def test_a_reference_can_be_pickled(self) -> None:
        ref = self.ref({"a": [1, 2]})
        again = pickle.loads(pickle.dumps(ref))
        self.assertEqual((again, again.digest, again.decode(memoryview(again.inline), 1)), (ref, ref.digest, {"a": [1, 2]}))
        self.assertNotEqual(ref.digest, self.ref({"a": [1, 3]}).digest)
        self.assertNotIn("inline", repr(ref))

    def test_nothing_of_another_job_s_is_unpickled(self) -> None:
        with self.assertRaisesRegex(ValueError, "of another job only arrays are loaded"):
            ref = self.ref(array.array("q", [1]), job=2)
            ref.decode(memoryview(ref.inline), 1)

    def test_errors_can_be_pickled(self) -> None:
        for error in (dask.ValueLost("A", "an array", "gone"), dask.HostUnknown("Z", "an array"), dask.KeyReleased("k")):
            again = pickle.loads(pickle.dumps(error))
            self.assertEqual((type(again), str(again), vars(again)), (type(error), str(error), vars(error)))
        lost = pickle.loads(pickle.dumps(dask.ValueLost("A", "an array", "gone", at_restart=True)))
        self.assertEqual((str(lost), lost.at_restart), ("an array of host A is lost: gone", True))

    def test_in_a_worker_whose_store_isn_t_there(self) -> None:
        plugin = dask.StoreWorkers("/nowhere/store", key_file="/nowhere/key")
        with self.assertRaises(FileNotFoundError):
            asyncio.run(plugin.setup(None))
        with mock.patch.object(reference, "get_worker", lambda: SimpleNamespace(plugins={reference.PLUGIN: plugin})):
            with self.assertRaisesRegex(RuntimeError, "this worker of host .* has no store, as FileNotFoundError: .*/nowhere/key"):
                dask.put(1)
        client = SimpleNamespace(run=lambda asked: {"a1": asked(SimpleNamespace(plugins={reference.PLUGIN: plugin}))})
        self.assertEqual((dask.usage(client), dask.counts(client)), ({}, {}))

    def test_outside_of_a_task(self) -> None:
        with self.assertRaisesRegex(RuntimeError, "to be called in a task"):
            dask.put(1)

    def test_a_plugin_can_be_pickled(self) -> None:
        plugin = pickle.loads(pickle.dumps(dask.StoreWorkers("/run/store", 2, "/key", nodes=3, part=64, small=32, lease=1.5, patience=7)))
        self.assertEqual(plugin.__reduce__()[1], ("/run/store", 2, "/key", 3, 64, 32, 1.5, 7))

    def test_pauses_between_tries_grow_to_a_bound(self) -> None:
        now = 100.0
        tries, pauses = again.Tries(lambda: now), []
        self.assertEqual(tries.seconds_left, 0)
        for _ in range(9):
            tries.failed()
            pauses.append(tries.seconds_left)
            now += tries.seconds_left
            self.assertEqual(tries.seconds_left, 0)
        self.assertEqual(pauses, [0.5, 1, 2, 4, 8, 16, 30, 30, 30])


@unittest.skipUnless(HAS_DASK, "distributed isn't there")
class Starting(unittest.IsolatedAsyncioTestCase):
    """A worker that finds no store at its start. The scheduler is this test's."""

    async def asyncSetUp(self) -> None:
        self.server = Server(nodes=2)
        self.addCleanup(self.server.close)
        self.folder = Path(self.server.folder.name)
        self.joined: List[str] = []
        self.now = 0.0

    async def store_join(self, worker: str, host: str) -> None:
        self.joined.append(worker)

    def plugin(self) -> dask.StoreWorkers:
        plugin = dask.StoreWorkers(f"{self.folder}/store", 1, f"{self.folder}/job.key", nodes=2)
        plugin._tries = again.Tries(lambda: self.now)

        def close() -> None:
            if not plugin.fault:
                plugin._store.close()

        self.addCleanup(close)
        return plugin

    def worker(self) -> Any:
        loop = SimpleNamespace(asyncio_loop=asyncio.get_running_loop())
        return SimpleNamespace(handlers={}, address="b1", loop=loop, scheduler=SimpleNamespace(store_join=self.store_join))

    async def needed(self, plugin: dask.StoreWorkers) -> str:
        """What a task meets that needs the store."""
        try:
            await asyncio.get_running_loop().run_in_executor(None, plugin.await_store)
        except RuntimeError as error:
            return str(error)
        return ""

    async def test_it_is_looked_for_again_after_a_pause(self) -> None:
        plugin = self.plugin()
        with self.assertRaises(FileNotFoundError):
            await plugin.setup(self.worker())
        (self.folder / "job.key").write_text("00" * 32)
        self.assertIn("has no store, as FileNotFoundError", await self.needed(plugin))
        self.now = 0.5
        self.assertRegex(await self.needed(plugin), "has no store, as NotAdmitted: .* in 1.0 seconds or later looks for it again")
        (self.folder / "job.key").write_text(key(1).hex())
        self.now = 1.4
        self.assertRegex(await self.needed(plugin), "has no store, as NotAdmitted: .* in 0.1 seconds or later looks for it again")
        self.assertEqual(self.joined, [])
        self.now = 1.5
        self.assertEqual(await self.needed(plugin), "")
        self.assertEqual((plugin.fault, self.joined, len(plugin.usage())), (None, ["b1"], 2))
        self.assertEqual(await self.needed(plugin), "")
        self.assertEqual(self.joined, ["b1"])

    async def test_a_number_that_is_none(self) -> None:
        for name, text in (("STORE_JOB", "first"), ("STORE_JOB", "0"), ("STORE_NODES", "two"), ("STORE_NODES", "9")):
            with mock.patch.dict(os.environ, {name: text, "STORE_KEY": key(1).hex()}):
                with self.assertRaisesRegex(ValueError, f"{name}, is 1 to .*, not '?{text}"):
                    await self.plugin().setup(self.worker())

    async def test_one_task_of_several_looks(self) -> None:
        plugin = self.plugin()
        with self.assertRaises(FileNotFoundError):
            await plugin.setup(self.worker())
        (self.folder / "job.key").write_text(key(1).hex())
        self.now = 1.0
        self.assertEqual(await asyncio.gather(*(self.needed(plugin) for _ in range(4))), [""] * 4)
        self.assertEqual(self.joined, ["b1"])

    async def test_a_task_waits_for_the_start(self) -> None:
        plugin = self.plugin()
        (self.folder / "job.key").write_text(key(1).hex())
        needed = asyncio.ensure_future(self.needed(plugin))
        await asyncio.sleep(0.1)
        self.assertFalse(needed.done())
        await plugin.setup(self.worker())
        self.assertEqual(await needed, "")

    async def test_a_coroutine_is_told_that_it_can_t_wait(self) -> None:
        plugin = self.plugin()
        with self.assertRaises(FileNotFoundError):
            await plugin.setup(self.worker())
        with self.assertRaisesRegex(RuntimeError, "can't be called in a coroutine"):
            plugin.await_store()


@unittest.skipUnless(HAS_DASK, "distributed isn't there")
class Shared(ServerOfAll):
    """A host's workers share what one of them fetches. Here they are threads, each with pools of its own."""

    nodes = 2

    def setUp(self) -> None:
        self.name = names.Name.of(self.id(), time.monotonic_ns() % 2**40)
        self.data = bytes(range(250)) * 4
        self.fetched: List[int] = []
        self.store = self.worker()

    def worker(self) -> host.HostStore:
        """A worker's connection to the host's store."""
        store = host.HostStore(f"{self.server.folder.name}/store", 2, 1, key(1), 1000)
        self.addCleanup(store.close)
        return store

    def bring(self, store: host.HostStore, fetch: Any = None, lease: float = PATIENCE) -> bytes:
        into = memoryview(bytearray(len(self.data)))
        sharing.Sharing(store, lease).bring(self.name, 0, into, fetch or self.fetch, Deadline(PATIENCE))
        return bytes(into)

    def fetch(self, into: memoryview) -> None:
        self.fetched.append(1)
        into[:] = self.data

    def copies(self, part: int = 0) -> List[State]:
        return list(self.store.copies_of(self.name, part).values())

    def test_one_fetches_for_all(self) -> None:
        begun = threading.Event()

        def slowly(into: memoryview) -> None:
            begun.wait(PATIENCE)
            self.fetch(into)

        with concurrent.futures.ThreadPoolExecutor(5) as threads:
            brought = [threads.submit(self.bring, self.worker(), slowly) for _ in range(5)]
            begun.set()
            self.assertEqual({one.result(PATIENCE) for one in brought}, {self.data})
        self.assertEqual((len(self.fetched), self.copies()), (1, [State.SEALED]))

    def test_a_fetch_that_fails_leaves_nothing(self) -> None:
        def fail(_: memoryview) -> None:
            raise ValueError("no")

        with self.assertRaisesRegex(ValueError, "no"):
            self.bring(self.store, fail)
        self.assertEqual(self.copies(), [])

    def test_what_a_dead_worker_left_is_taken_back(self) -> None:
        self.store.create(self.name.claim(0, 1, 1), 1, Kind.SECONDARY)
        self.store.create(self.name.copy(0, 1), len(self.data), Kind.SECONDARY)
        start = time.monotonic()
        self.assertEqual(self.bring(self.worker(), lease=LEASE), self.data)
        self.assertGreaterEqual(time.monotonic() - start, LEASE)
        self.assertEqual(self.copies(), [State.SEALED])

    def test_a_slow_writer_is_refused_and_seals_nothing(self) -> None:
        # it has its claim, and a copy of which half is written
        claim, copy = self.name.claim(0, 1, 1), self.name.copy(0, 1)
        pool = self.store._pool(copy)
        self.store.create(claim, 1, Kind.SECONDARY)
        self.store.create(copy, len(self.data), Kind.SECONDARY)
        pool.write(copy, 0, b"half")
        self.assertEqual(self.bring(self.worker(), lease=LEASE), self.data)
        calls: Tuple[Callable[[], None], ...] = (lambda: pool.write(copy, 4, b"late"), lambda: pool.seal(copy))
        for late in calls:
            with self.assertRaises(Absent):
                late()
        for id, state in self.store.copies_of(self.name, 0).items():
            with self.store._pool(id).get(id) as view:
                self.assertEqual((bytes(view), state), (self.data, State.SEALED))

    def test_a_look_at_a_part_sees_its_copies_alone(self) -> None:
        other = names.Name.of("other", self.name.epoch)
        claim = self.name.claim(0, 1, 1)
        for id in (claim, self.name.claim(1, 1, 1), self.name.claim(2, 1, 1), self.name.primary(0, 1), other.claim(0, 1, 1)):
            self.store.create(id, 1, Kind.SECONDARY)
        self.assertEqual(self.store.copies_of(self.name, 0), {claim: State.CREATED})
        self.store.forget([other.prefix])

    def test_all_of_a_value_is_removed_by_its_prefix(self) -> None:
        other = names.Name.of("other", 1)
        ids: List[ObjectId] = [self.name.primary(0, 1), self.name.primary(1, 1), self.name.copy(1, 1), other.primary(0, 1)]
        for id in ids:
            self.store.put(id, Pieces([memoryview(b"data")]), Kind.PRIMARY, Deadline(1.0))
        self.assertEqual(self.store.forget([self.name.prefix]), 3)
        self.assertEqual(self.store.forget([self.name.prefix, other.prefix]), 1)
        self.assertEqual([usage.copies for usage in self.store.usage()], [0, 0])

    def tearDown(self) -> None:
        self.store.forget([self.name.prefix])


@unittest.skipUnless(HAS_DASK, "distributed isn't there")
class Away(unittest.IsolatedAsyncioTestCase):
    """The store of host A is killed, and started again or not. Workers of A and B ask it; the scheduler is this test's."""

    async def asyncSetUp(self) -> None:
        self.server = Server(nodes=2)
        self.addCleanup(self.server.close)
        self.server.write_epoch(FIRST)
        self.epochs = 0
        self.lost: List[bytes] = []
        self.plugins: Dict[str, dask.StoreWorkers] = {}
        self.value = bytes(range(256)) * 16

    async def store_join(self, worker: str, host: str) -> None:
        """As the scheduler's."""

    async def store_begin(self, key: str, worker: str, with_key: bool) -> int:
        self.epochs += 1
        return self.epochs

    async def store_hosts(self, host: str, mine: str) -> Any:
        return {"own": ["a1"], "others": [], "known": True}

    async def store_lost(self, name: bytes, asker: str) -> bool:
        self.lost.append(name)
        return False

    async def plugin(self, address: str, patience: float) -> dask.StoreWorkers:
        """That of a worker whose host is the first letter of its address. All use one store, but B only asks A for values."""
        plugin = dask.StoreWorkers(f"{self.server.folder.name}/store", 1, nodes=2, part=1024, small=16, patience=patience)
        loop = SimpleNamespace(asyncio_loop=asyncio.get_running_loop())
        worker = SimpleNamespace(handlers={}, address=address, loop=loop, scheduler=self, active_threads={}, get_current_task=lambda: "key")
        with mock.patch.dict(os.environ, {"STORE_KEY": key(1).hex(), "STORE_HOST": address[0].upper()}):
            await plugin.setup(worker)
        self.addCleanup(plugin._store.close)
        patch = mock.patch.object(plugin._peers, "_send", self.send)
        patch.start()
        self.addCleanup(patch.stop)
        self.plugins[address] = plugin
        return plugin

    async def send(self, address: str, words: Any, seconds: float) -> Any:
        """What Dask's connections carry."""
        given = {name: value for name, value in words.items() if name != "op"}
        answer = await self.plugins[address]._answer_part(**given)
        return {name: getattr(value, "data", value) for name, value in answer.items()}

    async def meanwhile(self, work: Any, plugin: dask.StoreWorkers) -> Any:
        """What the work gives, done by a task of this worker while the store is away; it comes back once the task has missed it twice."""
        missed, loop = threading.Semaphore(0), asyncio.get_running_loop()
        self.server.kill()
        with noted_sleep(missed):
            working = loop.run_in_executor(None, work)
            for _ in range(2):
                self.assertTrue(await loop.run_in_executor(None, missed.acquire, True, PATIENCE))
            self.assertFalse(working.done())
            # who waits keeps no thread that moves parts
            self.assertEqual(await loop.run_in_executor(None, plugin._threads.submit(int).result, PATIENCE), 0)
            await loop.run_in_executor(None, self.server.start_again, SECOND)
            return await working

    async def in_task(self, work: Any) -> Any:
        return await asyncio.get_running_loop().run_in_executor(None, work)

    async def test_a_put_waits(self) -> None:
        plugin = await self.plugin("a1", 4 * PATIENCE)
        ref = await self.meanwhile(lambda: plugin.put(self.value, True, 8 * PATIENCE), plugin)
        self.assertEqual((ref.store_epoch, len(ref.digests)), (SECOND, 5))
        self.assertEqual(await self.in_task(lambda: plugin.load(ref, PATIENCE)), self.value)

    async def load_waits(self, address: str) -> None:
        """At this worker, before the value counts as lost."""
        home, reader = await self.plugin("a1", 4 * PATIENCE), await self.plugin(address, 4 * PATIENCE)
        ref = await self.in_task(lambda: home.put(self.value, True, PATIENCE))
        with self.assertRaises(dask.ValueLost) as told:
            await self.meanwhile(lambda: reader.load(ref, 8 * PATIENCE), reader)
        self.assertEqual(str(told.exception), "bytes of host A is lost: its store was restarted since it was put")
        self.assertEqual((told.exception.at_restart, self.lost), (True, [ref.name.prefix]))

    async def test_a_load_on_the_value_s_host_waits(self) -> None:
        await self.load_waits("a2")

    async def test_a_load_on_another_host_waits(self) -> None:
        await self.load_waits("b1")

    async def test_a_store_that_doesn_t_come_back(self) -> None:
        home, far = await self.plugin("a1", 0.5), await self.plugin("b1", 0.5)
        ref = await self.in_task(lambda: home.put(self.value, True, PATIENCE))
        self.server.kill()
        for plugin in (home, far):
            began = time.monotonic()
            with self.assertRaisesRegex(dask.ValueLost, "the store wasn't there again in time") as told:
                await self.in_task(lambda: plugin.load(ref, PATIENCE))
            self.assertFalse(told.exception.at_restart)
            self.assertGreaterEqual(time.monotonic() - began, 0.5)
        with self.assertRaises(ConnectionLost):
            await self.in_task(lambda: home.put(self.value, True, PATIENCE))
        self.server.start_again(SECOND)

    async def test_a_restart_in_the_midst_of_a_put(self) -> None:
        """What an earlier server had of it is put again."""
        plugin = await self.plugin("a1", 4 * PATIENCE)
        put, count = plugin._store.put, 0

        def put_and_restart(*words: Any) -> Any:
            nonlocal count
            with lock:
                count += 1
                if count == 3:
                    self.server.kill()
                    self.server.start_again(SECOND)
                return put(*words)

        lock = threading.Lock()
        with mock.patch.object(plugin._store, "put", put_and_restart):
            ref = await self.in_task(lambda: plugin.put(self.value, True, 8 * PATIENCE))
        self.assertEqual(ref.store_epoch, SECOND)
        self.assertEqual(await self.in_task(lambda: plugin.load(ref, PATIENCE)), self.value)
        self.assertEqual(sum(usage.copies for usage in plugin.usage()), 5)

    async def test_what_was_removed_wasn_t_lost_at_a_restart(self) -> None:
        home, far = await self.plugin("a1", PATIENCE), await self.plugin("b1", PATIENCE)
        ref = await self.in_task(lambda: home.put(self.value, True, PATIENCE))
        home._store.forget([ref.name.prefix])
        for plugin in (home, far):
            with self.assertRaisesRegex(dask.ValueLost, "it was removed there|no worker of A is left") as told:
                await self.in_task(lambda: plugin.load(ref, PATIENCE))
            self.assertFalse(told.exception.at_restart)


@unittest.skipUnless(HAS_DASK, "distributed isn't there")
class OfCluster(unittest.TestCase):
    """At a cluster of Dask's own, in this process."""

    def test_a_key_is_computed_again_once_the_store_is_back(self) -> None:
        from distributed import Client, LocalCluster

        server = Server()
        self.addCleanup(server.close)
        # the worker has no end of its own, so its sessions are still open
        self.addCleanup(lambda: server.program.kill())
        server.write_epoch(FIRST)
        words = {"n_workers": 1, "threads_per_worker": 2, "processes": False, "dashboard_address": None}
        with LocalCluster(**words) as cluster, Client(cluster, timeout=PATIENCE) as client:
            with mock.patch.dict(os.environ, STORE_KEY=key(1).hex()):
                dask.attach(client, f"{server.folder.name}/store", 1, small=16, patience=4 * PATIENCE)
            future = client.submit(dask.put, list(range(100)), key="put")
            before = future.result(PATIENCE)
            server.kill()
            missed = threading.Semaphore(0)
            with noted_sleep(missed):
                total = client.submit(lambda ref: sum(ref.load(8 * PATIENCE)), future, pure=False)
                by_hand = client.submit(load_in_words, [before.name.prefix, before], pure=False)
                for _ in range(2):
                    self.assertTrue(missed.acquire(timeout=PATIENCE))
                server.start_again(SECOND)
                self.assertEqual(total.result(2 * PATIENCE), 4950)
            self.assertEqual(by_hand.result(2 * PATIENCE), "its store was restarted since it was put")
            self.assertEqual((before.store_epoch, future.result(PATIENCE).store_epoch), (FIRST, SECOND))
            del future, total, by_hand
            plugin, end = cluster.scheduler.plugins["store"], time.monotonic() + PATIENCE
            while (plugin._names or plugin._telling) and time.monotonic() < end:
                time.sleep(0.01)
            self.assertEqual((plugin._names, plugin._telling), ({}, set()))


def load_in_words(words: List[Any]) -> str:
    """Why a value is lost that was given otherwise than as a task's result."""
    try:
        return str(words[1].load(8 * PATIENCE))
    except dask.ValueLost as lost:
        return lost.why


class Task:
    """A task as the scheduler has it."""

    def __init__(self, key: str) -> None:
        self.key = key
        self.state = "processing"
        self.who_wants: List[Any] = []
        self.waiters: List[Any] = []
        self.dependencies: List[Any] = []


class Scheduler:
    """What the plugin needs of a scheduler, and what it told the workers."""

    def __init__(self, *keys: str) -> None:
        self.handlers: Any = {}
        self.tasks = {key: Task(key) for key in keys}
        self.told: List[Any] = []
        self.changed: List[Any] = []

    async def broadcast(self, msg: Any, workers: List[str], on_error: str) -> Any:
        self.told.append((sorted(workers), msg["sweep"], msg["prefixes"]))
        return {worker: 0 if msg["sweep"] else None for worker in workers if worker != "a1"}

    def transitions(self, recommendations: Any, _: str) -> None:
        self.changed.append(recommendations)


@unittest.skipUnless(HAS_DASK, "distributed isn't there")
class Scheduling(unittest.IsolatedAsyncioTestCase):
    """Which values stay, by what the scheduler tells of its keys."""

    async def asyncSetUp(self) -> None:
        self.scheduler = Scheduler("one", "two")
        self.plugin = scheduler.StoreScheduler()
        await self.plugin.start(self.scheduler)
        for worker, its_host in (("a1", "A"), ("a2", "A"), ("b1", "B")):
            await self.plugin.store_join(worker, its_host)

    async def put(self, key_: str, with_key: bool = True) -> int:
        self.plugin.transition(key_, "waiting", "processing")
        epoch = await self.plugin.store_begin(key_, "a1", with_key)
        self.plugin.transition(key_, "processing", "memory")
        assert epoch is not None
        return epoch

    async def removed(self) -> List[bytes]:
        """What the hosts were told to remove."""
        await settled(self.plugin)
        swept = [(workers, prefixes) for workers, sweep, prefixes in self.scheduler.told if sweep]
        self.scheduler.told.clear()
        return sorted({prefix for _, prefixes in swept for prefix in prefixes})

    def release(self, key_: str) -> None:
        self.plugin.transition(key_, "memory", "released")

    async def test_it_goes_with_its_key_and_one_of_each_host_removes_it(self) -> None:
        epoch = await self.put("one")
        self.release("one")
        await settled(self.plugin)
        prefix = names.Name.of("one", epoch).prefix
        # a1 doesn't answer, so a2 is asked
        self.assertEqual(self.scheduler.told[0], (["a1", "a2", "b1"], False, [prefix]))
        self.assertEqual(sorted(self.scheduler.told[1:]), [(["a1"], True, [prefix]), (["a2"], True, [prefix]), (["b1"], True, [prefix])])

    async def test_a_key_that_is_wanted_keeps_it(self) -> None:
        epoch = await self.put("one")
        self.scheduler.tasks["one"].who_wants = ["client"]
        self.release("one")
        self.assertEqual(await self.removed(), [])
        # it is computed again; then the earlier one goes
        later = await self.put("one")
        self.assertEqual(await self.removed(), [names.Name.of("one", epoch).prefix])
        self.plugin.transition("one", "released", "forgotten")
        self.assertEqual(await self.removed(), [names.Name.of("one", later).prefix])

    async def test_who_keeps_it(self) -> None:
        epoch = await self.put("one")
        self.assertTrue(await self.plugin.store_keep(prefix("one", epoch), "two"))
        self.release("one")
        self.assertEqual(await self.removed(), [])
        self.release("two")
        self.assertEqual(await self.removed(), [names.Name.of("one", epoch).prefix])
        self.assertFalse(await self.plugin.store_keep(prefix("one", epoch), "two"))

    async def test_what_is_lost_is_computed_again_once(self) -> None:
        epoch = await self.put("one")
        await self.plugin.store_keep(prefix("one", epoch), "two")
        for task in self.scheduler.tasks.values():
            task.state = "memory"
        self.scheduler.tasks["reader"], self.scheduler.tasks["stranger"] = Task("reader"), Task("stranger")
        self.scheduler.tasks["reader"].dependencies = [self.scheduler.tasks["one"]]
        # who depends on it is to run again, but not for ever; who was given the reference otherwise is not
        told = [await self.plugin.store_lost(prefix("one", epoch), asker) for asker in ("reader", "stranger", "reader", "")]
        self.assertEqual(told, [True, False, False, False])
        self.assertEqual(self.scheduler.changed, [{"one": "released", "two": "released"}])

    async def test_without_its_key(self) -> None:
        epoch = await self.put("one", with_key=False)
        self.plugin.transition("one", "released", "forgotten")
        self.assertEqual(await self.removed(), [])
        await self.plugin.store_release(prefix("one", epoch))
        self.assertEqual(await self.removed(), [names.Name.of("one", epoch).prefix])

    async def test_a_value_of_another_scheduler_with_the_same_epoch(self) -> None:
        epoch = await self.put("one")
        self.scheduler.tasks["one"].state = "memory"
        theirs = prefix("theirs", epoch)
        self.assertFalse(await self.plugin.store_keep(theirs, "two"))
        self.assertFalse(await self.plugin.store_lost(theirs, "two"))
        await self.plugin.store_release(theirs)
        self.assertEqual((await self.removed(), self.scheduler.changed), ([], []))
        self.release("one")
        self.assertEqual(await self.removed(), [prefix("one", epoch)])

    async def test_a_key_that_is_gone_puts_nothing(self) -> None:
        self.assertIsNone(await self.plugin.store_begin("three", "a1", True))

    async def test_hosts(self) -> None:
        self.assertEqual(await self.plugin.store_hosts("A", "B"), {"own": ["a1", "a2"], "others": [], "known": True})
        self.plugin.remove_worker(None, "a1")
        self.plugin.remove_worker(None, "a2")
        self.assertEqual(await self.plugin.store_hosts("A", "C"), {"own": [], "others": ["b1"], "known": True})
        self.assertFalse((await self.plugin.store_hosts("Z", "A"))["known"])


def prefix(key: str, epoch: int) -> bytes:
    return names.Name.of(key, epoch).prefix


async def settled(plugin: Any) -> None:
    """Until the plugin has told all."""
    for task in list(plugin._telling):
        await task


if __name__ == "__main__":
    unittest.main()
