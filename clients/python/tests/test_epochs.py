"""Epochs: that the loss of an object by a restart is told from its absence, and who is believed what epoch it is."""

from __future__ import annotations

import asyncio
import os
import pickle
import threading
import time
import unittest
from pathlib import Path
from typing import Any, Callable, List, Optional
from unittest import mock

from support import PATIENCE, PROGRAM, Server, ServerOfAll, key

import store_client
from store_client import Absent, LostAtRestart, NotGranted, ObjectId, Pool, Task, aio
from store_client.encoding import Manifest
from store_client.epochs import epoch_file, read_epoch

try:
    import numpy
except ImportError:
    numpy = None

FIRST, SECOND = "0123456789abcdef" * 2, "fedcba9876543210" * 2


class Restarted(ServerOfAll):
    """At a server of two nodes that was started again since an object was put."""

    nodes = 2
    lost: ObjectId

    @classmethod
    def setUpClass(cls) -> None:
        super().setUpClass()
        cls.server.write_epoch(FIRST)
        with cls.server.connect() as store:
            cls.lost = store.put(b"Hello")
            assert store.epoch == FIRST
        cls.server.kill()
        cls.server.start_again(SECOND)

    def gets(self, store: Any) -> List[Callable[..., Any]]:
        """All calls that take an epoch."""
        return [
            store.get, store.get_value, lambda id, **more: store.get_into(id, bytearray(5), **more), *([store.get_array] if numpy else [])
        ]

    def test_it_is_told(self) -> None:
        pool = Pool(self.server.path, 1, key(1))
        self.addCleanup(pool.close)
        for store in (self.connect(), self.connect(node=1), pool):
            self.assertEqual(store.epoch, SECOND)
            for get in self.gets(store):
                with self.assertRaises(LostAtRestart) as told:
                    get(self.lost, since=FIRST)
                self.assertIsInstance(told.exception, Absent)
                about = f"get {self.lost.text(1)}, put in epoch {FIRST}, and now it is {SECOND}"
                text = f"4 LostAtRestart: It was lost: the store was restarted since it was put. ({about})"
                self.assertEqual(str(told.exception), text)
                self.assertEqual(str(pickle.loads(pickle.dumps(told.exception))), str(told.exception))

    def test_it_isn_t_waited_for(self) -> None:
        began = time.monotonic()
        for get in self.gets(self.connect()):
            self.assertRaises(LostAtRestart, get, self.lost, timeout=4 * PATIENCE, since=FIRST)
        self.assertLess(time.monotonic() - began, 2 * PATIENCE)

    def test_what_isn_t_known_is_absent(self) -> None:
        for since in (SECOND, None):
            for get in self.gets(self.connect()):
                with self.assertRaises(Absent) as told:
                    get(self.lost, since=since)
                self.assertIs(type(told.exception), Absent)

    def test_what_was_put_again_is_got(self) -> None:
        id = Task(os.urandom(20)).object(1, job=1)
        near, far = self.connect(), self.connect(node=1)
        near.put(b"again", id)
        for store in (near, far):
            for timeout in (None, PATIENCE):
                with store.get(id, timeout, since=FIRST) as view:
                    self.assertEqual(bytes(view), b"again")
        near.delete(id)

    def test_what_is_being_put_again_is_waited_for(self) -> None:
        id = Task(os.urandom(20)).object(1, job=1)
        store, producer = self.connect(), self.connect()
        producer.create(id, 5)
        with self.assertRaises(store_client.NotSealed):
            store.get(id, timeout=0.2, since=FIRST)

        def finish() -> None:
            producer.write(id, 0, b"again")
            producer.seal(id)

        timer = threading.Timer(0.2, finish)
        timer.start()
        self.addCleanup(timer.join)
        with store.get(id, timeout=PATIENCE, since=FIRST) as view:
            self.assertEqual(bytes(view), b"again")
        store.delete(id)

    def test_a_look_leaves_nothing(self) -> None:
        for store in (self.connect(), self.connect(node=1)):
            before = store.usage()
            for timeout in (None, PATIENCE, 0):
                self.assertRaises(LostAtRestart, store.get, self.lost, timeout, since=FIRST)
            self.assertEqual(store.usage(), before)

    def test_a_part_that_is_missing_wasn_t_lost_by_it(self) -> None:
        store = self.connect()
        id, part = (Task(os.urandom(20)).object(index, job=1) for index in (1, 2))
        store.put(Manifest(5, 16, [part]).encode(), id)
        with self.assertRaises(Absent) as told:
            store.get_value(id, since=FIRST)
        self.assertEqual((type(told.exception), told.exception.id), (Absent, part))
        store.delete(id)

    def test_what_another_job_had_granted(self) -> None:
        store = self.connect(2)
        for timeout in (None, 4 * PATIENCE):
            with self.assertRaisesRegex(LostAtRestart, f"peek {self.lost}"):
                store.get(self.lost, timeout, since=FIRST)
        with self.assertRaises(NotGranted):
            store.get(self.lost, since=SECOND)

    def test_of_a_coroutine(self) -> None:
        async def told() -> List[Optional[str]]:
            async with await aio.connect(self.server.path, 1, key(1)) as store:
                errors = [store.epoch]
                for get in self.gets(store):
                    try:
                        await get(self.lost, since=FIRST)
                    except Absent as error:
                        errors.append(type(error).__name__)
                return errors

        self.assertEqual(asyncio.run(told()), [SECOND, *(["LostAtRestart"] * (4 if numpy else 3))])

    def test_what_is_no_epoch(self) -> None:
        store = self.connect()
        # of no type that the call takes
        untyped: List[Any] = [1, b"0" * 32, SECOND.encode(), []]
        for value in untyped:
            with self.assertRaisesRegex(TypeError, "an epoch is the text that `epoch` gives, or None"):
                store.get(self.lost, since=value)
        for text in ("", SECOND[:-1], SECOND.upper(), SECOND + "\n"):
            with self.assertRaisesRegex(ValueError, "an epoch has 32 lower-case hexadecimal digits"):
                store.get(self.lost, since=text)


class Connected(unittest.TestCase):
    def test_a_pool_that_connects_again(self) -> None:
        server = Server()
        self.addCleanup(server.close)
        server.write_epoch(FIRST)
        with Pool(server.path, 1, key(1)) as pool, server.connect() as store:
            id, epoch = pool.put(b"Hello"), pool.epoch
            server.kill()
            server.start_again(SECOND)
            with self.assertRaises(store_client.ConnectionLost):
                pool.get(id, since=epoch)
            with self.assertRaises(LostAtRestart):
                pool.get(id, since=epoch)
            # a connection keeps its own, which is lost
            self.assertEqual((epoch, pool.epoch, store.epoch), (FIRST, SECOND, FIRST))

    def test_servers_of_ones_own(self) -> None:
        with mock.patch.dict(os.environ, STORE_PROGRAM=PROGRAM), store_client.local("1M") as one, store_client.local("1M") as two:
            self.assertEqual([len(bytes.fromhex(store.epoch or "")) for store in (one, two)], [16, 16])
            self.assertNotEqual(one.epoch, two.epoch)
            with one.pool() as pool:
                self.assertEqual(pool.epoch, one.epoch)
            id = one.put(b"Hello")
            self.assertRaises(LostAtRestart, two.get, id, since=one.epoch)

    def test_without_one_nothing_is_told(self) -> None:
        server = Server()
        self.addCleanup(server.close)
        with server.connect() as store:
            self.assertIsNone(store.epoch)
            with self.assertRaises(Absent) as told:
                store.get(store.new_id(), since=FIRST)
            self.assertIs(type(told.exception), Absent)


class Files(unittest.TestCase):
    """Which file is read, and when it is believed."""

    def setUp(self) -> None:
        self.server = Server()
        self.addCleanup(self.server.close)
        self.folder = Path(self.server.folder.name)
        self.file = self.folder / "store.epoch"

    def test_it_lies_beside_the_socket(self) -> None:
        for path, file in (("/a/store.0", "store"), ("/a/store.7", "store"), ("/a/b.c", "b.c"), ("/a.0/b", "../a.0/b")):
            self.assertEqual(epoch_file(path), os.path.normpath(f"/a/{file}.epoch"))

    def test_by_a_link_to_the_socket(self) -> None:
        self.server.write_epoch(FIRST)
        (self.folder / "link").symlink_to(self.server.path)
        self.assertEqual(read_epoch(str(self.folder / "link")), FIRST)

    def test_what_isn_t_believed(self) -> None:
        for text in ("", "x", FIRST[:-1], FIRST + "0", FIRST.upper(), "\xe9" * 32, f"{FIRST}\n{FIRST}"):
            self.file.write_text(text, encoding="utf-8")
            self.assertIsNone(read_epoch(self.server.path), text)
        self.file.unlink()
        other = self.folder / "other"
        other.write_text(FIRST, encoding="ascii")
        self.file.symlink_to(other)
        self.assertIsNone(read_epoch(self.server.path))
        self.file.unlink()
        os.mkfifo(self.file)
        self.assertIsNone(read_epoch(self.server.path))
        self.file.unlink()
        self.file.mkdir()
        self.assertIsNone(read_epoch(self.server.path))
        for path in ("/nowhere/store.0", "a\0b"):
            self.assertIsNone(read_epoch(path))

    @unittest.skipUnless(os.geteuid() == 0, "only root can give a file to another user")
    def test_another_user_s_isn_t_believed(self) -> None:
        self.server.write_epoch(FIRST)
        self.assertEqual(read_epoch(self.server.path), FIRST)
        os.chown(self.file, 65534, -1)
        self.assertIsNone(read_epoch(self.server.path))


if __name__ == "__main__":
    unittest.main()
