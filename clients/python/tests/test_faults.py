"""What goes wrong at the caller's: errors that cross processes, wrong arguments, holds that are dropped. Each is told."""

from __future__ import annotations

import concurrent.futures
import copy
import ctypes
import gc
import multiprocessing
import pickle
import sys
import unittest
import warnings
from pathlib import Path
from typing import Any, List
from unittest import mock

from support import PATIENCE, WithServer, in_use, key

import store_client
from store_client import Absent, ConnectionLost, Refused, ServerSilent, Task
from store_client.refusals import BY_NUMBER

try:
    import numpy
except ImportError:
    numpy = None


def raise_absent() -> None:
    raise Absent("get", Task.numbered(1).object(2, job=1), 1)


class Errors(unittest.TestCase):
    """An error crosses from process to process as it is."""

    def test_each_error_is_pickled_and_copied(self) -> None:
        one = Task.numbered(1).object(2, job=1)
        errors: List[Exception] = [refusal("get", one, 1, "5 bytes") for refusal in BY_NUMBER.values()]
        errors += [kind("why") for kind in (store_client.StoreError, ConnectionLost, store_client.ProtocolError, ServerSilent)]
        errors += [store_client.TimedOut("why"), store_client.Full()]
        for error in errors:
            for other in (pickle.loads(pickle.dumps(error)), copy.copy(error), copy.deepcopy(error)):
                self.assertIs(type(other), type(error))
                self.assertEqual((str(other), vars(other)), (str(error), vars(error)))

    def test_a_worker_that_is_refused_tells_its_pool(self) -> None:
        context = multiprocessing.get_context("spawn")
        with concurrent.futures.ProcessPoolExecutor(1, mp_context=context) as pool:
            with self.assertRaisesRegex(Absent, "get t1.2"):
                pool.submit(raise_absent).result(PATIENCE)
        with context.Pool(1) as workers:
            with self.assertRaises(Absent):
                workers.apply_async(raise_absent).get(PATIENCE)

    def test_a_silent_server_is_a_timeout_and_a_lost_connection(self) -> None:
        self.assertTrue(issubclass(ServerSilent, (TimeoutError)) and issubclass(ServerSilent, ConnectionLost))


class Arguments(WithServer):
    def refuses(self, error: type, expected: str, method: Any, *words: Any, **more: Any) -> None:
        with self.assertRaisesRegex(error, expected):
            method(*words, **more)
        # and the session goes on
        self.store.usage()

    def test_numbers(self) -> None:
        self.refuses(ValueError, "a length is 0 to 4294967295, not -5", self.store.create, self.object_id(), -5)
        self.refuses(ValueError, "a kind is Kind.PRIMARY .0. or Kind.SECONDARY .1., not 7", self.store.create, self.object_id(), 5, 7)
        self.refuses(ValueError, "a job is 0 to 4294967295, not -1", self.store.grant, self.object_id(), -1)
        self.refuses(TypeError, "a length is a whole number, not str", self.store.create, self.object_id(), "5")
        self.refuses(ValueError, "an offset is", self.store.read, self.object_id(), -1, 5)
        self.refuses(ValueError, "a number of bytes is", self.store.peek, self.object_id(), 0, -1)
        self.refuses(ValueError, "from 0 on, not -1", self.store.get, self.object_id(), timeout=-1)
        self.refuses(ValueError, "from 0 on, not nan", self.store.put, b"a", timeout=float("nan"))
        self.refuses(TypeError, "a number of seconds or None, not str", self.store.get, self.object_id(), timeout="1")
        self.refuses(TypeError, "takes 2 positional arguments", Task.numbered(9).object, 1, 5)

    def test_how_one_connects(self) -> None:
        connect, path = store_client.connect, self.server.path
        self.refuses(TypeError, "a job is a whole number, not str", connect, path, "1", key(1))
        self.refuses(ValueError, "a job is 0 to 4294967295, not -1", connect, path, -1, key(1))
        self.refuses(ValueError, "a job is 0 to 4294967295, not 4294967296", connect, path, 2**32, key(1))
        self.refuses(ValueError, "a key has 32 bytes, not 2", connect, path, 1, b"ab")
        self.refuses(TypeError, "bytes.fromhex reads its 64 digits", connect, path, 1, key(1).hex())
        self.refuses(TypeError, "a socket is named by its path, not by int", connect, 5, 1, key(1))
        store_client.connect(Path(path), 1, key(1)).close()

    def test_ids(self) -> None:
        self.refuses(TypeError, "not str: ObjectId.parse", self.store.get, "t1.1")
        self.refuses(TypeError, "not bytes: ObjectId.from_bytes", self.store.get, self.object_id().to_bytes())
        self.refuses(TypeError, "an ObjectId was expected, not list", self.store.get, [self.object_id()])
        self.refuses(TypeError, "an ObjectId was expected, not str", self.store.put, b"a", "t1.1")
        self.refuses(TypeError, "a Task was expected, not int", self.store.end_task, 1)
        self.refuses(TypeError, "a Task was expected, not JobTask", self.store.end_task, self.store.task(1))
        self.refuses(TypeError, "a task has 20 bytes, not str", Task, "t1")

    def test_what_is_put(self) -> None:
        before = self.store.usage().copies
        self.refuses(TypeError, "not str: put_value stores any Python object", self.store.put, "hello")
        self.refuses(TypeError, "not dict: put_value", self.store.put, {"a": 1})
        self.refuses(TypeError, "has pointers", self.store.put, (ctypes.py_object * 2)())
        self.refuses(TypeError, "has pointers", self.store.put, (ctypes.c_void_p * 2)())
        self.assertEqual(self.store.usage().copies, before)

    def test_sizes_are_told_with_their_limit(self) -> None:
        self.refuses(store_client.BadSize, "create [0-9a-f]{56}, 0 bytes; an object has 1 to 16777216", self.store.put, b"")
        self.refuses(store_client.BadSize, "104857600 bytes; an object has 1 to 16777216", self.store.put, bytes(104_857_600))
        self.store.create(self.object_id(), 16)
        most = "65537 bytes from 0 on; a Write has at most 65536"
        self.refuses(store_client.BadSize, most, self.store.write, self.object_id(), 0, bytes(65_537))
        self.refuses(store_client.OutOfBounds, "2 bytes from 15 on", self.store.write, self.object_id(), 15, b"ab")
        self.store.delete(self.object_id())

    def test_a_refusal_knows_what_it_is_about(self) -> None:
        with self.assertRaises(Refused) as caught:
            self.store.seal(self.store.task(1).object(2))
        self.assertEqual((caught.exception.command, str(caught.exception.id), caught.exception.job), ("seal", "1/t1.2", 1))
        self.assertEqual(str(caught.exception), "4 Absent: There is no copy of it here. (seal t1.2)")
        with self.assertRaisesRegex(store_client.NotAdmitted, "hello, job 1"):
            store_client.connect(self.server.path, 1, key(2))

    def test_buffers_that_have_gaps_are_stored_in_order(self) -> None:
        view = memoryview(b"abcdef")[::2]
        with self.store.get(self.store.put(view)) as got:
            self.assertEqual(bytes(got), b"ace")

    @unittest.skipIf(numpy is None, "numpy isn't there")
    def test_arrays_of_numpy(self) -> None:
        table = numpy.arange(6, dtype=">i4").reshape(2, 3)
        for each in (table, numpy.asfortranarray(table), table[:, ::2], numpy.zeros(2, dtype=[("One", "i4"), ("P", "f8")])):
            with self.store.get(self.store.put(each)) as got:
                self.assertEqual(bytes(got), each.tobytes())
        with self.store.get(self.store.put(table)) as got:
            read = numpy.frombuffer(got, ">i4")
            self.assertEqual((read.tolist(), read.flags.writeable), ([0, 1, 2, 3, 4, 5], False))
        self.refuses(TypeError, "has pointers", self.store.put, numpy.array([{}, None], dtype=object))
        self.refuses(TypeError, "put_array", self.store.put, numpy.array(["2020-01-01"], dtype="datetime64[D]"))
        self.refuses(store_client.BadSize, "0 bytes", self.store.put, numpy.zeros(0))
        self.store.create(self.object_id(), numpy.int64(4))

    def test_what_is_put_can_be_changed_afterwards(self) -> None:
        """Also if the put failed: no view of it is left."""
        data = bytearray(b"abcd")
        self.store.put(data, self.object_id())
        with self.assertRaises(store_client.Exists):
            self.store.put(data, self.object_id())
        data += b"e"


class Holds(WithServer):
    def setUp(self) -> None:
        super().setUp()
        self.store.put(b"abcd", self.object_id())

    def copies(self) -> int:
        return self.store.usage().copies

    def test_a_hold_that_is_dropped_is_released_with_a_warning(self) -> None:
        before = self.copies()
        with self.assertWarnsRegex(ResourceWarning, "4 bytes, held> was dropped and not released"):
            self.assertEqual(len(self.store.get(self.object_id())), 4)
            gc.collect()
        self.store.delete(self.object_id())
        self.assertEqual(self.copies(), before - 1)

    def test_a_hold_that_is_dropped_during_a_call_is_released_by_the_next(self) -> None:
        before, held = self.copies(), [self.store.get(self.object_id())]
        exchange = self.store._stream.exchange

        def drop(requests: Any, end: Any) -> Any:
            held.clear()
            gc.collect()
            return exchange(requests, end)

        with mock.patch.object(self.store._stream, "exchange", drop), self.assertWarns(ResourceWarning):
            self.store.usage()
        self.store.delete(self.object_id())
        self.assertEqual(self.copies(), before - 1)

    def test_a_hold_that_is_dropped_while_another_thread_calls_is_released_by_the_next_call(self) -> None:
        before, held = self.copies(), [self.store.get(self.object_id())]
        with in_use(self.store), self.assertWarns(ResourceWarning):
            held.clear()
            gc.collect()
        self.store.delete(self.object_id())
        self.assertEqual(self.copies(), before - 1)

    def test_more_gets_than_holds(self) -> None:
        with warnings.catch_warnings():
            warnings.simplefilter("ignore")
            for _ in range(70):
                self.assertEqual(bytes(self.store.get(self.object_id())), b"abcd")

    def test_it_says_what_it_is(self) -> None:
        held = self.store.get(self.object_id())
        self.assertEqual(repr(held), f"<Held {self.object_id()}, 4 bytes, held>".replace("1/", ""))
        held.release()
        self.assertIn("not held", repr(held))

    @unittest.skipIf(numpy is None, "numpy isn't there")
    def test_numpy_reads_it_or_says_how(self) -> None:
        held = self.store.get(self.object_id())
        self.addCleanup(held.release)
        self.assertEqual(bytes(numpy.frombuffer(held.view, "u1")), b"abcd")
        if sys.version_info >= (3, 12):
            self.assertEqual(bytes(numpy.frombuffer(held, "u1")), b"abcd")
        else:
            with self.assertRaisesRegex(TypeError, "Held: take its .view"):
                numpy.frombuffer(held, "u1")

    @unittest.skipIf(sys.version_info < (3, 12), "no class can be a buffer before Python 3.12")
    def test_it_is_a_buffer(self) -> None:
        with self.assertWarns(ResourceWarning):
            held: Any = self.store.get(self.object_id())
            self.assertEqual(memoryview(held), b"abcd")
            del held
            gc.collect()

    def test_the_block_s_own_error_is_told(self) -> None:
        with self.assertRaises(KeyError):
            with self.store.get(self.object_id()):
                self.store.close()
                raise KeyError("own")
        with self.server.connect() as other, self.assertRaises(ConnectionLost):
            with other.get(self.object_id()):
                other.close()
