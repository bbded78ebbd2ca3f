"""Python objects and arrays: what comes back is what was put, in read-only views of one buffer, and parts are all there or none."""

from __future__ import annotations

import array
import collections
import importlib
import importlib.util
import itertools
import os
import pickle
import struct
import subprocess
import sys
import tempfile
import threading
import unittest
from typing import Any, List
from unittest import mock

from support import PATIENCE, ROOT, Server, ServerOfAll, key

import store_client
from store_client import Full, ObjectId, Pool, State, Task, encoding, putting
from store_client.encoding import Manifest, decode_array, decode_value, encode_array, encode_value
from store_client.frames import Command
from store_client.requests import Pieces
from store_client.stream import Stream

try:
    import numpy
except ImportError:
    numpy = None

# of the array that goes in and out whole, in bytes. 256 MiB take the built program some seconds
LARGE = int(os.environ.get("STORE_LARGE", "100_000"))
SMALL_WINDOW = 2**14


def whole(pieces: Pieces) -> memoryview:
    return memoryview(b"".join(pieces.views))


def arrays() -> List[Any]:
    """Of each sort of items that has no pointers, in each order, with gaps, and with none at all."""
    table = numpy.arange(24, dtype="<i4").reshape(4, 6)
    kinds = ["?", "u1", ">i2", "<u8", "f2", "f4", ">f8", "c16", "S3", "U2", "V5", "M8[D]", "m8[ns]", [("a", "<i4"), ("b", "S2", (2,))]]
    return [
        *(numpy.zeros((2, 3), dtype=kind) for kind in kinds),
        numpy.array(["2020-01-01", "NaT"], dtype="M8[D]"),
        numpy.array(["a", "äö"]),
        table,
        numpy.asfortranarray(table),
        table[:, ::2],
        table[::-1],
        table.T[1:3],
        numpy.broadcast_to(table[0], (3, 6)),
        numpy.array(3.5),
        numpy.zeros(0),
        numpy.zeros((0, 3), dtype="M8[s]"),
        numpy.zeros((2, 3), dtype="S0"),
    ]


class Layout(unittest.TestCase):
    """What is put, as it lies in an object. No server is needed."""

    def test_python_s_own_values(self) -> None:
        for value in (None, 1, "text", b"bytes", [1, {"a": (2, 3)}], array.array("q", range(9)), ObjectId(Task(bytes(20)), 1, 2)):
            self.assertEqual(decode_value(whole(encode_value(value)), "it"), value)

    def test_the_documented_bytes(self) -> None:
        """A buffer of 5 bytes lies at the next multiple of 64 after head and pickle."""
        pieces = encode_value(pickle.PickleBuffer(b"abcde"))
        laid = whole(pieces)
        magic, count, pickled, length = struct.unpack_from(">8sIQQ", laid)
        self.assertEqual((magic, count, length), (b"store\0v1", 1, 5))
        self.assertEqual(28 + pickled, 28 + len(pickle.dumps(pickle.PickleBuffer(b"abcde"), 5, buffer_callback=lambda _: None)))
        start = -(-(28 + pickled) // 64) * 64
        self.assertEqual((bytes(laid[start:]), laid[28 + pickled - 1 : 28 + pickled]), (b"abcde", b"."))

    def test_what_is_no_value(self) -> None:
        laid = bytes(whole(encode_value([1, pickle.PickleBuffer(b"abc")])))
        for wrong in (b"", b"abc", b"store\0v1", laid[:-1], laid + b"x", b"store\0v1" + b"\xff" * 12):
            with self.assertRaisesRegex(ValueError, "^t1.1 is "):
                decode_value(memoryview(wrong), "t1.1")

    def test_manifests(self) -> None:
        one = Task.numbered(1).object(1, job=1)
        ids = [Task.numbered(1).object(index, job=1) for index in (2, 3)]
        laid = memoryview(Manifest(30, 16, ids).encode())
        self.assertEqual(bytes(laid[:20]), b"store\0m1" + bytes.fromhex("000000000000001e" "00000010"))
        self.assertEqual(Manifest.decode(laid, one), Manifest(30, 16, ids))
        self.assertIsNone(Manifest.decode(memoryview(b"anything"), one))
        foreign = [Task.numbered(1).object(index, job=2) for index in (2, 3)]
        for wrong in (Manifest(30, 16, ids[:1]), Manifest(2**50, 16, ids), Manifest(30, 0, ids), Manifest(30, 16, foreign)):
            with self.assertRaises(ValueError):
                Manifest.decode(memoryview(wrong.encode()), one)

    def test_pieces_are_cut_where_they_should(self) -> None:
        data = bytes(range(100))
        for lengths in ([100], [1] * 100, [30, 0, 70], [33, 34, 33]):
            views, at = [], 0
            for length in lengths:
                views.append(memoryview(data)[at : at + length])
                at += length
            for size in (1, 7, 50, 99, 100, 200):
                cut = Pieces(views).cut(size)
                self.assertEqual([b"".join(piece.views) for piece in cut], [data[at : at + size] for at in range(0, 100, size)])


@unittest.skipIf(numpy is None, "numpy isn't there")
class Arrays(unittest.TestCase):
    def same(self, got: Any, put: Any) -> None:
        self.assertEqual((got.dtype, got.shape, type(got)), (put.dtype, put.shape, numpy.ndarray))
        self.assertEqual(got.tobytes(), put.tobytes())
        self.assertFalse(got.flags.writeable)

    def test_each_array_comes_back_as_a_value(self) -> None:
        for put in arrays():
            laid = whole(encode_value({"it": put}))
            got = decode_value(laid, "it")["it"]
            self.same(got, put)
            if put.nbytes:
                self.assertTrue(numpy.shares_memory(got, numpy.frombuffer(laid, "u1")), put)
                self.assertEqual(got.ctypes.data % 64, numpy.frombuffer(laid, "u1").ctypes.data % 64)

    def test_each_array_comes_back_without_a_pickle(self) -> None:
        for put in arrays():
            laid = whole(encode_array(put))
            self.same(decode_array(laid, "it"), put)

    def test_an_array_without_a_pickle_is_numpy_s_own_format(self) -> None:
        import io

        for put in arrays():
            if put.dtype.itemsize:
                self.assertEqual(numpy.load(io.BytesIO(whole(encode_array(put)))).tobytes(), put.tobytes())
        saved = io.BytesIO()
        numpy.save(saved, numpy.arange(5))
        self.same(decode_array(memoryview(saved.getvalue()), "it"), numpy.arange(5))

    def test_what_isn_t_copied(self) -> None:
        for put in (numpy.arange(1000), numpy.asfortranarray(numpy.zeros((20, 30)))):
            for encode in (encode_value, encode_array):
                buffers = [numpy.frombuffer(view, "u1") for view in encode(put).views]
                self.assertTrue(any(numpy.shares_memory(put, buffer) for buffer in buffers))

    def test_objects_are_pickled_or_refused(self) -> None:
        put = numpy.array([{"a": 1}, None], dtype=object)
        self.assertEqual(decode_value(whole(encode_value(put)), "it").tolist(), put.tolist())
        with self.assertRaisesRegex(TypeError, "has pointers"):
            encode_array(put)

    def test_a_mask_and_a_subclass_are_kept_or_refused(self) -> None:
        """An array of a class that is more than its items comes back as it was by `put_value`; `put_array` would lose the rest."""
        masked = numpy.ma.masked_array([1, 2, 3], mask=[0, 1, 0])
        table = numpy.zeros(3, dtype=[("a", "<i4")])
        for put in (masked, numpy.matrix([[1, 2]]), table.view(numpy.recarray)):
            with self.assertRaisesRegex(TypeError, f"{type(put).__name__} .* put_value"):
                encode_array(put)
            got = decode_value(whole(encode_value(put)), "it")
            self.assertIs(type(got), type(put))
            self.assertEqual(got.tolist(), put.tolist())
        self.assertEqual(int(decode_value(whole(encode_value(masked)), "it").sum()), 4)
        with tempfile.NamedTemporaryFile() as file:
            mapped = numpy.memmap(file.name, "<i4", "w+", shape=(3,))
            mapped[:] = [1, 2, 3]
            self.same(decode_array(whole(encode_array(mapped)), "it"), numpy.array([1, 2, 3], dtype="<i4"))

    def test_masks_of_the_rows_of_a_list_are_refused(self) -> None:
        """numpy makes a plain array of such a list, and the masks are lost."""
        row = numpy.ma.masked_array([1, 2, 3], mask=[0, 1, 0])
        for rows in ([row, row], ([row], [row]), [[1.0, numpy.ma.masked], [2.0, 3.0]], collections.deque([row])):
            with self.assertRaisesRegex(TypeError, "(MaskedArray|MaskedConstant) .* mask"):
                encode_array(rows)
        for plain in ([[1, 2], [3, 4]], [numpy.arange(3), numpy.arange(3)], (1.5, 2.5), "text", [b"ab", b"cd"]):
            self.same(decode_array(whole(encode_array(plain)), "it"), numpy.asarray(plain))

    def test_rows_of_a_class_of_their_own_are_refused(self) -> None:
        """numpy makes a plain array of such a list, and what the class has beside the items is lost."""
        row = numpy.matrix([[1, 2]])
        for rows in ([row, row], ([row],), [numpy.ones((1, 2)), row]):
            with self.assertRaisesRegex(TypeError, "matrix among the rows .* put_value"):
                encode_array(rows)
        (got,) = decode_value(whole(encode_value([row])), "it")
        self.assertIs(type(got), numpy.matrix)

    def test_types_of_items_that_the_format_can_t_say_are_refused(self) -> None:
        """By the same words, whatever numpy says of them; put_value keeps them."""
        for offsets in ([0, 2], [4, 0]):
            dtype = numpy.dtype({"names": ["a", "b"], "formats": ["<i4", "<i4"], "offsets": offsets, "itemsize": 8})
            with self.assertRaisesRegex(TypeError, "format .npy can't say that type. put_value stores it"):
                encode_array(numpy.zeros(2, dtype))
            self.assertEqual(decode_value(whole(encode_value(numpy.zeros(2, dtype))), "it").dtype, dtype)
        for dtype in (numpy.dtype([("a", "i1"), ("b", "<i8")], align=True), numpy.dtype((numpy.record, [("a", "<i4", 2)])),
                      numpy.dtype([(("title", "a"), "S0")]), numpy.dtype("M8[ns]"), numpy.dtype(">U3")):
            self.assertEqual(decode_array(whole(encode_array(numpy.zeros(2, dtype))), "it").dtype, dtype)

    def test_what_tells_where_its_bytes_are_is_stored_without_a_copy(self) -> None:
        """By each of numpy's ways, and by DLPack alone, as libraries of tensors have it."""
        for put in (numpy.arange(1000.0), numpy.asfortranarray(numpy.arange(600, dtype="i4").reshape(20, 30)), numpy.zeros(0)):
            for given in (Interface(put), Exporter(put)):
                pieces = encode_array(given)
                self.same(decode_array(whole(pieces), "it"), put)
                self.assertTrue(not put.nbytes or any(numpy.shares_memory(put, numpy.frombuffer(view, "u1")) for view in pieces.views))

    def test_what_dlpack_can_t_bring_is_told(self) -> None:
        for error in (BufferError("on another device"), RuntimeError("on another device"), ValueError("on another device")):
            with self.assertRaisesRegex(TypeError, "a Failing can't be read by numpy, .*: on another device"):
                encode_array(Failing(error))
        old = mock.Mock(spec=["asanyarray", "__version__"], __version__="1.19.5")
        with mock.patch.object(encoding, "_numpy", lambda: old), self.assertRaisesRegex(TypeError, "from 1.22 on, and this is 1.19.5"):
            encode_array(Exporter(numpy.arange(3)))

    def test_what_is_no_array(self) -> None:
        laid = bytes(whole(encode_array(numpy.arange(5))))
        pickled = laid.replace(b"'<i8'", b"'|O' ")
        for wrong, said in (
            (b"", "it isn't in numpy's format"), (b"abc", "it isn't in numpy's format"), (laid[:-1], "39 bytes follow, and .* have 40"),
            (laid[:20], ""), (laid + b"x", "41 bytes follow"), (pickled, "items are Python objects"),
        ):
            with self.assertRaisesRegex(ValueError, said):
                decode_array(memoryview(wrong), "it")


class Interface:
    """What tells where its bytes are as arrays of numpy do."""

    def __init__(self, array: Any) -> None:
        self.kept, self.__array_interface__ = array, array.__array_interface__


class Exporter:
    """What is an array by DLPack alone."""

    def __init__(self, array: Any) -> None:
        self._array = array

    def __dlpack__(self, **words: Any) -> Any:
        return self._array.__dlpack__(**words)

    def __dlpack_device__(self) -> Any:
        return self._array.__dlpack_device__()


class Failing:
    """What would be one, but isn't in memory."""

    def __init__(self, error: Exception) -> None:
        self._error = error

    def __dlpack__(self, **_: Any) -> Any:
        raise self._error

    def __dlpack_device__(self) -> Any:
        raise self._error


class Stored(ServerOfAll):
    @classmethod
    def setUpClass(cls) -> None:
        super().setUpClass()
        cls.server.admit(0, 4, SMALL_WINDOW, 2**20)
        cls.server.admit(0, 5, SMALL_WINDOW, SMALL_WINDOW)

    def test_values_come_back_and_go(self) -> None:
        store = self.connect()
        before = store.usage()
        id = store.put_value({"a": [1, 2]})
        self.assertEqual(store.get_value(id), {"a": [1, 2]})
        named = Task(os.urandom(20)).object(1, job=1)
        self.assertEqual(store.put_value("text", named), named)
        self.assertEqual(store.get_value(named, timeout=1.0), "text")
        self.assertEqual(store.get_value(named, expect=str), "text")
        with self.assertRaisesRegex(TypeError, "is a value of type str, and dict was expected"):
            store.get_value(named, expect=dict)
        with self.assertRaisesRegex(ValueError, "is no value"):
            store.get_value(store.put(b"abcd", Task.numbered(7).object(1, job=1)))
        store.delete(Task.numbered(7).object(1, job=1))
        store.delete_value(id)
        store.delete_value(named)
        self.assertEqual(store.usage(), before)

    @unittest.skipIf(importlib.util.find_spec("torch") is None or numpy is None, "torch isn't there")
    def test_tensors_of_torch(self) -> None:
        """Whole and in parts. One that isn't in memory, or that torch doesn't hand over, is refused in torch's own words."""
        torch, store = importlib.import_module("torch"), self.connect(4)
        for put in (torch.arange(1000.0), torch.arange(6000, dtype=torch.int32).reshape(20, 300).t(), torch.zeros(0), torch.arange(9)[::2]):
            array, value = store.put_array(put), store.put_value({"it": put})
            got = store.get_array(array)
            self.assertTrue(isinstance(got, numpy.ndarray) and torch.equal(torch.tensor(got), put))
            self.assertTrue(torch.equal(store.get_value(value)["it"], put))
            store.delete_value(array)
            store.delete_value(value)
        shared = torch.arange(1000.0)
        self.assertTrue(any(numpy.shares_memory(shared.numpy(), numpy.frombuffer(view, "u1")) for view in encode_array(shared).views))
        for wrong, said in (
            (torch.zeros(3, device="meta"), "Use Tensor.cpu"), (torch.zeros(3).to_sparse(), "Use Tensor.to_dense"),
            (torch.ones(3, requires_grad=True), "Use tensor.detach"),
        ):
            with self.assertRaisesRegex((TypeError, RuntimeError), said):
                store.put_array(wrong)

    def test_what_is_longer_than_an_object_goes_in_parts(self) -> None:
        data = os.urandom(3 * SMALL_WINDOW)
        for store in (self.connect(4), self.connect_pool(4)):
            for id in (None, Task(os.urandom(20)).object(1, job=4)):
                id = store.put_value(data, id)
                self.assertGreater(store.usage().copies, 3)
                self.assertEqual(store.get_value(id), data)
                self.assertEqual(store.get_value(id, timeout=PATIENCE), data)
                store.delete_value(id)
                self.assertEqual(store.usage().copies, 0)

    def test_several_parts_are_moved_at_once_over_several_connections(self) -> None:
        """The first two of a put, and of a get, wait for each other."""
        pool, meeting, drive = self.connect_pool(4), threading.Barrier(2), Pool._drive_one
        used: List[store_client.Connection] = []

        def meet(one: Pool, steps: Any, end: Any) -> Any:
            used.append(one.connection())
            if len(used) <= 2:
                meeting.wait(PATIENCE)
            return drive(one, steps, end)

        with mock.patch.object(Pool, "_drive_one", meet):
            id = pool.put_value(bytes(2 * SMALL_WINDOW))
            self.assertGreaterEqual(len(set(used)), 2)
            used.clear()
            self.assertEqual(pool.get_value(id), bytes(2 * SMALL_WINDOW))
            self.assertGreaterEqual(len(set(used)), 2)
        pool.delete_value(id)

    def test_parts_on_the_device_are_brought_back_one_after_another(self) -> None:
        """At once each would take the room that another has been brought back to, before that was read."""
        pool, exchange = self.connect_pool(4), Stream.exchange
        asked: List[ObjectId] = []
        id = pool.put_value(bytes(3 * SMALL_WINDOW))
        away = [item.id for item in pool.list()[0] if item.state is State.AWAY]
        self.assertGreater(len(away), 3)

        def noted(stream: Stream, requests: Any, end: Any) -> Any:
            asked.extend(request.id for request in requests if request.command is Command.GET and request.id in away)
            return exchange(stream, requests, end)

        with mock.patch.object(Stream, "exchange", noted):
            self.assertEqual(pool.get_value(id), bytes(3 * SMALL_WINDOW))
        self.assertEqual(sorted(part for part, _ in itertools.groupby(asked)), sorted(away))
        pool.delete_value(id)

    def test_the_parts_end_with_their_task(self) -> None:
        store = self.connect(4)
        task = Task(os.urandom(20))
        store.put_value(bytes(2 * SMALL_WINDOW), task.object(1, job=4))
        store.end_task(task)
        self.assertEqual(store.usage().copies, 0)

    def test_if_one_part_finds_no_room_all_is_given_back(self) -> None:
        """Job 5 has window and device for it, but something else is there."""
        for store in (self.connect(5), self.connect_pool(5)):
            other = store.put(bytes(SMALL_WINDOW // 2))
            for id in (None, Task(os.urandom(20)).object(1, job=5)):
                with self.assertRaises(Full):
                    store.put_value(bytes(7 * SMALL_WINDOW // 4), id)
                self.assertEqual(store.usage().copies, 1)
            store.delete(other)

    def test_what_the_quotas_can_t_take_is_told_before_anything_is_put(self) -> None:
        store = self.connect(5)
        most = r"328\d\d bytes; window and device quota have 32768 in all"
        with mock.patch.object(putting.NewCopy, "create", side_effect=putting.NewCopy.create, autospec=True) as create:
            with self.assertRaisesRegex(Full, most):
                store.put_value(bytes(2 * SMALL_WINDOW), Task(os.urandom(20)).object(1, job=5))
        # the try as one object alone
        self.assertEqual(create.call_count, 1)

    def test_an_id_that_is_taken_is_told_before_parts_are_put(self) -> None:
        store = self.connect(4)
        id = store.put(b"abcd")
        with self.assertRaises(store_client.Exists):
            store.put_value(bytes(2 * SMALL_WINDOW), id)
        self.assertEqual(store.usage().copies, 1)
        store.delete(id)

    def test_more_than_all_copies_of_a_job(self) -> None:
        with self.assertRaisesRegex(store_client.BadSize, "1023 parts of 1024"):
            self.connect(4).put_value(bytes(1024 * 1024))

    @unittest.skipIf(numpy is None, "numpy isn't there")
    def test_an_array_goes_from_job_to_job(self) -> None:
        grantor, grantee = self.connect(), self.connect(2)
        put = numpy.arange(20_000, dtype="f4").reshape(100, 200)
        id = grantor.put_array(put)
        grantor.grant_value(id, 2)
        self.assertTrue(numpy.array_equal(grantee.get_array(id), put))
        with self.assertRaises(store_client.Granted):
            grantor.delete_value(id)
        grantor.withdraw_value(id, 2)
        grantor.delete_value(id)

    @unittest.skipIf(numpy is None, "numpy isn't there")
    def test_an_array_in_parts_goes_from_job_to_job(self) -> None:
        """All parts are granted, or none: one that was spilled can't be."""
        grantor, grantee = self.connect(5), self.connect(2)
        put = numpy.arange(SMALL_WINDOW // 8 - 100)
        id = Task(os.urandom(20)).object(1, job=5)
        manifest = Manifest(len(whole(encode_array(put))), 4096, [id.task.object(index, job=5) for index in range(2, 6)])
        for part, piece in zip(manifest.ids, encode_array(put).cut(4096)):
            grantor.put(whole(piece), part)
        grantor.put(manifest.encode(), id)
        grantor.grant_value(id, 2)
        self.assertTrue(numpy.array_equal(grantee.get_array(id), put))
        grantor.withdraw_value(id, 2)
        self.assertEqual(grantee.list()[1], [])
        grantor.delete(manifest.ids[3])
        with self.assertRaises(store_client.Absent):
            grantor.grant_value(id, 2)
        self.assertEqual(grantee.list()[1], [])
        with self.assertRaises(store_client.Absent):
            grantor.get_array(id)
        grantor.end_task(id.task)

    @unittest.skipIf(numpy is None, "numpy isn't there")
    def test_a_large_array_goes_in_and_out(self) -> None:
        """Of as many bytes as STORE_LARGE says, at a server of its own; what its window can't take is spilled."""
        window = min(2**28, max(2**25, 2 * LARGE))
        server = Server(memory=2**26 + window)
        self.addCleanup(server.close)
        server.admit(0, 9, window, 2 * LARGE if window < 2 * LARGE else 0)
        with Pool(server.path, 9, key(9)) as pool:
            put = numpy.random.default_rng(1).integers(0, 256, LARGE, dtype="u1")
            id = pool.put_array(put)
            self.assertTrue(numpy.array_equal(pool.get_array(id), put))
            pool.delete_value(id)
            id = pool.put_value({"it": put})
            self.assertTrue(numpy.array_equal(pool.get_value(id)["it"], put))
            pool.delete_value(id)
            self.assertEqual(pool.usage().copies, 0)


class WithoutNumpy(unittest.TestCase):
    def test_the_package_does_without(self) -> None:
        words = "import sys; sys.modules['numpy'] = None; import store_client.aio, store_client.encoding as e\n"
        words += "assert e.decode_value(memoryview(b''.join(e.encode_value([1]).views)), 'it') == [1]\n"
        words += "try: e.encode_array([1])\nexcept ImportError as error: print(error)"
        place = {**os.environ, "PYTHONPATH": str(ROOT / "clients/python/src")}
        done = subprocess.run([sys.executable, "-c", words], env=place, capture_output=True, text=True, check=True, timeout=PATIENCE)
        self.assertIn("need numpy", done.stdout)
