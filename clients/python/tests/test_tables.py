"""Tables of Arrow: what comes back is the table that was put, in read-only views of what was read, and what another job granted does no
harm."""

from __future__ import annotations

import asyncio
import os
import subprocess
import sys
import unittest
from typing import Any, List
from unittest import mock

from support import PATIENCE, ROOT, ServerOfAll, key

import store_client
from store_client import Task, aio, tables
from store_client.requests import Pieces
from store_client.tables import decode_table, encode_table

try:
    import pyarrow
    import pyarrow.ipc
except ImportError:
    pyarrow = None

SMALL_WINDOW = 2**14


def whole(pieces: Pieces) -> memoryview:
    return memoryview(b"".join(pieces.views))


def written(table: Any, **options: Any) -> memoryview:
    """The table as pyarrow itself writes it, with these options."""
    sink = pyarrow.BufferOutputStream()
    with pyarrow.ipc.new_stream(sink, table.schema, options=pyarrow.ipc.IpcWriteOptions(**options)) as stream:
        stream.write_table(table)
    return memoryview(sink.getvalue())


def buffers(table: Any) -> List[Any]:
    """The bytes of all columns."""
    found = [buffer for column in table.columns for chunk in column.chunks for buffer in chunk.buffers()]
    return [buffer for buffer in found if buffer is not None and buffer.size]


def place(view: memoryview) -> range:
    """Where its bytes are in memory."""
    start = pyarrow.py_buffer(view).address
    return range(start, start + len(view))


def examples() -> List[Any]:
    """Of columns of each sort, with gaps, in several batches, of no rows and of no columns."""
    words = pyarrow.array(["a", None, "äö", ""] * 6)
    numbers = pyarrow.array(range(24), "int32")
    columns = {
        "numbers": numbers, "words": words, "truth": pyarrow.array([True, False, None] * 8), "floats": numbers.cast("float64"),
        "lists": pyarrow.array([[1, 2], None, []] * 8), "structs": pyarrow.array([{"a": 1, "b": "x"}, None] * 12),
        "kinds": words.dictionary_encode(), "days": pyarrow.array(range(24), "date32"), "none": pyarrow.nulls(24),
        "large": pyarrow.array(["x" * 100] * 24, "large_string"), "bytes": pyarrow.array([b"\0\xff"] * 24),
    }
    table = pyarrow.table(columns)
    return [
        table, table.slice(5, 7), table.slice(0, 0), pyarrow.table({}), pyarrow.concat_tables([table, table.slice(3)]),
        table.replace_schema_metadata({"who": "we"}), pyarrow.table({"one": pyarrow.chunked_array([["a"], ["b", "c"]]).dictionary_encode()}),
    ]


class Exporter:
    """What is a table by Arrow's own interface alone, as those of other libraries are."""

    def __init__(self, table: Any) -> None:
        self._table = table

    def __arrow_c_stream__(self, schema: Any = None) -> Any:
        return self._table.__arrow_c_stream__(schema)


@unittest.skipIf(pyarrow is None, "pyarrow isn't there")
class Layout(unittest.TestCase):
    """What is put, as it lies in an object. No server is needed."""

    def test_each_table_comes_back(self) -> None:
        for put in examples():
            got = decode_table(whole(encode_table(put)), "it")
            self.assertTrue(got.equals(put, check_metadata=True), put.schema)
            self.assertFalse(any(buffer.is_mutable for buffer in buffers(got)))

    def test_a_table_is_a_stream_of_arrow_s_own(self) -> None:
        for put in examples():
            laid = whole(encode_table(put))
            self.assertTrue(pyarrow.ipc.open_stream(laid).read_all().equals(put))
            self.assertTrue(decode_table(written(put), "it").equals(put))

    def test_what_isn_t_copied(self) -> None:
        put = examples()[0]
        before = pyarrow.total_allocated_bytes()
        pieces = encode_table(put)
        views = [place(view) for view in pieces.views]
        for buffer in buffers(put):
            self.assertTrue(any(buffer.address in view for view in views), buffer)
        laid = whole(pieces)
        got = decode_table(laid, "it")
        for buffer in buffers(got):
            self.assertIn(buffer.address, place(laid))
        self.assertEqual(pyarrow.total_allocated_bytes(), before)

    def test_what_hands_a_table_over_is_stored(self) -> None:
        put = pyarrow.table({"a": [1, 2], "b": ["x", None]})
        for given in (Exporter(put), put.to_batches()[0]):
            self.assertTrue(decode_table(whole(encode_table(given)), "it").equals(put))
        for wrong in ({"a": [1]}, [1], b"bytes", None):
            with self.assertRaisesRegex(TypeError, f"a {type(wrong).__name__} is no table of Arrow"):
                encode_table(wrong)

    def test_what_is_no_table(self) -> None:
        put = examples()[0]
        laid = bytes(whole(encode_table(put)))
        for wrong in (b"", b"abc", b"ARROW1\0\0", bytes(100)):
            with self.assertRaisesRegex(ValueError, "^t1.1 is no table"):
                decode_table(memoryview(wrong), "t1.1")
        for wrong in (laid[:20], laid[: len(laid) // 2], b"\xff" * 100, laid[:8] + bytes(len(laid) - 8)):
            with self.assertRaisesRegex(ValueError, "^t1.1 is a table that can't be right"):
                decode_table(memoryview(wrong), "t1.1")

    def test_columns_that_can_t_be_right(self) -> None:
        """Offsets that lead out of the bytes would be read by whoever looks at the column."""
        laid = bytearray(whole(encode_table(pyarrow.table({"words": pyarrow.array(["abc", "def"])}))))
        at = laid.index(bytes((0, 0, 0, 0, 3, 0, 0, 0, 6, 0, 0, 0)))
        laid[at + 8 : at + 12] = bytes((0, 0, 0, 64))
        with self.assertRaisesRegex(ValueError, "^it is a table that can't be right"):
            decode_table(memoryview(laid), "it")

    def test_what_would_take_more_memory_than_is_there(self) -> None:
        """Columns that are compressed say themselves how long they are, and a dictionary that grows is put together for each batch."""
        zeros = pyarrow.table({"zeros": pyarrow.array([0] * 100_000)})
        for codec in ("lz4", "zstd"):
            if pyarrow.Codec.is_available(codec):
                before = pyarrow.total_allocated_bytes()
                laid = written(zeros, compression=codec)
                with mock.patch.object(pyarrow.ipc, "open_stream", side_effect=AssertionError), self.assertRaisesRegex(ValueError, "compressed"):
                    decode_table(laid, "it")
                self.assertLess(pyarrow.total_allocated_bytes() - before, 100_000)
        growing = pyarrow.table({"kinds": pyarrow.chunked_array([dictionary(["a"], [0]), dictionary(["a", "b"], [1])])})
        with self.assertRaisesRegex(ValueError, "grows from batch to batch"):
            decode_table(written(growing, emit_dictionary_deltas=True), "it")
        with self.assertRaisesRegex(ValueError, "compressed"):
            decode_table(written(growing.slice(0, 1), compression="lz4"), "it")


def dictionary(words: List[str], places: List[int]) -> Any:
    return pyarrow.DictionaryArray.from_arrays(pyarrow.array(places, "int8"), pyarrow.array(words))


@unittest.skipIf(pyarrow is None, "pyarrow isn't there")
class Stored(ServerOfAll):
    @classmethod
    def setUpClass(cls) -> None:
        super().setUpClass()
        cls.server.admit(0, 4, SMALL_WINDOW, 2**20)

    def test_tables_come_back_and_go(self) -> None:
        for store in (self.connect(), self.connect_pool()):
            before = store.usage()
            for put in examples():
                id = store.put_table(put)
                self.assertTrue(store.get_table(id, timeout=PATIENCE).equals(put, check_metadata=True))
                store.delete_value(id)
            named = Task(os.urandom(20)).object(1, job=1)
            self.assertEqual(store.put_table(examples()[0], named), named)
            self.assertRaisesRegex(ValueError, "is no array", store.get_array, named)
            store.delete_value(named)
            id = store.put_value([1])
            self.assertRaisesRegex(ValueError, "is no table", store.get_table, id)
            store.delete(id)
            self.assertEqual(store.usage(), before)

    def test_what_was_read_isn_t_copied_again(self) -> None:
        store = self.connect()
        put = pyarrow.table({"numbers": pyarrow.array(range(200_000), "int64"), "words": pyarrow.array(["word"] * 200_000)})
        id = store.put_table(put)
        before = pyarrow.total_allocated_bytes()
        got = store.get_table(id)
        self.assertEqual(pyarrow.total_allocated_bytes(), before)
        self.assertTrue(got.equals(put))
        store.delete_value(id)

    def test_a_table_in_parts(self) -> None:
        store = self.connect(4)
        put = pyarrow.table({"numbers": pyarrow.array(range(SMALL_WINDOW // 2), "int64")})
        id = store.put_table(put)
        self.assertGreater(store.usage().copies, 3)
        self.assertTrue(store.get_table(id, timeout=PATIENCE).equals(put))
        with self.assertRaises(store_client.TooLong):
            store.get_table(id, limit=SMALL_WINDOW)
        store.delete_value(id)
        self.assertEqual(store.usage().copies, 0)

    def test_a_table_goes_from_job_to_job(self) -> None:
        """Without trust, since nothing of it is run."""
        grantor, grantee = self.connect(), self.connect(2)
        put = examples()[0]
        id = grantor.put_table(put)
        grantor.grant_value(id, 2)
        with mock.patch("pickle.loads", side_effect=AssertionError):
            self.assertTrue(grantee.get_table(id).equals(put))
        grantor.withdraw_value(id, 2)
        grantor.delete_value(id)

    def test_coroutines(self) -> None:
        put = examples()[0]

        async def put_and_get() -> Any:
            async with await aio.connect(self.server.path, 1, key(1)) as store:
                id = await store.put_table(put)
                got = await store.get_table(id, timeout=PATIENCE)
                await store.delete_value(id)
                return got

        self.assertTrue(asyncio.run(put_and_get()).equals(put))


class WithoutIt(unittest.TestCase):
    def test_the_package_does_without(self) -> None:
        words = "import sys; sys.modules['pyarrow'] = None; import store_client.aio, store_client.tables as t\n"
        words += "try: t.encode_table([1])\nexcept ImportError as error: print(error)\n"
        words += "try: t.decode_table(memoryview(b'\\xff' * 8), 'it')\nexcept ImportError as error: print(error)"
        place = {**os.environ, "PYTHONPATH": str(ROOT / "clients/python/src")}
        done = subprocess.run([sys.executable, "-c", words], env=place, capture_output=True, text=True, check=True, timeout=PATIENCE)
        self.assertEqual(done.stdout.count("need pyarrow, as store-client[arrow] installs it"), 2, done.stdout)

    def test_one_that_may_run_what_a_stream_says_is_not_used(self) -> None:
        old = mock.Mock(__version__="14.0.0")
        with mock.patch.dict(sys.modules, {"pyarrow": old, "pyarrow.ipc": old.ipc}), self.assertRaisesRegex(ImportError, "this is 14.0.0"):
            tables.encode_table(None)
        for version in ("14.0.1", "15.0.0.dev1", "25.0.0"):
            new = mock.Mock(__version__=version, Table=int)
            with mock.patch.dict(sys.modules, {"pyarrow": new, "pyarrow.ipc": new.ipc}), self.assertRaises(TypeError):
                # it comes as far as the mock goes
                tables.encode_table("no table")


if __name__ == "__main__":
    unittest.main()
