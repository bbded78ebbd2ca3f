"""What others grant may be made to harm who gets it: memory is taken for what is there alone, and nothing is run."""

from __future__ import annotations

import os
import pickle
import struct
import unittest
from typing import Any, Callable, List, Tuple, Type
from unittest import mock

from support import ServerOfAll

import store_client
from store_client import ObjectId, Task, parts, putting
from store_client.encoding import Manifest, decode_array, encode_value

try:
    import numpy
except ImportError:
    numpy = None

PART = 4096


class OfOthers(ServerOfAll):
    """Job 2 has a window of its own, and job 1 gets what it grants."""

    @classmethod
    def setUpClass(cls) -> None:
        super().setUpClass()
        cls.server.admit(0, 6, 2**20)

    def setUp(self) -> None:
        self.other, self.store = self.server.connect(6), self.server.connect(1)
        self.task = Task(os.urandom(20))
        self.taken: List[int] = []
        for module in (parts, putting):
            patch = mock.patch.object(module, "blank", self.noted(module.blank))
            patch.start()
            self.addCleanup(patch.stop)
        for end in (self.store.close, self.other.close, lambda: self.other.end_task(self.task)):
            self.addCleanup(end)

    def noted(self, blank: Callable[[int], memoryview]) -> Callable[[int], memoryview]:
        def take(length: int) -> memoryview:
            self.taken.append(length)
            return blank(length)

        return take

    def granted(self, index: int, data: bytes) -> ObjectId:
        id = self.task.object(index, job=6)
        self.other.put(data, id)
        self.other.grant(id, 1)
        return id

    def refuses(self, error: Type[Exception], told: str, manifest: Manifest) -> None:
        """Neither call takes more memory than the manifest has itself."""
        laid = manifest.encode()
        whole = self.granted(99, laid)
        calls: Tuple[Callable[[ObjectId], object], ...] = (self.store.get_array, lambda id: self.store.get_value(id, trust=True))
        for call in calls:
            self.taken.clear()
            with self.assertRaisesRegex(error, told):
                call(whole)
            self.assertLessEqual(sum(self.taken), len(laid))

    def test_a_manifest_that_names_a_part_many_times(self) -> None:
        one = self.granted(1, bytes(PART))
        self.refuses(ValueError, "a part stands in it twice", Manifest(100 * PART, PART, [one] * 100))

    def test_a_manifest_that_names_itself(self) -> None:
        one = self.task.object(99, job=6)
        self.refuses(ValueError, "a part stands in it twice", Manifest(48, 48, [one]))

    def test_a_manifest_of_more_parts_than_a_job_has_copies(self) -> None:
        ids = [self.task.object(index, job=6) for index in range(100, 1124)]
        self.refuses(ValueError, "more than 1023 parts", Manifest(1024 * PART, PART, ids))

    def test_parts_that_are_shorter_than_the_manifest_says(self) -> None:
        ids = [self.granted(index, bytes(16)) for index in range(1, 4)]
        self.refuses(ValueError, "a part has another length than it says", Manifest(3 << 24, 1 << 24, ids))

    def test_parts_that_aren_t_granted(self) -> None:
        ids = [self.granted(1, bytes(PART)), self.task.object(2, job=6)]
        self.refuses(store_client.NotGranted, "peek 6/[0-9a-f]+|peek [0-9a-f]+", Manifest(2 * PART, PART, ids))

    @unittest.skipIf(numpy is None, "numpy isn't there")
    def test_a_whole_that_is_longer_than_the_caller_likes(self) -> None:
        put = numpy.arange(3 * PART // 8)
        laid = self.laid(put)
        ids = [self.granted(index, laid[at : at + PART]) for index, at in enumerate(range(0, len(laid), PART), 1)]
        whole = self.granted(99, Manifest(len(laid), PART, ids).encode())
        self.assertTrue(numpy.array_equal(self.store.get_array(whole, limit=len(laid)), put))
        for id, length in ((whole, len(laid)), (self.granted(50, bytes(PART)), PART)):
            self.taken.clear()
            with self.assertRaisesRegex(store_client.TooLong, f"{length} bytes, and the limit is {length - 1}"):
                self.store.get_array(id, limit=length - 1)
            self.assertLess(sum(self.taken), PART)
        own = self.store.put(bytes(PART))
        with self.assertRaises(store_client.TooLong):
            self.store.get_value(own, limit=16)
        # and it isn't held
        self.store.delete(own)
        self.assertFalse(self.store.contains(own))

    def laid(self, array: Any) -> bytes:
        from store_client.encoding import encode_array

        return b"".join(encode_array(array).views)

    def test_a_pickle_of_another_job_wants_trust(self) -> None:
        ran: List[str] = []
        with mock.patch.object(pickle, "loads", lambda *_, **__: ran.append("code of another job")):
            id = self.granted(1, b"".join(encode_value({"a": 1}).views))
            with self.assertRaisesRegex(ValueError, "trust=True"):
                self.store.get_value(id)
            self.assertEqual(ran, [])
        self.assertEqual(self.store.get_value(id, trust=True), {"a": 1})


@unittest.skipIf(numpy is None, "numpy isn't there")
class Headers(unittest.TestCase):
    """Of an array's header, whatever it says, nothing is run, and no other error comes of it."""

    def refuses(self, header: bytes, items: bytes = b"") -> None:
        for version, length in ((1, struct.pack("<H", min(len(header), 65535))), (2, struct.pack("<I", len(header)))):
            laid = b"\x93NUMPY" + bytes([version, 0]) + length + header + items
            with self.assertRaises(ValueError, msg=header[:60]):
                decode_array(memoryview(laid), "it")

    def test_expressions(self) -> None:
        nested = (b"[" * 5000, b"(" * 150 + b")" * 150, b"{" * 90)
        for header in (b"+" * 9000, b"-" * 60_000 + b"1", *nested, b"1" * 9000, b"\0", b"\xff", b""):
            self.refuses(header)

    def test_fields(self) -> None:
        for shape in (b"(-1, -5)", b"(-5,)", b"(5, 2**70)", b"(%d, 0)" % 2**70, b"(5.0,)", b"5", b"[5]", b"None", b"('5',)", b"(True,)"):
            self.refuses(b"{'descr': '|u1', 'fortran_order': False, 'shape': " + shape + b"}\n", b"12345")
        for descr in (b"'|O'", b"5", b"[('a',)]", b"[('a', '|O')]", b"'S99999999999999'", b"[[[[[[[[]]]]]]]]", b"{}"):
            self.refuses(b"{'descr': " + descr + b", 'fortran_order': False, 'shape': (1,)}\n", b"12345678")
        self.refuses(b"{'descr': '|u1', 'fortran_order': 7, 'shape': (5,)}\n", b"12345")
        self.refuses(b"{'descr': '|u1', 'shape': (5,)}\n", b"12345")


if __name__ == "__main__":
    unittest.main()
