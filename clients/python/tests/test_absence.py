"""A store that is away: it is waited for up to a bound, at a real server that is killed and started again."""

from __future__ import annotations

import concurrent.futures
import threading
import time
import unittest
from typing import List, NoReturn
from unittest import mock

from support import PATIENCE, Server, key

from store_client import Absent, ConnectionLost, Pool, ServerSilent, StoreError
from store_client.absence import Absence
from store_client.steps import Deadline


class Waiting(unittest.TestCase):
    def setUp(self) -> None:
        self.server = Server()
        self.addCleanup(self.server.close)
        self.pool = Pool(self.server.path, 1, key(1))
        self.addCleanup(self.pool.close)
        self.tries = 0
        self.tried_twice = threading.Event()

    def put(self) -> bytes:
        """What is tried again and again."""
        self.tries += 1
        if self.tries > 1:
            self.tried_twice.set()
        return bytes(self.pool.get(self.pool.put(b"Hello")).view)

    def test_one_that_comes_back(self) -> None:
        self.server.kill()
        with concurrent.futures.ThreadPoolExecutor(1) as threads, self.assertWarns(ResourceWarning):
            absence = Absence(4 * PATIENCE, Deadline(None))
            put = threads.submit(lambda: absence.outlast(self.put))
            self.assertTrue(self.tried_twice.wait(PATIENCE))
            self.server.start_again(None)
            self.assertEqual(put.result(PATIENCE), b"Hello")

    def test_one_that_doesn_t_come_back(self) -> None:
        self.server.kill()
        for patience, timeout in ((0.5, None), (PATIENCE, 0.5)):
            self.tries, began = 0, time.monotonic()
            self.assertRaises(ConnectionLost, Absence(patience, Deadline(timeout)).outlast, self.put)
            self.assertGreaterEqual(time.monotonic() - began, 0.5)
            self.assertGreater(self.tries, 1)
        self.server.start_again(None)

    def test_a_call_waits_once(self) -> None:
        """The time begins when the store is missed first, and what comes after it is over is tried once."""
        self.server.kill()
        waits = Absence(0.3, Deadline(None))
        self.assertRaises(ConnectionLost, waits.outlast, self.put)
        self.tries = 0
        self.assertRaises(ConnectionLost, waits.outlast, self.put)
        self.assertEqual(self.tries, 1)
        # once it was there again the next absence is another one
        self.server.start_again(None)
        with self.assertWarns(ResourceWarning):
            self.assertEqual(waits.outlast(self.put), b"Hello")
        self.server.kill()
        self.pool.connection().close()
        self.tries = 0
        self.assertRaises(ConnectionLost, waits.outlast, self.put)
        self.assertGreater(self.tries, 1)
        self.server.start_again(None)

    def test_what_isn_t_waited_for(self) -> None:
        for error in (ServerSilent("silent"), Absent("get")):
            raised: List[StoreError] = []

            def fail(error: StoreError = error, raised: List[StoreError] = raised) -> NoReturn:
                raised.append(error)
                raise error

            with mock.patch.object(time, "sleep", side_effect=AssertionError("it waits")):
                self.assertRaises(type(error), Absence(PATIENCE, Deadline(None)).outlast, fail)
            self.assertEqual(raised, [error])


if __name__ == "__main__":
    unittest.main()
