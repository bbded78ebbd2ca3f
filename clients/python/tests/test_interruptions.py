"""What comes in between: forks, Ctrl-C, a server that doesn't answer. Nothing is left by it, and nothing hangs."""

from __future__ import annotations

import os
import pickle
import signal
import socket
import tempfile
import threading
import time
import unittest
from typing import Any, Callable, List, Optional, Sequence, Tuple
from unittest import mock

from support import PATIENCE, Script, WithServer, device_at_rest, in_child, in_use, key, own_grace

import store_client
from store_client import Connection, ConnectionLost, ServerSilent, Task, connection
from store_client.requests import Answer, Request

OK = bytes.fromhex("0000000180")
# what a stream sends at once, and how
Requests = Sequence[Request[Any]]
Exchange = Callable[[Requests, Optional[float]], List[Answer]]


class Forks(WithServer):
    def test_a_connection_is_its_own_process_s(self) -> None:
        self.store.put(b"abcd", self.object_id())
        self.store.hold(self.object_id())
        parent = f"ConnectionLost: the connection was opened in process {os.getpid()}, and this is process "
        one = self.object_id()
        for call in (self.store.usage, self.store.new_id, lambda: self.store.get(one), lambda: self.store.read(one, 0, 4)):
            self.assertEqual(in_child(call)[: len(parent)], parent)
        self.assertEqual(in_child(self.store.close), "None")
        self.assertEqual(self.store.read(self.object_id(), 0, 4), b"abcd")

    def test_a_connection_that_another_thread_uses_is_no_trap(self) -> None:
        """The child has no such thread, and its lock."""
        with in_use(self.store):
            self.assertIn("was opened in process", in_child(self.store.usage))

    def test_a_session_ends_with_its_own_process(self) -> None:
        """A child doesn't keep it, and its holds, open."""
        before = self.store.usage().copies
        self.store.put(b"abcd", self.object_id())
        other = self.server.connect()
        other.hold(self.object_id())
        reading, writing = os.pipe()
        child = os.fork()
        if not child:
            os.close(writing)
            os.read(reading, 1)
            os._exit(0)
        other.close()
        self.store.delete(self.object_id())
        end = time.monotonic() + PATIENCE
        while self.store.usage().copies > before and time.monotonic() < end:
            time.sleep(0.01)
        left = self.store.usage().copies
        os.close(writing)
        os.waitpid(child, 0)
        os.close(reading)
        self.assertEqual(left, before)

    def test_ids_differ(self) -> None:
        def make() -> List[str]:
            with self.server.connect() as store:
                return [str(store.new_id()) for _ in range(3)]

        ids = make() + make() + in_child(lambda: " ".join(make())).split() + [str(self.store.new_id())]
        self.assertEqual(len(set(ids)), 10)

    def test_neither_a_connection_nor_a_hold_is_pickled(self) -> None:
        self.store.put(b"abcd", self.object_id())
        with self.assertRaisesRegex(TypeError, "each process opens its own"):
            pickle.dumps(self.store)
        held = self.store.get(self.object_id())
        with self.assertRaisesRegex(TypeError, "pass its id"):
            pickle.dumps(held)
        held.release()


class Interruptions(WithServer):
    def interrupt(self, seconds: float) -> None:
        """This process, as Ctrl-C does."""
        timer = threading.Timer(seconds, os.kill, (os.getpid(), signal.SIGINT))
        timer.start()
        self.addCleanup(timer.cancel)

    def test_a_put_that_waits_for_room_leaves_nothing(self) -> None:
        with self.server.connect(3) as store:
            task = self.task
            for index in range(1, 10):
                store.put(bytes(16), task.object(index, job=3))
            with device_at_rest(self.server):
                with self.assertRaises((store_client.Pending, store_client.Busy)):
                    store.put(bytes(144), task.object(10, job=3), timeout=0.05)
                self.assertEqual(len(store.list()[0]), 9)
                self.interrupt(0.2)
                with self.assertRaises(KeyboardInterrupt):
                    store.put(bytes(144))
        with self.server.connect(3) as other:
            self.assertEqual(len(other.list()[0]), 9)

    def test_a_put_that_is_cut_off_in_the_middle_is_deleted(self) -> None:
        """Ctrl-C comes while an answer is due: the connection is lost by it, and another one deletes the object."""
        before = self.store.usage().copies
        for id in (None, self.object_id()):
            store = self.server.connect()
            exchange, calls = store._stream.exchange, [0]

            def cut(requests: Requests, end: Optional[float], exchange: Exchange = exchange, calls: List[int] = calls) -> List[Answer]:
                calls[0] += 1
                if calls[0] == 2:
                    exchange(requests[:3], end)
                    raise KeyboardInterrupt
                return exchange(requests, end)

            with mock.patch.object(store._stream, "exchange", cut), self.assertRaises(KeyboardInterrupt):
                store.put(bytes(2_000_000 if id is None else 200_000), id)
            self.assertEqual(self.store.usage().copies, before)
            with self.assertRaisesRegex(ConnectionLost, "a call was cut short"):
                store.usage()

    def test_an_object_of_another_is_left_alone(self) -> None:
        """A put that is cut off before it is known whose copy it is deletes nothing."""
        self.store.put(b"abcd", self.object_id())
        store = self.server.connect()

        with mock.patch.object(store._stream, "exchange", side_effect=KeyboardInterrupt), self.assertRaises(KeyboardInterrupt):
            store.put(b"other", self.object_id())
        self.assertTrue(self.store.contains(self.object_id()))
        self.store.delete(self.object_id())

    def test_a_call_in_the_middle_of_another_one_is_told(self) -> None:
        """As a signal's handler may make one: it can't be sent between a command and its answer, nor wait for itself."""
        exchange = self.store._stream.exchange
        told: List[str] = []

        def interrupted(requests: Requests, end: Optional[float]) -> List[Answer]:
            try:
                self.store.usage()
            except store_client.StoreError as error:
                told.append(str(error))
            return exchange(requests, end)

        with mock.patch.object(self.store._stream, "exchange", interrupted):
            self.store.put(b"abcd", self.object_id())
        self.assertEqual(set(told), {"a call was made in the middle of another one of the same thread, as by the handler of a signal"})
        self.assertTrue(self.store.contains(self.object_id()))

    def test_a_wait_that_is_interrupted_holds_nothing(self) -> None:
        self.store.put(b"abcd", self.object_id(1))
        self.interrupt(0.3)
        with self.assertRaises(KeyboardInterrupt):
            self.store.wait([self.object_id(1), self.object_id(2)], 2, PATIENCE)
        # the session goes on, or is lost if an answer was due, and its holds end a little later
        with self.server.connect() as other:
            other.delete(self.object_id(1))
            end = time.monotonic() + PATIENCE
            while self.object_id(1) in [item.id for item in other.list()[0]] and time.monotonic() < end:
                time.sleep(0.01)
            self.assertNotIn(self.object_id(1), [item.id for item in other.list()[0]])

    def test_a_get_that_waits_can_be_interrupted(self) -> None:
        self.interrupt(0.2)
        with self.assertRaises(KeyboardInterrupt):
            self.store.get(self.object_id(), timeout=PATIENCE)
        with self.server.connect() as other:
            self.assertFalse(other.contains(self.object_id()))


@own_grace
class Silence(unittest.TestCase):
    """A server that takes what it is sent, and doesn't answer."""

    def script(self, *replies: bytes) -> Script:
        script = Script([*replies], hang=True)
        self.addCleanup(script.close)
        return script

    def silent(self, call: Callable[[], object]) -> None:
        began = time.monotonic()
        with self.assertRaisesRegex(ServerSilent, "didn't answer in time"):
            call()
        self.assertLess(time.monotonic() - began, PATIENCE / 2)

    def test_connecting(self) -> None:
        path = self.script().path
        self.silent(lambda: store_client.connect(path, 1, key(1), timeout=0.1))

    def test_nobody_takes_the_connection(self) -> None:
        """The queue of those who would connect is full."""
        with tempfile.TemporaryDirectory() as folder, socket.socket(socket.AF_UNIX) as listener:
            listener.bind(f"{folder}/socket")
            listener.listen(0)
            with socket.socket(socket.AF_UNIX) as first, self.assertRaisesRegex(ServerSilent, "took no connection in time"):
                first.connect(f"{folder}/socket")
                store_client.connect(f"{folder}/socket", 1, key(1), timeout=0.1)

    def test_each_call(self) -> None:
        one = Task.numbered(1).object(1, job=1)
        calls: Tuple[Callable[[Connection], object], ...] = (
            lambda store: store.get(one, timeout=0.1),
            lambda store: store.put(b"abcd", timeout=0.1),
            lambda store: store.put(bytes(2**21), one, timeout=0.1),
            lambda store: store.wait([one], timeout=0.1),
        )
        for call in calls:
            store = store_client.connect(self.script(OK).path, 1, key(1))
            self.silent(lambda: call(store))
            with self.assertRaisesRegex(ConnectionLost, "didn't answer in time"):
                store.usage()

    def test_connecting_has_an_end_without_a_timeout(self) -> None:
        with mock.patch.object(connection, "OPENING", 0.1):
            path = self.script().path
            self.silent(lambda: store_client.connect(path, 1, key(1)))

    def test_what_waits_in_the_server_has_a_timeout(self) -> None:
        one = Task.numbered(1).object(1, job=1)
        calls: Tuple[Callable[[Connection], object], ...] = (
            lambda store: store.hold(one, wait=True, timeout=0.1), lambda store: store.create(one, 5, wait=True, timeout=0.1),
        )
        for call in calls:
            self.silent(lambda: call(store_client.connect(self.script(OK).path, 1, key(1))))

    def test_the_connection_s_own_timeout(self) -> None:
        store = store_client.connect(self.script(OK).path, 1, key(1), timeout=0.1)
        self.silent(store.usage)

    def test_other_threads_have_the_connection(self) -> None:
        """Then it isn't lost."""
        store = store_client.connect(self.script(OK, OK).path, 1, key(1))
        with in_use(store), self.assertRaisesRegex(store_client.TimedOut, "in use by other threads"):
            store.get(Task.numbered(1).object(1, job=1), timeout=0)
        store.leave()

    def test_closing_ends_a_call_that_waits(self) -> None:
        store = store_client.connect(self.script(OK).path, 1, key(1))
        told: List[type] = []

        def wait() -> None:
            try:
                store.hold(Task.numbered(1).object(1, job=1), wait=True)
            except store_client.StoreError as error:
                told.append(type(error))

        thread = threading.Thread(target=wait)
        thread.start()
        time.sleep(0.1)
        store.close()
        thread.join(PATIENCE)
        self.assertEqual(told, [ConnectionLost])
