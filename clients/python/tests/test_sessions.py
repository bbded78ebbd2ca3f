"""Sessions at a running server: what is stored comes back, and each refusal is told as its class."""

from __future__ import annotations

import array
import dataclasses
import os
import re
import subprocess
import sys
import threading
import time
import unittest
from typing import Callable, List, Tuple, Type, Union

from support import PATIENCE, PROGRAM, Server, device_at_rest, documented, documented_refusals, key
from store_testing.spelling import call, spelled

import store_client
from store_client import Kind, ObjectId, State, Task, steps
from store_client.requests import Requests

# that a list of the server's journal has, before it is folded
MOST_LINES = 65_536


def is_held_to_its_memory() -> bool:
    """Whether the system refuses memory for data beyond a process's limit."""
    words = "import resource; resource.setrlimit(resource.RLIMIT_DATA, (2**27, 2**27)); bytearray(2**28)"
    return subprocess.run([sys.executable, "-c", words], stderr=subprocess.DEVNULL, check=False).returncode != 0


class Sessions(unittest.TestCase):
    documented = documented_refusals()
    # the numbers that were met, and how many tests ran
    met: set[int] = set()
    ran = 0

    def setUp(self) -> None:
        type(self).ran += 1
        self.server = Server()
        self.addCleanup(self.server.close)
        self.store = self.server.connect()
        self.addCleanup(self.store.close)
        self.one = self.store.task(1).object(1)

    @classmethod
    def tearDownClass(cls) -> None:
        """All tests together meet each refusal that a session may be told."""
        if cls.ran == unittest.defaultTestLoader.loadTestsFromTestCase(cls).countTestCases():
            due = {number for number, (_, told) in cls.documented.items() if re.search(r"sessions\b|session's|everybody", told)}
            if cls.met != due:
                raise AssertionError(f"the refusals {sorted(cls.met)} were met, and {sorted(due)} are documented")

    def refused(self, refusal: Type[store_client.StoreError], method: Callable[..., object], *words: object) -> None:
        """The call raises just this class, whose number and name are the documented ones."""
        with self.assertRaises(store_client.StoreError) as caught:
            method(*words)
        self.assertIs(type(caught.exception), refusal)
        if isinstance(caught.exception, store_client.Refused):
            number = caught.exception.number
            self.assertEqual(type(caught.exception).__name__, self.documented[number][0])
            self.assertTrue(str(caught.exception).startswith(f"{number} {refusal.__name__}: "), caught.exception)
            self.met.add(number)

    def test_frames_say_what_a_schedule_says(self) -> None:
        """The documented commands are answered alike as frames of a session and as lines of a schedule."""
        said = [said for _, said in documented()[0] if not said.startswith("hello")]
        lines = [f"admit 0 1 {2**25} 0", "admit 0 2 64 0", *(f"cmd 0 1 1 {words.replace('wait ', ' ')}" for words in said)]
        words = [PROGRAM, "run", "--memory", str(2**26)]
        done = subprocess.run(words, input="".join(line + "\n" for line in lines), capture_output=True, text=True, check=True)
        answers = [line.split(" ", 3)[3] for line in done.stdout.splitlines()[2:]]
        self.assertEqual([spelled(call(self.store, words), 1) for words in said], answers)

    def test_bytes_come_back(self) -> None:
        for length in (1, 65_536, 65_537, 2**24):
            data = os.urandom(length)
            id = self.store.put(data)
            with self.store.get(id) as view:
                self.assertEqual(view, data)
                self.assertTrue(view.readonly)
            self.store.delete(id)
        self.assertEqual(self.store.usage().copies, 0)

    def test_buffers_of_each_kind(self) -> None:
        buffers: Tuple[Union[bytes, bytearray, memoryview, array.array[int]], ...] = (
            b"abcd", bytearray(b"abcd"), memoryview(b"xabcd")[1:], array.array("H", [1, 2]),
        )
        for data in buffers:
            with self.store.get(self.store.put(data)) as view:
                self.assertEqual(view, memoryview(data).cast("B"))

    def test_bytes_come_into_a_buffer(self) -> None:
        data = os.urandom(200_000)
        id, buffer = self.store.put(data), array.array("I", bytes(200_000))
        self.store.get_into(id, buffer)
        self.assertEqual(buffer.tobytes(), data)
        with self.assertRaisesRegex(ValueError, "another length than the buffer, which takes 4 bytes"):
            self.store.get_into(id, bytearray(4))
        for wrong in (data, memoryview(bytearray(400_000))[::2], "text"):
            with self.assertRaises(TypeError):
                self.store.get_into(id, wrong)
        self.store.delete(id)
        self.assertEqual(self.store.usage().copies, 0)

    def test_a_copy_that_is_offered(self) -> None:
        for data in (b"abcd", bytes(2**21)):
            self.store.put(data, self.one, kind=Kind.SECONDARY)
            (item,) = self.store.list()[0]
            self.assertEqual((item.state, item.kind, item.length), (State.SEALED, Kind.SECONDARY, len(data)))
            self.refused(store_client.NotOwner, self.store.unpin, self.one, self.one.task)
            self.store.delete(self.one)
        # it makes room for what comes
        self.store.put(bytes(2**24), self.one, kind=Kind.SECONDARY)
        self.store.put(bytes(2**24))
        self.store.put(bytes(2**24))
        self.assertFalse(self.store.contains(self.one))

    def test_a_hold_ends_with_its_block(self) -> None:
        self.store.put(b"abcd", self.one)
        with self.store.get(self.one):
            self.store.delete(self.one)
            self.assertEqual(self.store.usage().copies, 1)
        self.assertEqual(self.store.usage().copies, 0)
        held = self.store.get(self.store.put(b"abcd"))
        held.release()
        held.release()
        self.assertEqual(bytes(held.view), b"abcd")

    def test_what_is_refused(self) -> None:
        store, one, two = self.store, self.one, self.store.task(1).object(2)
        task = Task.numbered(1)
        self.refused(store_client.NotAdmitted, store_client.connect, self.server.path, 1, key(2))
        self.refused(store_client.Absent, store.seal, one)
        self.refused(store_client.BadSize, store.create, one, 0)
        self.assertEqual(store.create(one, 16), (0, 16))
        self.refused(store_client.Exists, store.create, one, 16)
        self.refused(store_client.NotSealed, store.hold, one)
        self.refused(store_client.OutOfBounds, store.write, one, 15, b"ab")
        self.refused(store_client.BadSize, store.write, one, 0, bytes(65_537))
        store.seal(one)
        self.refused(store_client.AlreadySealed, store.write, one, 0, b"a")
        self.refused(store_client.NotHeld, store.read, one, 0, 1)
        self.refused(store_client.NotHeld, store.release, one)
        for _ in range(64):
            self.assertEqual(store.hold(one), 16)
        self.refused(store_client.TooMany, store.hold, one)
        store.leave()
        self.refused(store_client.NotOwner, store.unpin, one, Task.numbered(2))
        store.borrow(one, Task.numbered(2))
        self.refused(store_client.Exists, store.borrow, one, Task.numbered(2))
        store.unpin(one, task)
        self.refused(store_client.NotHeld, store.unpin, one, task)
        store.give_up(one, Task.numbered(2))
        self.refused(store_client.Absent, store.delete, one)
        self.refused(store_client.Pending, store.hold, two)
        self.assertEqual(store.list()[0][0].state, State.FETCHING)
        with self.server.connect(2) as other:
            self.refused(store_client.NotGranted, other.hold, one)
            mine = other.task(1).object(1)
            other.create(mine, 64)
            self.refused(store_client.Full, other.create, other.task(1).object(2), 16)

    def fill(self, store: store_client.Connection, count: int) -> list[ObjectId]:
        """So many objects of 16 bytes."""
        return [store.put(bytes([index]) * 16, store.task(1).object(index)) for index in range(1, count + 1)]

    def test_a_device_that_fails(self) -> None:
        with self.server.connect(3) as store:
            self.fill(store, 9)
            aside = self.server.spill.with_name("spill.aside")
            self.server.spill.rename(aside)
            two = store.task(2).object(1)
            self.refused(store_client.DeviceFailed, lambda: store.create(two, 16, wait=True))
            # another folder at the same path isn't the server's: nothing is written there
            self.server.spill.mkdir()
            self.refused(store_client.DeviceFailed, lambda: store.create(two, 16, wait=True))
            self.assertEqual(list(self.server.spill.iterdir()), [])
            self.server.spill.rmdir()
            aside.rename(self.server.spill)
            store.create(two, 16, wait=True)

    def test_a_write_that_fails(self) -> None:
        """Something is in the way of the first write. Who waits for room is told, and the object stays; once it has gone the next try
        finds some."""
        with self.server.connect(3) as store:
            one, *_ = self.fill(store, 9)
            (self.server.spill / "3.1").mkdir()
            two = store.task(2).object(1)
            self.refused(store_client.DeviceFailed, lambda: store.create(two, 16, wait=True))
            self.assertEqual([item.state for item in store.list()[0]], [State.SEALED] * 9)
            (self.server.spill / "3.1").rmdir()
            store.create(two, 16, wait=True)
            store.delete(two)
            with store.get(one) as view:
                self.assertEqual(bytes(view), bytes([1]) * 16)

    def check_others_are_answered(self) -> None:
        """Another job's commands are answered while a device call of job 3 is held."""
        with self.server.connect(1) as other:
            one = other.put(b"abcd", other.task(1).object(1))
            with other.get(one) as view:
                self.assertEqual(bytes(view), b"abcd")
            other.delete(one)

    def await_works(self, store: store_client.Connection) -> None:
        end = time.monotonic() + PATIENCE
        while store.usage().works:
            self.assertLess(time.monotonic(), end, "the device works don't end")

    def test_a_device_that_is_slow(self) -> None:
        """Nine objects are in the way of one. Eight are to be written, and the device isn't at work."""
        with self.server.connect(3) as store:
            self.fill(store, 9)
            two = store.task(2).object(1)
            with device_at_rest(self.server):
                self.refused(store_client.Pending, store.create, two, 144)
                self.assertEqual(store.usage().works, 8)
                self.refused(store_client.Busy, store.create, two, 144)
                self.check_others_are_answered()
            self.await_works(store)
            self.assertEqual(store.create(two, 144, wait=True), (0, 144))

    def test_a_device_that_reads_slowly(self) -> None:
        """A spilled object isn't read as long as the device isn't at work. Its file is gone then, and there again for the next try."""
        with self.server.connect(3) as store:
            one, *_ = self.fill(store, 9)
            two = store.task(2).object(1)
            store.create(two, 16, wait=True)
            file = self.server.spill / "3.1"
            away = file.with_name("away")
            store.delete(two)
            with device_at_rest(self.server):
                self.refused(store_client.Pending, store.hold, one)
                self.assertEqual(store.usage().works, 1)
                self.check_others_are_answered()
                content = file.read_bytes()
                file.rename(away)
            self.await_works(store)
            away.rename(file)
            self.refused(store_client.DeviceFailed, store.hold, one)
            with store.get(one) as view:
                self.assertEqual(bytes(view), content)

    @unittest.skipUnless(is_held_to_its_memory(), "no process is held to a limit of its memory here")
    def test_a_server_without_memory(self) -> None:
        """Each command adds to the server's journal, until that may not grow. Nothing is lost by it."""
        self.store.put(b"abcd", self.one)
        with self.server.without_more_memory():
            with self.assertRaises(store_client.NoMemory):
                for _ in range(MOST_LINES):
                    self.store.usage()
            self.refused(store_client.NoMemory, self.store.usage)
            self.refused(store_client.NoMemory, self.store.create, self.store.task(1).object(2), 16)
        self.assertEqual(self.store.usage().copies, 1)
        with self.store.get(self.one) as view:
            self.assertEqual(bytes(view), b"abcd")

    def test_what_was_damaged_on_the_device(self) -> None:
        with self.server.connect(3) as store:
            one, *_ = self.fill(store, 9)
            store.create(store.task(2).object(1), 16, wait=True)
            (self.server.spill / "3.1").write_bytes(b"another content!")
            store.delete(store.task(2).object(1))
            self.refused(store_client.Damaged, store.get, one)
            self.refused(store_client.Damaged, store.get, one)

    def test_a_spilled_file_that_was_cut_short(self) -> None:
        """It isn't read back, and is once it is whole."""
        with self.server.connect(3) as store:
            one, *_ = self.fill(store, 9)
            two = store.task(2).object(1)
            store.create(two, 16, wait=True)
            file = self.server.spill / "3.1"
            content = file.read_bytes()
            self.assertEqual(content, bytes([1]) * 16)
            file.write_bytes(content[:15])
            store.delete(two)
            self.refused(store_client.DeviceFailed, store.get, one)
            file.write_bytes(content)
            with store.get(one) as view:
                self.assertEqual(bytes(view), content)

    def test_what_is_no_command(self) -> None:
        """No call sends that, so it is sent by hand."""
        requests = Requests(1)
        unknown = dataclasses.replace(requests.seal(self.one), parts=(b"\0\0\0\1\x15",))
        self.refused(store_client.Malformed, self.store._run, steps.ask(unknown))
        self.refused(store_client.ConnectionLost, self.store.usage)

    def test_what_is_listed(self) -> None:
        self.store.put(b"abc", self.one)
        self.store.create(self.store.task(1).object(2), 5, Kind.SECONDARY)
        own, granted = self.store.list()
        self.assertEqual([(item.id.text(1), item.state, item.kind, item.length) for item in own],
                         [("t1.1", State.SEALED, Kind.PRIMARY, 3), ("t1.2", State.CREATED, Kind.SECONDARY, 5)])
        self.assertEqual(granted, [])
        self.assertEqual(self.store.usage().window_used, 32)

    def test_what_is_granted(self) -> None:
        store, one = self.store, self.store.put(b"abcd", self.one)
        with self.server.connect(2) as other:
            self.refused(store_client.NotGranted, other.peek, one, 0, 1)
            self.refused(store_client.BadId, store.grant, one, 1)
            self.refused(store_client.Absent, store.grant, store.task(1).object(2), 2)
            store.create(store.task(1).object(3), 16)
            self.refused(store_client.NotResident, store.grant, store.task(1).object(3), 2)
            store.grant(one, 2)
            self.refused(store_client.Exists, store.grant, one, 2)
            self.refused(store_client.Granted, store.delete, one)
            self.assertEqual(other.peek(one, 1, 2), b"bc")
            self.refused(store_client.OutOfBounds, other.peek, one, 3, 2)
            self.assertEqual([(item.id, item.length, item.depth) for item in other.list()[1]], [(one, 4, 1)])
            # whether job 3 is there doesn't show
            other.grant(one, 3)
            self.refused(store_client.NotGranted, other.withdraw, one, 1)
            store.withdraw(one, 2)
            self.refused(store_client.NotGranted, other.peek, one, 0, 1)
            self.refused(store_client.NotGranted, other.withdraw, one, 3)
        store.delete(one)

    def test_a_task_that_ends(self) -> None:
        store, one = self.store, self.store.put(b"abcd", self.one)
        with self.server.connect(2) as other:
            store.grant(one, 2)
            self.assertEqual(other.peek(one, 0, 4), b"abcd")
            store.end_task(Task.numbered(1))
            self.refused(store_client.NotGranted, other.peek, one, 0, 4)
        self.assertEqual(store.usage().copies, 0)
        self.refused(store_client.Gone, store.end_task, Task.numbered(1))
        self.refused(store_client.Gone, store.create, self.store.task(1).object(2), 16)

    def test_what_no_node_has_is_absent(self) -> None:
        self.store.create(self.one, 4)
        self.refused(store_client.NotSealed, self.store.get, self.one, 0)
        two = self.store.task(1).object(2)
        # the first Get begins a fetch, and the next one is told what came of it
        self.refused(store_client.Pending, self.store.hold, two)
        self.refused(store_client.Absent, self.store.hold, two)
        self.refused(store_client.Absent, self.store.get, two)

    def test_an_object_that_fails_to_be_written_is_removed(self) -> None:
        def stop(moved: int, whole: int) -> None:
            raise KeyboardInterrupt

        with self.assertRaises(KeyboardInterrupt):
            self.store.put(bytes(100_000), self.one, stop)
        self.assertEqual(self.store.usage().copies, 0)

    def test_a_server_that_goes_away(self) -> None:
        calling = self.server.connect()
        answers = []

        def call() -> None:
            try:
                while True:
                    calling.usage()
            except store_client.StoreError as error:
                answers.append(type(error))

        thread = threading.Thread(target=call)
        thread.start()
        time.sleep(0.2)
        self.server.program.kill()
        thread.join(PATIENCE)
        self.assertEqual(answers, [store_client.ConnectionLost])
        for _ in range(2):
            self.refused(store_client.ConnectionLost, self.store.usage)
        self.refused(store_client.ConnectionLost, store_client.connect, self.server.path, 1, key(1))

    def test_a_closed_connection(self) -> None:
        self.store.close()
        self.refused(store_client.ConnectionLost, self.store.usage)

    def test_many_threads_share_a_connection(self) -> None:
        faults: List[int] = []

        def work(number: int) -> None:
            for n in range(20):
                data = os.urandom(100 + number + n)
                with self.store.get(self.store.put(data)) as view:
                    if view != data:
                        faults.append(number)

        threads = [threading.Thread(target=work, args=(number,)) for number in range(4)]
        for thread in threads:
            thread.start()
        for thread in threads:
            thread.join()
        self.assertEqual(faults, [])
