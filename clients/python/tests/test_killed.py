"""Processes that are killed in the midst of a put: after ten seconds nothing of it takes room, and what was finished is there."""

from __future__ import annotations

import asyncio
import contextlib
import functools
import glob
import hashlib
import os
import pickle
import signal
import tempfile
import threading
import time
import traceback
import unittest
from pathlib import Path
from typing import Any, Callable, List
from unittest import mock

from support import PATIENCE, Server, ServerOfAll, key

import store_client
from store_client import Absent, Connection, ObjectId, Pool, State, Task, aio, keeping, parts, putting
from store_client import keeper as keepers_own
from store_client.aio_session import Session
from store_client.stream import Stream
from store_testing.waiting import until

try:
    import numpy
except ImportError:
    numpy = None

# until nothing is left, in seconds: ten, on a machine that does nothing else
SOON = PATIENCE / 3
# a window that is smaller than a value of the tests
WINDOW, LONG, SHORT = 2**18, 300_000, 100
# as an object it has SHORT bytes
SHORT_VALUE = bytes(65)
# of the exchanges of a put in parts some are tried
STEP = int(os.environ.get("STORE_KILLS", "7"))
# when a process is killed: before it sends anything of an exchange, when half of the commands were answered, when the last of the bytes
# that it has sent are the beginning of a frame, or once all was answered
MOMENTS = ("before", "half", "within", "after")


def keepers(path: str) -> List[int]:
    """The processes that keep the store at this socket."""
    found = []
    for folder in Path("/proc").glob("[0-9]*"):
        try:
            words = (folder / "cmdline").read_bytes().split(b"\0")
        except OSError:
            continue
        if any(word.endswith(b"/keeper.py") for word in words) and os.fsencode(path) in words:
            found.append(int(folder.name))
    return found


def files_of(path: str, job: int) -> str:
    """How the files of the keeper of a job at this socket begin."""
    return f"{keeping.keepers_folder()}/{hashlib.sha256(f'{job} {path}'.encode()).hexdigest()[:16]}"


class Killed(ServerOfAll):
    job = 7
    path: str

    @classmethod
    def setUpClass(cls) -> None:
        super().setUpClass()
        cls.server.admit(0, 7, WINDOW, 2**26)
        cls.path = os.path.realpath(cls.server.path)

    def setUp(self) -> None:
        self.store = self.begin()
        self.addCleanup(self.store.close)
        self.task = Task(os.urandom(20))
        self.addCleanup(self.clear)

    def begin(self) -> Connection:
        return self.server.connect(self.job)

    def clear(self) -> None:
        for item in self.store.list()[0]:
            self.store.delete(item.id)

    def object_id(self, index: int) -> ObjectId:
        return self.task.object(index, job=self.job)

    def killed(self, work: Callable[[], Any]) -> bool:
        """Does the work in a process that is forked off. Whether it was killed."""
        child = os.fork()
        if not child:
            try:
                work()
                os._exit(0)
            except BaseException:
                traceback.print_exc()
                os._exit(1)
        status = os.waitpid(child, 0)[1]
        self.assertIn(status, (0, signal.SIGKILL))
        return status == signal.SIGKILL

    def killed_at(self, number: int, how: str, put: Callable[[Any], Any], store: Any) -> None:
        """Puts, and is killed at the exchange of this number, from 1, and this moment of it."""
        exchange, left = Stream.exchange, [number]

        def cut(stream: Stream, requests: Any, end: Any) -> Any:
            # a thread of a pool says first who it is
            left[0] -= requests[0].name != "hello"
            if not left[0]:
                if how == "within":
                    self.send_some(stream, requests)
                elif how != "before":
                    exchange(stream, requests if how == "after" else requests[: len(requests) // 2], end)
                os.kill(os.getpid(), signal.SIGKILL)
            return exchange(stream, requests, end)

        with mock.patch.object(Stream, "exchange", cut):
            put(store)

    def send_some(self, stream: Stream, requests: Any) -> None:
        """Two thirds of the bytes of these requests."""
        whole = b"".join(bytes(part) for request in requests for part in request.parts)
        stream._socket.settimeout(PATIENCE)
        stream._socket.sendall(whole[: 2 * len(whole) // 3])

    def kill_everywhere(self, put: Callable[[Any], Any], step: int = 1, is_pool: bool = False) -> None:
        """Kills a process at each of its exchanges, until one has no more."""

        def work(number: int, how: str, finished: ObjectId) -> None:
            store = Pool(self.server.path, self.job, key(self.job)) if is_pool else self.begin()
            store.put(b"finished", finished)
            self.killed_at(number, how, put, store)

        self.kill_at_each(work, step)

    def kill_at_each(self, work: Callable[[int, str, ObjectId], None], step: int = 1) -> None:
        """Has processes do work that is killed at the exchange of a number and a moment of it, until one isn't. Each has finished something
        before. At the end all that was finished is there, and of what was not nothing."""
        finished: List[ObjectId] = []
        number, was_killed = 1, True
        while was_killed:
            for how in MOMENTS:
                finished.append(self.object_id(len(finished) + 1))
                was_killed = self.killed(functools.partial(work, number, how, finished[-1]))
                # the next one has to find room
                until(lambda: sum(item.state is State.CREATED for item in self.store.list()[0]) < 8, "fewer unfinished", SOON)
            number += step
        self.assertGreater(len(finished), len(MOMENTS))
        until(lambda: not self.unfinished(), "nothing unfinished", SOON)
        for id in finished:
            with self.store.get(id) as view:
                self.assertEqual(view, b"finished")

    def unfinished(self) -> List[ObjectId]:
        """What isn't sealed, and what is neither a whole of the tests' length nor a manifest nor one of its parts."""
        items = self.store.list()[0]
        wholes = [item.id for item in items if item.length in (SHORT, len(b"finished")) and item.state is not State.CREATED]
        for item in items:
            if item.state is not State.CREATED and item.id not in wholes:
                named = self.parts_of(item.id)
                wholes += [item.id, *named] if named else []
        return [item.id for item in items if item.id not in wholes]

    def parts_of(self, id: ObjectId) -> List[ObjectId]:
        try:
            return self.store._run(parts.parts_of(self.store._requests, id))
        except Absent:
            # it has just been deleted
            return []

    def test_a_put_under_a_new_id(self) -> None:
        self.kill_everywhere(lambda store: store.put(bytes(SHORT)))

    def test_a_put_under_a_new_id_that_is_not_sent_in_one_burst(self) -> None:
        with mock.patch.object(putting, "_BURST", 10):
            self.kill_everywhere(lambda store: store.put(bytes(SHORT)))

    def test_a_put_under_an_id_that_was_given(self) -> None:
        self.kill_everywhere(lambda store: store.put(bytes(SHORT), Task(os.urandom(20)).object(1, job=self.job)))

    def test_a_value_in_parts(self) -> None:
        self.kill_everywhere(lambda store: store.put_value(bytes(LONG)), STEP)

    def test_a_value_in_parts_under_an_id_that_was_given(self) -> None:
        self.kill_everywhere(lambda store: store.put_value(bytes(LONG), Task(os.urandom(20)).object(1, job=self.job)), STEP)

    def test_a_value_in_parts_by_a_pool(self) -> None:
        self.kill_everywhere(lambda store: store.put_value(bytes(LONG)), STEP, is_pool=True)

    def test_a_short_value(self) -> None:
        self.kill_everywhere(lambda store: store.put_value(SHORT_VALUE))

    def test_a_short_value_under_an_id_that_was_given(self) -> None:
        self.kill_everywhere(lambda store: store.put_value(SHORT_VALUE, Task(os.urandom(20)).object(1, job=self.job)))

    @unittest.skipIf(numpy is None, "numpy isn't there")
    def test_an_array_in_parts(self) -> None:
        self.kill_everywhere(lambda store: store.put_array(numpy.zeros(LONG // 8)), STEP)

    @unittest.skipIf(numpy is None, "numpy isn't there")
    def test_an_array_in_parts_by_a_pool_under_an_id_that_was_given(self) -> None:
        def put(store: Any) -> None:
            store.put_array(numpy.zeros(LONG // 8), Task(os.urandom(20)).object(1, job=self.job))

        self.kill_everywhere(put, STEP, is_pool=True)

    def test_a_value_in_parts_by_coroutines(self) -> None:
        async def put(finished: ObjectId) -> None:
            async with await aio.connect(self.server.path, self.job, key(self.job)) as store:
                await store.put(b"finished", finished)
                await store.put_value(bytes(LONG))

        def work(number: int, how: str, finished: ObjectId) -> None:
            # before there are Hello, and three exchanges of what is finished
            exchange, left = Session.exchange, [4 + number]

            async def cut(session: Session, requests: Any, *words: Any) -> Any:
                left[0] -= 1
                if not left[0]:
                    if how != "before":
                        await exchange(session, requests[: len(requests) // 2] if how == "half" else requests, *words)
                    os.kill(os.getpid(), signal.SIGKILL)
                return await exchange(session, requests, *words)

            with mock.patch.object(Session, "exchange", cut):
                asyncio.run(put(finished))

        self.kill_at_each(work, STEP)

    def test_what_lives_is_left_alone(self) -> None:
        """Also if its id was made by a process that is dead, and what a session that was closed has left, or one that told nothing."""
        by_hand, left = self.object_id(1), self.store.new_id()
        self.store.create(by_hand, 4)
        with self.begin() as closed:
            of_closed = closed.new_id()
            closed.create(of_closed, 4)
        reading, writing = os.pipe()

        def make() -> None:
            store = self.begin()
            made = [store.new_id() for _ in range(2)]
            store.create(made[1], 4)
            os.write(writing, b"".join(id.to_bytes() for id in made))
            os.kill(os.getpid(), signal.SIGKILL)

        self.killed(make)
        given, gone = (ObjectId.from_bytes(os.read(reading, 28)) for _ in range(2))
        os.close(reading)
        os.close(writing)
        with self.store._requests.keeping.unfinished(given):
            self.store.create(given, 4)
            self.store.create(left, 4)
            until(lambda: gone not in [item.id for item in self.store.list()[0]], f"{gone} removed", SOON)
            # and once more
            time.sleep(1.5)
            self.assertEqual({item.id for item in self.store.list()[0]}, {by_hand, of_closed, given, left})

    def test_a_keeper_that_was_killed_is_started_anew(self) -> None:
        def put() -> None:
            store = self.begin()
            store.new_id()
            # one that has just been started has a shell before it
            while running := keepers(self.path):
                for keeper in running:
                    with contextlib.suppress(ProcessLookupError):
                        os.kill(keeper, signal.SIGKILL)
                time.sleep(0.01)
            self.killed_at(2, "before", lambda store: store.put(bytes(SHORT), self.object_id(1)), store)

        self.assertTrue(self.killed(put))
        until(lambda: not self.unfinished(), "nothing unfinished", SOON)

    def test_what_is_killed_with_its_keeper_is_looked_after_by_the_next_one(self) -> None:
        """As all of a container may be. What it needs for that is in a file, and the job's key isn't."""
        notes = files_of(self.path, self.job) + ".notes"
        for put in (lambda store: store.put(bytes(SHORT)), lambda store: store.put_value(bytes(LONG), self.object_id(1))):
            def killed(put: Callable[[Any], Any] = put) -> None:
                store = self.begin()
                exchange, left = Stream.exchange, [8]

                def cut(stream: Stream, requests: Any, end: Any) -> Any:
                    left[0] -= 1
                    if len(requests) > 2 or not left[0]:
                        # the beginning of a put, or what comes in the midst of one in parts
                        exchange(stream, requests[:2], end)
                        until(lambda: self.is_noted(notes, store), "the keeper has noted it", PATIENCE)
                        for process in (*keepers(self.path), os.getpid()):
                            os.kill(process, signal.SIGKILL)
                    return exchange(stream, requests, end)

                with mock.patch.object(Stream, "exchange", cut):
                    put(store)

            self.assertTrue(self.killed(killed))
            until(lambda: not keepers(self.path), "the keeper's end", SOON)
            self.assertTrue(self.unfinished())
            self.assertNotIn(key(self.job), Path(notes).read_bytes())
            # another process of the job puts something else
            with self.begin() as other:
                other.delete(other.put(b"abcd"))
                until(lambda: not self.unfinished(), "nothing unfinished", SOON)

    def is_noted(self, notes: str, store: Connection) -> bool:
        """Whether a keeper's notes have what this process has told of a session."""
        told = store._requests.keeping
        noted = [client for client in keepers_own.Notes(notes).read() if client._process == os.getpid()]
        return any(client.tasks == told._tasks and set(client.puts) == set(told._begun) for client in noted)

    def test_without_a_keeper_all_goes_on(self) -> None:
        refused = mock.Mock(side_effect=PermissionError("no folder"))
        with mock.patch.object(keeping, "keepers_folder", refused), self.begin() as store:
            for id in (None, None, self.object_id(1)):
                self.assertTrue(store.contains(store.put(b"abcd", id)))
            self.assertEqual(store.get_value(store.put_value(bytes(LONG))), bytes(LONG))
        # it isn't tried again and again
        self.assertLessEqual(refused.call_count, 2)
        with mock.patch.object(keeping, "connected", refused):
            refused.reset_mock()
            store_client.connect(self.server.path, 7, key(7), keeper=False).put(b"abcd")
            with Pool(self.server.path, 7, key(7), keeper=False) as pool, pickle.loads(pickle.dumps(pool)) as other:
                other.put_value(bytes(LONG), self.object_id(2))
            refused.assert_not_called()

    def test_a_folder_that_others_can_look_into_is_not_used(self) -> None:
        with tempfile.TemporaryDirectory() as place, mock.patch.object(tempfile, "gettempdir", lambda: place):
            self.assertEqual(os.stat(keeping.keepers_folder()).st_mode & 0o777, 0o700)
            os.chmod(keeping.keepers_folder(), 0o755)
            with self.assertRaises(PermissionError):
                keeping.keepers_folder()

    def test_a_put_tells_its_keeper_once(self) -> None:
        with self.begin() as store:
            told: List[bytes] = []
            with mock.patch.object(keeping.Keeping, "_tell", lambda _, message: told.append(message[:1])):
                for _ in range(3):
                    store.put(b"abcd")
                self.assertEqual(told, [keeping.TASK])
                told.clear()
                for index in range(1, 4):
                    store.put(b"abcd", self.object_id(index))
                self.assertEqual(told, [keeping.BEGIN] * 3)
                told.clear()
                store.put_value(bytes(LONG))
                self.assertEqual(told, [keeping.BEGIN, keeping.END])


class Alone(ServerOfAll):
    def test_there_is_one_keeper_and_it_ends_by_itself(self) -> None:
        stores = [self.server.connect() for _ in range(4)]
        threads = [threading.Thread(target=store.put, args=(b"abcd",)) for store in stores]
        for thread in threads:
            thread.start()
        for thread in threads:
            thread.join()
        # a process that is just replacing another has no words for a moment
        end = time.monotonic() + PATIENCE
        while not (found := keepers(os.path.realpath(self.server.path))) and time.monotonic() < end:
            time.sleep(0.01)
        (keeper,) = found
        for store in stores:
            store.close()
        end = time.monotonic() + PATIENCE
        while os.path.exists(f"/proc/{keeper}") and time.monotonic() < end:
            time.sleep(0.05)
        self.assertFalse(os.path.exists(f"/proc/{keeper}"))
        self.assertEqual(glob.glob(files_of(os.path.realpath(self.server.path), 1) + ".*"), [])

    def test_a_keeper_that_is_long_in_starting_is_used_all_the_same(self) -> None:
        start = keeping._start

        def slowly(name: str, path: str, job: int) -> bool:
            has_started = start(name, path, job)
            time.sleep(0.3)
            return has_started

        tells = keeping.Keeping(self.server.path, 1, key(1))
        with mock.patch.object(keeping, "_start", slowly), mock.patch.object(keeping, "_PATIENCE", 0.2):
            tells.task(Task(os.urandom(20)))
        self.assertTrue(tells._is_known)
        tells.close(is_clean=True)

    def test_the_keeper_of_a_store_that_is_gone_ends_with_its_folder(self) -> None:
        with tempfile.TemporaryDirectory() as place, mock.patch.object(tempfile, "gettempdir", lambda: place):
            server = Server()
            store = server.connect()
            store.put(b"abcd")
            self.assertIn(f"store-keepers-{os.getuid()}", os.listdir(place))
            store.close()
            server.close()
            end = time.monotonic() + SOON
            while os.listdir(place) and time.monotonic() < end:
                time.sleep(0.05)
            self.assertEqual(os.listdir(place), [])


class Notes(unittest.TestCase):
    """What a keeper notes for the next one."""

    def setUp(self) -> None:
        folder = tempfile.TemporaryDirectory()
        self.addCleanup(folder.cleanup)
        self.path = f"{folder.name}/notes"
        self.task, self.whole, self.part = bytes([1]) * 20, bytes([2]) * 28, bytes([3]) * 28

    def read(self) -> List[Any]:
        found = [list(client.messages()) for client in keepers_own.Notes(self.path).read()]
        return [[message for message in messages if message[:1] != keepers_own._CAME] for messages in found]

    def test_what_was_told_is_read_again(self) -> None:
        notes = keepers_own.Notes(self.path)
        notes.begin([])
        put, over, nothing = (keepers_own.Client(os.getpid(), "1") for _ in range(3))
        begun = keeping.BEGIN + b"\0" + self.whole + self.part
        told = [(put, keeping.HELLO + bytes([7]) * 32), (put, keeping.TASK + self.task), (over, keeping.TASK + self.task), (put, begun)]
        notes.add([*told, (nothing, keeping.LISTEN), (over, keepers_own._OVER)], [put])
        self.assertEqual(self.read(), [[keeping.TASK + self.task, begun]])
        self.assertNotIn(bytes([7]) * 32, Path(self.path).read_bytes())
        notes.add([(put, keeping.END + self.whole)], [put])
        self.assertEqual(self.read(), [[keeping.TASK + self.task]])
        notes.add([(put, keeping.LEAVE)], [put])
        self.assertEqual(self.read(), [])

    def test_a_process_that_may_live_in_a_container_is_not_taken_for_dead(self) -> None:
        known, unknown = keepers_own.Client(os.getpid(), "1"), keepers_own.Client(0, None)
        for client in (known, unknown):
            client.hear(keeping.TASK + self.task)
        keepers_own.Notes(self.path).begin([unknown])
        self.assertEqual(self.read(), [])
        keepers_own.Notes(self.path).begin([known])
        self.assertEqual(len(self.read()), 1)
        with mock.patch.object(keepers_own, "_namespace", lambda: "pid:[1]"):
            self.assertEqual(self.read(), [])

    def test_they_stay_short(self) -> None:
        client = keepers_own.Client(os.getpid(), "1")
        client.hear(keeping.TASK + self.task)
        with mock.patch.object(keepers_own, "_LONGEST_NOTES", 1000):
            notes = keepers_own.Notes(self.path)
            notes.begin([client])
            for _ in range(100):
                notes.add([(client, keeping.BEGIN + b"\0" + self.whole), (client, keeping.END + self.whole)], [client])
                self.assertLessEqual(os.path.getsize(self.path), 1000)
        self.assertEqual(self.read(), [[keeping.TASK + self.task]])

    def test_what_was_cut_off_or_can_t_be_right_is_passed_over(self) -> None:
        notes = keepers_own.Notes(self.path)
        notes.begin([])
        client = keepers_own.Client(os.getpid(), "1")
        notes.add([(client, keeping.TASK + self.task), (client, keeping.BEGIN + b"\0" + self.whole)], [client])
        right = Path(self.path).read_bytes()
        for length in range(len(right)):
            Path(self.path).write_bytes(right[:length])
            self.assertIn(self.read(), ([], [[keeping.TASK + self.task]]))
        for wrong in (b"B", b"B\xff" + self.whole, b"C", b"C1 1", b"C\xff 1 1", b"Cx 1 pid", b""):
            Path(self.path).write_bytes(right + keepers_own._NOTE.pack(1, len(wrong)) + wrong)
            self.read()
        Path(self.path).unlink()
        self.assertEqual(self.read(), [])

    def test_where_they_can_t_be_written_all_goes_on(self) -> None:
        notes = keepers_own.Notes("/nowhere/notes")
        client = keepers_own.Client(os.getpid(), "1")
        notes.begin([])
        notes.add([(client, keeping.TASK + self.task)], [client])
