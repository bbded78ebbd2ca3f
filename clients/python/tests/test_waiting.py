"""Waiting for what will come: consumers before producers, at one node and at two, and nothing that is left of it."""

from __future__ import annotations

import contextlib
import heapq
import os
import random
import threading
import time
import unittest
from typing import Any, Callable, List, Optional, Sequence, Union
from unittest import mock

from support import PATIENCE, Script, Server, ServerOfAll, WithServer, device_at_rest, in_child

import store_client
from store_client import Absent, Exists, NotGranted, NotSealed, ObjectId, Pending, State, Task, finding, steps
from store_client.frames import Command, Reply, frame, numbers
from store_client.requests import Answer, Repeated, Request, Requests
from store_client.steps import Ask, Rest, Steps, go_on
from store_client.stream import Stream
from store_testing.waiting import until


class Waiting(WithServer):
    nodes = 2

    def setUp(self) -> None:
        super().setUp()
        self.other = self.connect()
        self.far = self.connect(node=1)
        self.addCleanup(self.clear)

    def clear(self) -> None:
        """Nothing of one test is there in the next."""
        for node in (0, 1):
            with self.server.connect(1, node) as store:
                for item in store.list()[0]:
                    store.delete(item.id)

    def copies(self, store: store_client.Connection) -> int:
        return store.usage().copies

    def later(self, work: Callable[[], Any], seconds: float = 0.2) -> threading.Thread:
        """Does the work in another thread, after a while."""
        thread = threading.Timer(seconds, work)
        thread.start()
        self.addCleanup(thread.join)
        return thread

    def bytes_of(self, store: store_client.Connection, id: ObjectId, timeout: float) -> bytes:
        with store.get(id, timeout) as view:
            return bytes(view)


class Consumers(Waiting):
    def test_they_may_come_first(self) -> None:
        for producer in (self.other, self.far):
            with self.subTest(producer=producer):
                id = ObjectId(Task(os.urandom(20)), 1, 1)
                self.later(lambda: producer.put(b"abcd", id))
                self.assertEqual(self.bytes_of(self.store, id, float("inf")), b"abcd")

    def test_an_object_that_is_being_written_is_waited_for(self) -> None:
        self.other.create(self.object_id(), 4)
        self.other.write(self.object_id(), 0, b"abcd")
        self.later(lambda: self.other.seal(self.object_id()))
        self.assertEqual(self.bytes_of(self.store, self.object_id(), PATIENCE), b"abcd")

    def test_a_look_leaves_nothing_in_a_producer_s_way(self) -> None:
        """The first try enters a fetch, at which a Create is Exists."""
        with self.assertRaises(Absent):
            self.store.get(self.object_id(), timeout=0)
        self.assertEqual(self.copies(self.store), 0)
        self.other.create(self.object_id(), 4)
        with self.assertRaises(NotSealed):
            self.store.get(self.object_id(), timeout=0)

    def test_polling_never_fills_the_job_s_copies(self) -> None:
        for index in range(1, 51):
            with self.assertRaises(Absent):
                self.store.get(self.object_id(index), timeout=0)
        self.store.wait([self.object_id(index) for index in range(51, 101)], timeout=0)
        self.assertEqual(self.copies(self.store), 0)

    def test_the_time_is_over(self) -> None:
        began = time.monotonic()
        with self.assertRaisesRegex(Absent, "No node has it sealed"):
            self.store.get(self.object_id(), timeout=0.3)
        self.assertGreaterEqual(time.monotonic() - began, 0.3)
        self.assertEqual(self.copies(self.store), 0)

    def test_without_a_timeout_one_gets_what_is_there(self) -> None:
        with self.assertRaises(Absent):
            self.store.get(self.object_id())
        self.far.put(b"abcd", self.object_id())
        with self.store.get(self.object_id()) as view:
            self.assertEqual(bytes(view), b"abcd")

    def test_a_large_object_comes_from_another_node(self) -> None:
        data = os.urandom(150_000)
        self.far.put(data, self.object_id())
        self.assertEqual(self.bytes_of(self.store, self.object_id(), PATIENCE), data)

    def test_polling_without_waiting_gets_what_another_node_has(self) -> None:
        """A transfer that has begun goes on by itself."""
        self.far.put(bytes(100_000), self.object_id())
        end = time.monotonic() + PATIENCE
        while time.monotonic() < end:
            try:
                self.assertEqual(self.bytes_of(self.store, self.object_id(), 0), bytes(100_000))
                return
            except Pending:
                pass
        self.fail("it never came")

    def test_what_finds_no_room_here_is_told_and_leaves_nothing(self) -> None:
        """Job 2 has a window of 64 bytes at each node."""
        near, far = self.connect(2), self.connect(2, node=1)
        one, two = (Task(os.urandom(20)).object(1, job=2) for _ in range(2))
        far.put(bytes(64), one)
        near.create(two, 64)
        for timeout in (None, 0.1):
            with self.assertRaisesRegex(store_client.Full, "No room to bring it back into the job's window"):
                near.get(one, timeout)
            self.assertEqual([item.id for item in near.list()[0]], [two])
        near.delete(two)
        self.assertEqual(self.bytes_of(near, one, PATIENCE), bytes(64))
        for store in (near, far):
            store.end_task(one.task)

    def test_a_get_that_waits_holds_up_no_other_thread(self) -> None:
        thread = threading.Thread(target=lambda: self.bytes_of(self.store, self.object_id(), PATIENCE))
        thread.start()
        for _ in range(20):
            self.store.usage()
        self.store.put(b"abcd", self.object_id())
        thread.join(PATIENCE)
        self.assertFalse(thread.is_alive())


class Producers(Waiting):
    def test_a_fetch_in_the_object_s_place_is_taken_away(self) -> None:
        """It was left there by another client's Get."""
        with self.assertRaises(Pending):
            self.other.hold(self.object_id())
        self.assertEqual(self.store.list()[0][0].state, State.FETCHING)
        self.store.put(b"abcd", self.object_id())
        self.assertEqual(self.bytes_of(self.other, self.object_id(), 0), b"abcd")

    def test_another_s_object_is_left_alone(self) -> None:
        self.other.create(self.object_id(1), 4)
        self.other.put(b"abcd", self.object_id(2))
        for index in (1, 2):
            with self.assertRaises(Exists):
                self.store.put(b"else", self.object_id(index))
            with self.assertRaises(Exists):
                self.store.put(b"else", self.object_id(index), timeout=0.1)
        self.other.write(self.object_id(1), 0, b"mine")
        self.other.seal(self.object_id(1))
        self.assertEqual(self.bytes_of(self.store, self.object_id(1), 0), b"mine")

    def test_what_another_node_has_and_a_fetch_has_found_exists(self) -> None:
        self.far.put(b"abcd", self.object_id())
        with self.assertRaises(Pending):
            self.other.hold(self.object_id())
        with self.assertRaises(Exists):
            self.store.put(b"else", self.object_id(), timeout=PATIENCE)
        self.assertEqual(self.bytes_of(self.store, self.object_id(), PATIENCE), b"abcd")

    def race(self, nodes: List[int]) -> None:
        """Consumers look all the time while objects are put, each of which has to come to all of them."""
        rounds = 15
        faults: List[str] = []

        def consume(store: store_client.Connection) -> None:
            try:
                for index in range(1, rounds + 1):
                    if self.bytes_of(store, self.object_id(index), PATIENCE) != bytes([index]) * 4:
                        faults.append("other bytes")
            except Exception as error:
                faults.append(repr(error))

        threads = [threading.Thread(target=consume, args=(self.connect(node=node),)) for node in nodes]
        for thread in threads:
            thread.start()
        for index in range(1, rounds + 1):
            time.sleep(0.01)
            self.store.put(bytes([index]) * 4, self.object_id(index))
        for thread in threads:
            thread.join(PATIENCE)
        self.assertEqual(faults, [])
        self.assertFalse(any(item.state is State.FETCHING for item in self.store.list()[0]))

    def test_consumers_at_the_same_node(self) -> None:
        self.race([0, 0, 0])

    def test_consumers_at_both_nodes(self) -> None:
        self.race([0, 1])


class Several(Waiting):
    def test_so_many_are_waited_for(self) -> None:
        ids = [self.object_id(index) for index in range(1, 5)]
        self.other.put(b"abcd", ids[2])
        self.later(lambda: self.far.put(b"abcd", ids[0]))
        here, others = self.store.wait(ids, 2, PATIENCE)
        self.assertEqual((here, others), ([ids[0], ids[2]], [ids[1], ids[3]]))
        self.assertEqual(self.store.wait(ids, 3, 0.1), (here, others))
        # and none is held by that
        for id in here:
            self.store.delete(id)
        self.assertEqual(self.copies(self.store), 0)

    def test_what_can_never_be_had_is_not_waited_for(self) -> None:
        self.store.end_task(self.task)
        self.assertEqual(self.store.wait([self.object_id()], timeout=PATIENCE), ([self.object_id()], []))
        with self.assertRaises(store_client.Gone):
            self.store.get(self.object_id(), timeout=PATIENCE)

    def test_wrong_arguments(self) -> None:
        with self.assertRaisesRegex(ValueError, "stands twice"):
            self.store.wait([self.object_id(), self.object_id()])
        with self.assertRaisesRegex(ValueError, "how many are waited for is 1 to 1, not 2"):
            self.store.wait([self.object_id()], 2)
        self.assertEqual(self.store.wait([]), ([], []))

    def test_what_is_contained(self) -> None:
        self.assertFalse(self.store.contains(self.object_id()))
        self.store.create(self.object_id(), 4)
        self.assertFalse(self.store.contains(self.object_id()))
        self.store.seal(self.object_id())
        self.assertTrue(self.store.contains(self.object_id()))
        self.assertFalse(self.far.contains(self.object_id()))
        self.store.hold(self.object_id())
        self.assertTrue(self.store.contains(self.object_id()))
        self.assertEqual((self.copies(self.store), self.copies(self.far)), (1, 0))


class Many(Waiting):
    """Of many that wait in one process one asks for all."""

    def waiting(self, pool: store_client.Pool, ids: List[ObjectId], seen: List[ObjectId], timeout: float) -> List[threading.Thread]:
        return self.waiting_at([pool] * len(ids), ids, seen, timeout)

    def waiting_at(
        self, stores: Sequence[Union[store_client.Pool, store_client.Connection]], ids: List[ObjectId], seen: List[ObjectId], timeout: float
    ) -> List[threading.Thread]:
        """A thread for each of the ids, which waits for it by the store that has its place."""
        def consume(store: Union[store_client.Pool, store_client.Connection], id: ObjectId) -> None:
            with contextlib.suppress(Absent):
                store.get(id, timeout).release()
                seen.append(id)

        threads = [threading.Thread(target=consume, args=both) for both in zip(stores, ids)]
        for thread in threads:
            thread.start()
            self.addCleanup(thread.join)
        return threads

    def test_threads_of_a_pool_ask_seldom_and_a_list_tells_them(self) -> None:
        self.ask_seldom([self.connect_pool()] * 30)

    def test_connections_of_a_process_ask_seldom_and_a_list_tells_them(self) -> None:
        self.ask_seldom([self.connect() for _ in range(30)])

    def ask_seldom(self, stores: Sequence[Union[store_client.Pool, store_client.Connection]]) -> None:
        asked: List[Command] = []
        exchange = Stream.exchange

        def counted(stream: Stream, requests: Any, end: Any) -> Any:
            asked.extend(request.command for request in requests)
            return exchange(stream, requests, end)

        seen: List[ObjectId] = []
        ids = [self.object_id(index) for index in range(1, len(stores) + 1)]
        threads = self.waiting_at(stores, ids, seen, PATIENCE)
        time.sleep(3)
        began = time.monotonic()
        with mock.patch.object(Stream, "exchange", counted):
            time.sleep(2)
            until(lambda: asked.count(Command.LIST) > 4, "one asks for all", PATIENCE)
        # each by itself would ask some 15 times in two seconds, by two Gets
        self.assertLess(asked.count(Command.GET) / (time.monotonic() - began), len(stores) * 5)
        for id in ids:
            self.other.put(b"abcd", id)
        for thread in threads:
            thread.join(PATIENCE)
        self.assertEqual(sorted(seen), ids)
        board = stores[0]._requests.board
        self.assertEqual((len(board.waits), board._leader), (0, None))

    def test_a_process_that_is_forked_off_waits_for_nothing(self) -> None:
        """Those who wait are its parent's, and none of them would lead."""
        pool, seen = self.connect_pool(), [self.object_id(9)][:0]
        threads = self.waiting(pool, [self.object_id(index) for index in range(1, 9)], seen, PATIENCE)
        until(lambda: len(pool._requests.board.waits) == 8, "all wait", PATIENCE)

        def work() -> str:
            with self.server.connect() as store:
                waiting = len(pool._requests.board.waits), len(store._requests.board.waits)
                with self.assertRaises(Absent):
                    pool.get(self.object_id(9), 0.1)
                return str((*waiting, pool._requests.board is store._requests.board))

        self.assertEqual(in_child(work), "(0, 0, True)")
        for index in range(1, 9):
            self.other.put(b"abcd", self.object_id(index))
        for thread in threads:
            thread.join(PATIENCE)
        self.assertEqual(len(seen), 8)

    def test_other_jobs_and_nodes_are_waited_for_apart(self) -> None:
        board = self.store._requests.board
        self.assertIs(self.other._requests.board, board)
        self.assertIs(self.connect_pool()._requests.board, board)
        for store in (self.far, self.connect(2)):
            self.assertIsNot(store._requests.board, board)

    def test_a_long_wait_costs_little(self) -> None:
        """Some 0.05 percent of a processor for each were measured, and 0.17 if each asks by itself."""
        waits = self.waiting(self.connect_pool(), [self.object_id(index) for index in range(1, 101)], [], 7)
        time.sleep(3)
        began, used = time.monotonic(), time.process_time()
        time.sleep(3)
        part = (time.process_time() - used) / (time.monotonic() - began) / len(waits)
        self.assertLess(part, 0.001)

    def test_who_leads_hands_that_on(self) -> None:
        """The one that began last is served first, then the others, also what is at another node or granted."""
        pool = self.connect_pool()
        seen: List[ObjectId] = []
        ids = [self.object_id(index) for index in range(1, 8)]
        foreign = self.task.object(1, job=2)
        with self.connect(2) as other:
            other.put(b"abcd", foreign)
            threads = self.waiting(pool, [foreign, *ids], seen, PATIENCE)
            time.sleep(0.1)
            for id in (*reversed(ids[3:]), *ids[:2]):
                self.other.put(b"abcd", id)
                until(lambda: id in seen, f"{id}", PATIENCE)
            self.far.put(b"abcd", ids[2])
            until(lambda: ids[2] in seen, "what is at another node", PATIENCE)
            other.grant(foreign, 1)
            until(lambda: foreign in seen, "what is granted", PATIENCE)
            other.end_task(self.task)
        for thread in threads:
            thread.join(PATIENCE)

    def test_the_time_of_each_is_over(self) -> None:
        pool = self.connect_pool()
        seen: List[ObjectId] = []
        began = time.monotonic()
        for thread in self.waiting(pool, [self.object_id(index) for index in range(1, 21)], seen, 0.5):
            thread.join(PATIENCE)
        self.assertGreaterEqual(time.monotonic() - began, 0.5)
        self.assertEqual((seen, self.copies(self.store)), ([], 0))


class Rivals(ServerOfAll):
    """Two sessions of job 3 get what is on the device. There is room for one object: the look of one takes away what has come for the other."""

    def setUp(self) -> None:
        self.stores = [self.connect(3), self.connect(3)]
        self.ids = [store.put(bytes(144)) for store in self.stores]
        self.now = 0.0

    def rest_of(self, number: int, search: finding.Search, get: Steps[None]) -> Optional[float]:
        """Goes on with one get up to its next pause, which is so long. None if it has got the object; then that is let go."""
        # the device does between two looks all that it was asked for, and nothing in their midst
        until(lambda: not self.stores[number].usage().works, "the device has done it", PATIENCE)
        with device_at_rest(self.server):
            effect = go_on(get)
            while isinstance(effect, Ask):
                effect = go_on(get, self.stores[number]._exchange(effect.requests, None, effect.last))
        if isinstance(effect, Rest):
            return effect.seconds
        self.assertIsNone(search.refusal)
        self.stores[number].release(search.id)
        return None

    def seconds_of(self, find: Callable[[Requests, finding.Search], Steps[None]]) -> float:
        """How long it takes until both have got theirs, by a clock that goes on in pauses alone. One begins in the first pause of the other."""
        began, due = self.now, [(self.now, 0), (self.now + 0.0005, 1)]
        searches = [finding.Search(store._requests, id) for store, id in zip(self.stores, self.ids)]
        gets = [find(store._requests, search) for store, search in zip(self.stores, searches)]
        while due and self.now < began + 5:
            self.now, number = heapq.heappop(due)
            rest = self.rest_of(number, searches[number], gets[number])
            if rest is not None:
                heapq.heappush(due, (self.now + rest, number))
        return self.now - began

    def test_both_get_it_soon(self) -> None:
        def find(requests: Requests, search: finding.Search) -> Steps[None]:
            return finding.find(requests, [search], 1, steps.Deadline(1000))

        clock = mock.Mock(monotonic=lambda: self.now)
        for one in (finding.find_what_is_there, find):
            for lots in range(10):
                # which takes the room of both
                other = self.stores[0].put(bytes(144))
                with self.subTest(one=one, lots=lots), mock.patch.object(random, "random", random.Random(lots).random):
                    with mock.patch.object(steps, "time", clock), mock.patch.object(finding, "time", clock):
                        self.assertLess(self.seconds_of(one), 0.5)
                self.stores[0].delete(other)


class Pause(unittest.TestCase):
    def test_it_is_a_small_part_of_what_was_waited(self) -> None:
        now = 100.0
        with mock.patch.object(time, "monotonic", lambda: now):
            pauses = steps.Pauses(steps.Deadline(None))
            lengths = []
            for now in (100.0, 100.01, 100.32, 101.0, 110.0):
                lengths.append(round(pauses.length, 3))
            pauses.restart()
            self.assertEqual((lengths, pauses.length), ([0.001, 0.001, 0.01, 0.031, 0.2], 0.001))
            self.assertAlmostEqual(steps.Pauses(steps.Deadline(0.0005)).next().seconds, 0.0005)

    def test_of_what_is_on_its_way_it_is_drawn_by_lot(self) -> None:
        now = 100.0
        with mock.patch.object(time, "monotonic", lambda: now):
            pauses = steps.Pauses(steps.Deadline(None))
            now = 110.0
            self.assertEqual([pauses.next().seconds for _ in range(3)], [0.2] * 3)
            pauses.is_moving = True
            lots = [pauses.next().seconds for _ in range(1000)]
            pauses.is_restored = True
            shorter = [pauses.next().seconds for _ in range(1000)]
        for longest, drawn in ((0.2, lots), (0.02, shorter)):
            self.assertTrue(all(0 <= seconds <= longest for seconds in drawn))
            self.assertLess(min(drawn), longest / 10)
            self.assertGreater(max(drawn), longest * 9 / 10)

    def test_who_is_told_of_most_looks_a_second_apart_at_most(self) -> None:
        now = 100.0
        with mock.patch.object(time, "monotonic", lambda: now):
            pauses = steps.Pauses(steps.Deadline(None))
            pauses.is_told = True
            lengths = []
            for now in (100.32, 101.0, 110.0, 1000.0):
                lengths.append((round(pauses.length, 3), round(pauses.length_far, 3)))
            self.assertEqual(lengths, [(0.01, 0.08), (0.031, 0.25), (0.312, 1.6), (1.0, 1.6)])


class Again(unittest.TestCase):
    """Two Gets that are sent again and again, at a server that plays a part."""

    ABSENT = frame(Reply.REFUSED, bytes([Absent.number]))
    FULL = frame(Reply.REFUSED, bytes([store_client.Full.number]))
    GOT = frame(Reply.GOT, numbers(5))

    def answers(self, *replies: bytes) -> List[List[Answer]]:
        """The answers to the Gets, as often as there are replies to two."""
        script = Script([frame(Reply.OK), *replies])
        self.addCleanup(script.close)
        with store_client.connect(script.path, 1, bytes(32), PATIENCE) as store:
            gets = Repeated(2 * [store._requests.get(ObjectId(Task.numbered(1), 1, 1))])
            found = [store._exchange(gets, time.monotonic() + PATIENCE) for _ in range(len(replies) // 2)]
        self.assertEqual(len(script.sent), 1 + len(replies))
        return found

    def test_the_same_refusals_are_the_same_objects(self) -> None:
        first, second = self.answers(b"", 2 * self.ABSENT, b"", 2 * self.ABSENT)
        self.assertTrue(all(isinstance(answer, Absent) for answer in first))
        self.assertEqual([*map(id, first)], [*map(id, second)])

    def test_others_are_told(self) -> None:
        found = self.answers(b"", 2 * self.ABSENT, b"", self.FULL + self.ABSENT, b"", self.ABSENT + self.GOT, b"", 2 * self.GOT)
        words = [[type(answer).__name__ for answer in answers] for answers in found]
        self.assertEqual(words, [["Absent", "Absent"], ["Full", "Absent"], ["Absent", "int"], ["int", "int"]])

    def test_those_that_come_in_pieces(self) -> None:
        for answers in self.answers(*6 * [self.ABSENT]):
            self.assertEqual([type(answer) for answer in answers], [Absent, Absent])

    def test_more_than_was_asked_for(self) -> None:
        with self.assertRaisesRegex(store_client.ProtocolError, "more came"):
            self.answers(b"", 2 * self.ABSENT, b"", 3 * self.ABSENT)

    def test_a_server_that_is_gone(self) -> None:
        # a Get by itself comes first
        script = Script([frame(Reply.OK), self.ABSENT, b"", 2 * self.ABSENT, b"", 2 * self.ABSENT])
        self.addCleanup(script.close)
        with store_client.connect(script.path, 1, bytes(32), PATIENCE) as store:
            with self.assertRaises(store_client.ConnectionLost):
                store.get(ObjectId(Task.numbered(1), 1, 1), PATIENCE)


class GrantedObjects(Waiting):
    def test_it_is_got_whole_once_it_is_granted(self) -> None:
        data = os.urandom(70_000)
        self.store.put(data, self.object_id())
        grantee = self.connect(2)
        with self.assertRaises(NotGranted):
            grantee.get(self.object_id())
        self.assertFalse(grantee.contains(self.object_id()))
        self.later(lambda: self.store.grant(self.object_id(), 2))
        self.assertEqual(grantee.wait([self.object_id()], timeout=PATIENCE), ([self.object_id()], []))
        self.assertTrue(grantee.contains(self.object_id()))
        for timeout in (None, 0.0, 1.0):
            with grantee.get(self.object_id(), timeout) as view:
                self.assertEqual(view, data)
        self.assertEqual(grantee.usage().copies, 0)
        self.store.withdraw(self.object_id(), 2)
        with self.assertRaises(NotGranted):
            grantee.get(self.object_id(), timeout=0.1)


class RoundTrips(unittest.TestCase):
    """How often a call waits for the server, counted where the requests are sent."""

    def test_they_are_few(self) -> None:
        server = Server()
        self.addCleanup(server.close)
        with server.connect() as store:
            exchanges: List[List[Command]] = []
            exchange = store._stream.exchange

            def counted(requests: Sequence[Request[Any]], end: Optional[float]) -> List[Answer]:
                exchanges.append([request.command for request in requests])
                return exchange(requests, end)

            patch = mock.patch.object(store._stream, "exchange", counted)
            patch.start()
            self.addCleanup(patch.stop)
            id = store.put(bytes(100_000))
            self.assertEqual(exchanges, [[Command.CREATE, Command.WRITE, Command.WRITE, Command.SEAL]])
            exchanges.clear()
            held = store.get(id)
            self.assertEqual(exchanges, [[Command.GET], [Command.READ, Command.READ]])
            held.release()
