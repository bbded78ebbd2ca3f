"""How often a get of a small object goes to the server and back, and what becomes of its hold."""

from __future__ import annotations

import asyncio
import contextlib
import os
import unittest
from typing import Any, Callable, Coroutine, Iterator, List, Optional
from unittest import mock

from support import Script, Server, WithServer, key

from store_client import Absent, NotSealed, aio, connect
from store_client.frames import Command
from store_client.stream import Stream

GET, READ, RELEASE = Command.GET, Command.READ, Command.RELEASE
ONE_TRIP = [[GET, READ, RELEASE]]


@contextlib.contextmanager
def trips() -> Iterator[List[List[Command]]]:
    """The commands that go together, as connections send them."""
    exchange, sent = Stream.exchange, []

    def counted(stream: Stream, requests: Any, end: Any) -> Any:
        if requests:
            sent.append([request.command for request in requests])
        return exchange(stream, requests, end)

    with mock.patch.object(Stream, "exchange", counted):
        yield sent


class Trips(WithServer):
    def put(self, data: bytes, index: int = 1) -> Any:
        return self.store.put(data, self.object_id(index))

    def got_into(self, length: int, timeout: Optional[float] = None) -> bytes:
        buffer = bytearray(length)
        self.store.get_into(self.object_id(), buffer, timeout)
        return bytes(buffer)

    def is_held(self) -> bool:
        """Whether a copy that was deleted is still held."""
        self.store.delete(self.object_id())
        return self.store.usage().copies > 0

    def test_an_object_of_a_known_length_comes_in_one_trip(self) -> None:
        for length, timeout in ((1, None), (1000, 5.0), (65_536, None)):
            data = os.urandom(length)
            self.put(data)
            with trips() as sent:
                self.assertEqual(self.got_into(length, timeout), data)
            self.assertEqual(sent, ONE_TRIP)
            self.assertFalse(self.is_held())

    def test_a_longer_one_comes_in_two(self) -> None:
        data = os.urandom(65_537)
        self.put(data)
        with trips() as sent:
            self.assertEqual(self.got_into(65_537), data)
        self.assertEqual(sent, [[GET], [READ, READ, RELEASE]])
        self.assertFalse(self.is_held())

    def test_one_of_another_length_leaves_the_buffer_as_it_was(self) -> None:
        self.put(b"abcdef")
        for length in (4, 8):
            buffer = bytearray(length)
            with trips() as sent, self.assertRaisesRegex(ValueError, f"another length than the buffer, which takes {length} bytes"):
                self.store.get_into(self.object_id(), buffer)
            self.assertEqual((sent, buffer), (ONE_TRIP, bytes(length)))
        self.assertFalse(self.is_held())

    def test_another_hold_is_never_given_up(self) -> None:
        """A Get that is refused isn't followed by a Release, which would be of that hold."""
        self.put(b"abcd")
        with self.store.get(self.object_id()):
            with trips() as sent:
                self.assertEqual(self.got_into(4), b"abcd")
            self.assertEqual(sent, [[GET, READ], [RELEASE]])
            self.assertTrue(self.is_held())
            with self.assertRaises(Absent):
                self.got_into(4)
            self.assertEqual(self.store.read(self.object_id(), 0, 4), b"abcd")
        self.assertEqual(self.store.usage().copies, 0)

    def test_what_was_held_once_is_no_hindrance(self) -> None:
        self.put(b"abcd")
        self.store.hold(self.object_id())
        self.store.leave()
        held = self.store.get(self.object_id())
        held.release()
        with trips() as sent:
            self.got_into(4)
        self.assertEqual(sent, ONE_TRIP)

    def test_what_isn_t_there_is_refused_as_ever(self) -> None:
        with self.assertRaises(Absent):
            self.got_into(4)
        self.assertEqual(self.store.usage().copies, 0)
        self.store.create(self.object_id(), 4)
        for timeout in (None, 0.05):
            with self.assertRaises(NotSealed):
                self.got_into(4, timeout)
        self.store.delete(self.object_id())

    def test_the_length_that_two_had_is_likely_that_of_the_next(self) -> None:
        ids = [self.put(os.urandom(1000), index) for index in range(1, 5)]
        longer, shorter = self.put(bytes(1001), 5), self.put(bytes(999), 6)
        for id in ids[:2]:
            self.store.get(id).release()
        with trips() as sent:
            self.store.get(ids[2]).release()
            self.assertEqual(sent, [[GET, READ], [RELEASE]])
            for id, length in ((longer, 1001), (shorter, 999)):
                for known in ids[2:]:
                    self.store.get(known).release()
                with self.store.get(id) as view:
                    self.assertEqual(bytes(view), bytes(length))
        for index in range(1, 7):
            self.store.delete(self.object_id(index))
        self.assertEqual(self.store.usage().copies, 0)

    def test_values_of_one_length_come_in_one_trip_each(self) -> None:
        ids = [self.store.put_value(bytes([number]) * 100) for number in range(4)]
        other = self.store.put_value(bytes(50))
        for id in ids[:2]:
            self.store.get_value(id)
        with trips() as sent:
            self.assertEqual(self.store.get_value(ids[2], timeout=5), bytes([2]) * 100)
            self.assertEqual(sent, ONE_TRIP)
            # of another length the hold was given up with the guess
            sent.clear()
            self.assertEqual(self.store.get_value(other), bytes(50))
            self.assertEqual(sent, [*ONE_TRIP, [GET], [READ, RELEASE]])
        for id in (*ids, other):
            self.store.delete(id)
        self.assertEqual(self.store.usage().copies, 0)


class Gone(unittest.TestCase):
    def test_what_is_deleted_after_a_wrong_guess_is_absent(self) -> None:
        """The hold was given up with the guess, and the next Get finds nothing."""
        replies = ("0000000180", "000000058200000006", "000000028f08", "0000000180", "000000028f04")
        script = Script([bytes.fromhex(reply) for reply in replies])
        self.addCleanup(script.close)
        with connect(script.path, 1, key(1)) as store:
            for _ in range(2):
                store._requests.lengths.note(100)
            with self.assertRaises(Absent):
                store.get_value(store.task(1).object(1))


class CoroutinesTrips(unittest.IsolatedAsyncioTestCase):
    server: Server

    @classmethod
    def setUpClass(cls) -> None:
        cls.server = Server()
        cls.addClassCleanup(cls.server.close)

    async def asyncSetUp(self) -> None:
        self.store = await aio.connect(self.server.path, 1, key(1))
        self.addAsyncCleanup(self.store.close)
        self.one = await self.store.put(b"abcd")

    async def got_into(self) -> bytes:
        buffer = bytearray(4)
        await self.store.get_into(self.one, buffer)
        return bytes(buffer)

    async def test_many_at_once(self) -> None:
        """What is on its way counts as held."""
        self.assertEqual(await asyncio.gather(*(self.got_into() for _ in range(20))), [b"abcd"] * 20)
        await self.store.delete(self.one)
        self.assertEqual((await self.store.usage()).copies, 0)

    async def test_another_hold_is_never_given_up(self) -> None:
        async with await self.store.get(self.one):
            self.assertEqual(await self.got_into(), b"abcd")
            await self.store.delete(self.one)
            with self.assertRaises(Absent):
                await self.got_into()
            self.assertEqual(await self.store.read(self.one, 0, 4), b"abcd")
        self.assertEqual((await self.store.usage()).copies, 0)

    async def test_one_that_is_cancelled_gives_its_hold_up_once(self) -> None:
        gets: List[Callable[[], Coroutine[Any, Any, Any]]] = [self.got_into, lambda: self.store.get(self.one)]
        for get in 5 * gets:
            getting = asyncio.ensure_future(get())
            await asyncio.sleep(0)
            # the hold of another call comes after it
            holding = asyncio.ensure_future(self.store.get(self.one))
            await asyncio.sleep(0)
            getting.cancel()
            with self.assertRaises(asyncio.CancelledError):
                await getting
            held = await holding
            self.assertEqual(await self.store.read(self.one, 0, 4), b"abcd")
            await held.release()
        await self.store.delete(self.one)
        self.assertEqual((await self.store.usage()).copies, 0)
