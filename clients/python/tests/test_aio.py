"""The calls as coroutines: many of them on one loop and one connection."""

from __future__ import annotations

import asyncio
import gc
import os
import time
import unittest
from typing import Any, List

from support import PATIENCE, Script, Server, in_child, key, own_grace

import store_client
from store_client import Absent, ConnectionLost, ServerSilent, Task, aio

OK = bytes.fromhex("0000000180")


class Coroutines(unittest.IsolatedAsyncioTestCase):
    server: Server

    @classmethod
    def setUpClass(cls) -> None:
        cls.server = Server(nodes=2)
        cls.addClassCleanup(cls.server.close)
        cls.server.admit(0, 4, 2**14, 2**20)

    async def asyncSetUp(self) -> None:
        self.store = await self.connect()
        self.task = Task(os.urandom(20))

    async def connect(self, job: int = 1, node: int = 0) -> aio.Connection:
        store = await aio.connect(f"{self.server.folder.name}/store.{node}", job, key(job))
        self.addAsyncCleanup(store.close)
        return store

    async def comes_to(self, due: store_client.Usage) -> None:
        """What a cancelled call did is undone as its answers come."""
        end = time.monotonic() + PATIENCE
        while (now := await self.store.usage()) != due and time.monotonic() < end:
            await asyncio.sleep(0.01)
        self.assertEqual(now, due)

    def object_id(self, index: int = 1, job: int = 1) -> store_client.ObjectId:
        return self.task.object(index, job=job)

    async def test_bytes_come_back(self) -> None:
        for data in (b"abcd", os.urandom(150_000), bytearray(b"abcd"), memoryview(b"abcdef")[::2]):
            id = await self.store.put(data)
            async with await self.store.get(id) as view:
                self.assertEqual(view, memoryview(bytes(data)))
                self.assertTrue(view.readonly)
            await self.store.delete(id)

    async def test_bytes_come_into_a_buffer(self) -> None:
        id, buffer = await self.store.put(b"abcd", kind=store_client.Kind.SECONDARY), bytearray(4)
        await self.store.get_into(id, buffer)
        self.assertEqual(buffer, b"abcd")
        with self.assertRaisesRegex(ValueError, "another length"):
            await self.store.get_into(id, bytearray(5))

    async def test_a_whole_session(self) -> None:
        store, one = self.store, self.object_id()
        self.assertEqual(repr(store), "<aio.Connection of job 1>")
        self.assertEqual((await store.create(one, 4)).length, 16)
        await store.write(one, 0, b"abcd")
        await store.seal(one)
        self.assertEqual(await store.hold(one), 4)
        self.assertEqual(await store.read(one, 1, 2), b"bc")
        await store.release(one)
        other = await self.connect(2)
        await store.grant(one, 2)
        self.assertEqual(await other.peek(one, 0, 4), b"abcd")
        async with await other.get(one) as view:
            self.assertEqual(bytes(view), b"abcd")
        await store.withdraw(one, 2)
        await store.borrow(one, Task.numbered(5))
        await store.give_up(one, Task.numbered(5))
        await store.leave()
        self.assertTrue(await store.contains(one))
        self.assertIn(one, [item.id for item in (await store.list())[0]])
        await store.end_task(self.task)
        with self.assertRaisesRegex(store_client.Gone, "get"):
            await store.hold(one)
        self.assertEqual((await other.usage()).copies, 0)

    async def test_many_wait_on_one_connection(self) -> None:
        """More than fifty consumers come first, and the producer is of the same connection."""

        async def consume(index: int) -> bytes:
            async with await self.store.get(self.object_id(index), timeout=PATIENCE) as view:
                return bytes(view)

        waiting = [asyncio.ensure_future(consume(index)) for index in range(1, 61)]
        await asyncio.sleep(0.05)
        await asyncio.gather(*(self.store.put(bytes([index]), self.object_id(index)) for index in range(1, 61)))
        self.assertEqual(await asyncio.gather(*waiting), [bytes([index]) for index in range(1, 61)])
        here, others = await self.store.wait([self.object_id(1), self.object_id(99)], 2, timeout=0.05)
        self.assertEqual((here, others), ([self.object_id(1)], [self.object_id(99)]))

    async def test_what_another_node_has(self) -> None:
        far = await self.connect(node=1)
        await far.put(bytes(100_000), self.object_id())
        async with await self.store.get(self.object_id()) as view:
            self.assertEqual(view, bytes(100_000))

    async def test_values(self) -> None:
        store = await self.connect(4)
        value = {"a": os.urandom(20_000), "b": [1, 2]}
        id = await store.put_value(value)
        self.assertGreater((await store.usage()).copies, 3)
        self.assertEqual(await store.get_value(id), value)
        await store.delete_value(id)
        self.assertEqual((await store.usage()).copies, 0)

    async def test_a_refusal_is_raised_where_it_belongs(self) -> None:
        told = await asyncio.gather(
            *(self.store.seal(self.object_id(index)) for index in range(1, 4)), self.store.usage(), return_exceptions=True
        )
        self.assertEqual([str(getattr(error, "id", "")) for error in told], [str(self.object_id(index)) for index in range(1, 4)] + [""])
        with self.assertRaises(Absent):
            await self.store.get(self.object_id(), timeout=0.05)
        with self.assertRaises(TypeError):
            await self.store.get("t1.1")  # type: ignore[arg-type]  # that it is refused is tried

    async def test_a_cancelled_call_leaves_the_connection_as_it_is(self) -> None:
        before = await self.store.usage()
        for pause in (0, 0, 0.001, 0.005, 0.02):
            for call in (self.store.put(bytes(70_000)), self.store.get(self.object_id(), timeout=PATIENCE)):
                running = asyncio.ensure_future(call)
                await asyncio.sleep(pause)
                running.cancel()
                with self.assertRaises(asyncio.CancelledError):
                    put = await running
                    # it was faster
                    assert isinstance(put, store_client.ObjectId)
                    await self.store.delete(put)
                    raise asyncio.CancelledError
        await self.comes_to(before)

    async def test_a_cancelled_look_leaves_neither_a_hold_nor_a_fetch(self) -> None:
        await self.store.put(b"abcd", self.object_id(1))
        before = await self.store.usage()
        for turns in range(12):
            for index in (1, 2):
                running = asyncio.ensure_future(self.store.get(self.object_id(index), timeout=PATIENCE))
                for _ in range(turns):
                    await asyncio.sleep(0)
                await asyncio.sleep(0.002 * (turns // 6))
                running.cancel()
                held = (await asyncio.gather(running, return_exceptions=True))[0]
                if isinstance(held, aio.Held):
                    await held.release()
        await self.comes_to(before)
        await self.store.delete(self.object_id(1))
        self.assertEqual((await self.store.usage()).copies, before.copies - 1)

    async def test_a_cancelled_wait_holds_nothing(self) -> None:
        await self.store.put(b"abcd", self.object_id(1))
        before = await self.store.usage()
        running = asyncio.ensure_future(self.store.wait([self.object_id(1), self.object_id(2)], 2, PATIENCE))
        await asyncio.sleep(0.3)
        running.cancel()
        with self.assertRaises(asyncio.CancelledError):
            await running
        await self.comes_to(before)
        await self.store.delete(self.object_id(1))
        self.assertEqual((await self.store.usage()).copies, before.copies - 1)

    async def test_a_cancelled_create_is_undone(self) -> None:
        for turns in range(5):
            running = asyncio.ensure_future(self.store.create(self.object_id(), 4))
            for _ in range(turns):
                await asyncio.sleep(0)
            running.cancel()
            if not isinstance((await asyncio.gather(running, return_exceptions=True))[0], asyncio.CancelledError):
                await self.store.delete(self.object_id())
            end = time.monotonic() + PATIENCE
            while await self.store.list() != ([], []) and time.monotonic() < end:
                await asyncio.sleep(0.01)
            await self.store.create(self.object_id(), 4)
            await self.store.delete(self.object_id())

    async def test_a_hold_that_is_dropped_is_released_with_a_warning(self) -> None:
        await self.store.put(b"abcd", self.object_id())
        with self.assertWarns(ResourceWarning):
            await self.store.get(self.object_id())
            gc.collect()
        before = (await self.store.usage()).copies
        await self.store.delete(self.object_id())
        self.assertEqual((await self.store.usage()).copies, before - 1)

    async def test_the_block_s_own_error_is_told(self) -> None:
        store = await self.connect()
        await store.put(b"abcd", self.object_id())
        with self.assertRaises(KeyError):
            async with await store.get(self.object_id()):
                await store.close()
                raise KeyError("own")
        with self.assertRaisesRegex(ConnectionLost, "the connection is closed"):
            await store.usage()

    async def test_a_connection_is_its_own_process_s(self) -> None:
        async def new_id() -> store_client.ObjectId:
            return self.store.new_id()

        for call in (self.store.usage, new_id):
            self.assertIn(f"was opened in process {os.getpid()}", in_child(lambda call=call: asyncio.run(call())))
        await self.store.usage()

    async def test_who_is_not_admitted(self) -> None:
        with self.assertRaises(store_client.NotAdmitted):
            await aio.connect(self.server.path, 1, key(2))
        with self.assertRaises(ConnectionLost):
            await aio.connect("/nowhere", 1, key(2))


@own_grace
class Faults(unittest.IsolatedAsyncioTestCase):
    async def script(self, *replies: bytes, hang: bool = True) -> aio.Connection:
        script = Script([OK, *replies], hang)
        self.addCleanup(script.close)
        store = await aio.connect(script.path, 1, key(1))
        self.addAsyncCleanup(store.close)
        return store

    async def test_a_silent_server(self) -> None:
        one = Task.numbered(1).object(1, job=1)
        calls: List[Any] = [lambda store: store.get(one, timeout=0.1), lambda store: store.put(b"abcd", timeout=0.1)]
        for call in calls:
            store = await self.script()
            with self.assertRaises(ServerSilent):
                await call(store)
            with self.assertRaisesRegex(ConnectionLost, "didn't answer in time"):
                await store.usage()

    async def test_a_server_that_goes_away(self) -> None:
        store = await self.script(OK, hang=False)
        await store.leave()
        told = await asyncio.gather(store.usage(), store.list(), return_exceptions=True)
        self.assertEqual([type(error) for error in told], [ConnectionLost, ConnectionLost])
        self.assertRegex(repr(store), "^<aio.Connection of job 1: the connection was lost: ")

    async def test_what_is_no_reply(self) -> None:
        for digits in ("0000000080", "0000000199", "000000028f63", "0000000580" "00000000"):
            store = await self.script(bytes.fromhex(digits))
            with self.assertRaises(store_client.ProtocolError, msg=digits):
                await store.leave()
            with self.assertRaises(ConnectionLost):
                await store.leave()
