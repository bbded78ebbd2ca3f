#!/usr/bin/env python3
"""Many coroutines on one connection wait for objects that another one puts later, in whatever order.

In the top folder:

    $ examples/waiting.py
"""

from __future__ import annotations

import asyncio
import random

from serving import KEYS, served

from store_client import Task, aio

CONSUMERS = 20


async def consume(store: aio.Connection, index: int) -> int:
    """Waits for an object whose id was agreed on, and reads the number in it."""
    async with await store.get(Task.numbered(1).object(index, job=1), timeout=30) as view:
        return int.from_bytes(view, "big")


async def produce(store: aio.Connection) -> None:
    """Puts all of them, mixed up."""
    for index in random.sample(range(1, CONSUMERS + 1), CONSUMERS):
        await store.put((index * index).to_bytes(4, "big"), Task.numbered(1).object(index, job=1))


async def run(path: str) -> None:
    """The consumers come first."""
    async with await aio.connect(path, 1, KEYS[1]) as store:
        waiting = [asyncio.ensure_future(consume(store, index)) for index in range(1, CONSUMERS + 1)]
        await asyncio.sleep(0.1)
        await produce(store)
        print(f"the squares of 1 to {CONSUMERS} add up to {sum(await asyncio.gather(*waiting))}")


def main() -> None:
    """A server, and a loop."""
    with served() as path:
        asyncio.run(run(path))


if __name__ == "__main__":
    main()
