#!/usr/bin/env python3
"""Arrays on their way through three processes: two of job 1, and one of job 2, which sees what it was granted and nothing else.

The first stores whole numbers. The second gets them, stores their squares, and grants these to job 2. The third, of job 2,
peeks at the squares and adds them up; of the numbers themselves it is told only that it wasn't granted them. In the top folder:

    $ examples/pipeline.py
"""

from __future__ import annotations

import array
import contextlib
import multiprocessing
from typing import Any, Iterator, Optional, Tuple

from serving import KEYS, served

import store_client
from store_client import NotGranted, ObjectId

ROUNDS = 3
NUMBERS = 100_000
# the ids of numbers and of their squares
Pair = Tuple[bytes, bytes]


@contextlib.contextmanager
def closing(queue: multiprocessing.Queue[Any]) -> Iterator[None]:
    """Tells the queue's reader by None that nothing more comes, whatever happens."""
    try:
        yield
    finally:
        queue.put(None)


def make_numbers(path: str, stored: multiprocessing.Queue[Optional[bytes]]) -> None:
    """Job 1: stores an array of whole numbers in each round, and tells of its id."""
    with closing(stored), store_client.connect(path, 1, KEYS[1]) as store:
        for turn in range(ROUNDS):
            numbers = array.array("q", range(turn * NUMBERS, (turn + 1) * NUMBERS))
            stored.put(store.put(numbers).to_bytes())


def make_squares(path: str, stored: multiprocessing.Queue[Optional[bytes]], granted: multiprocessing.Queue[Optional[Pair]]) -> None:
    """Job 1: gets each array, stores the squares of its numbers, and grants them to job 2."""
    with closing(granted), store_client.connect(path, 1, KEYS[1]) as store:
        for name in iter(stored.get, None):
            numbers = ObjectId.from_bytes(name)
            with store.get(numbers) as view:
                squares = store.put(array.array("q", (number * number for number in view.cast("q"))))
            store.grant(squares, 2)
            granted.put((name, squares.to_bytes()))


def add_up(path: str, granted: multiprocessing.Queue[Optional[Pair]], told: multiprocessing.Queue[Optional[str]]) -> None:
    """Job 2: gets what it was granted, and tries to peek at what it wasn't."""
    with closing(told), store_client.connect(path, 2, KEYS[2]) as store:
        for numbers, squares in iter(granted.get, None):
            with store.get(ObjectId.from_bytes(squares)) as view:
                total = sum(view.cast("q"))
            try:
                store.peek(ObjectId.from_bytes(numbers), 0, 1)
                refusal = "no refusal"
            except NotGranted as refused:
                refusal = f"refused {refused.number} {type(refused).__name__}"
            told.put(f"the squares add up to {total}; the numbers themselves: {refusal}")
        told.put(f"job 2 has {len(store.list()[0])} copies of its own, and {len(store.list()[1])} objects were granted to it")


def main() -> None:
    """Starts the server and the three processes, and prints what the last one tells."""
    with served() as path:
        stored: multiprocessing.Queue[Optional[bytes]] = multiprocessing.Queue()
        granted: multiprocessing.Queue[Optional[Pair]] = multiprocessing.Queue()
        told: multiprocessing.Queue[Optional[str]] = multiprocessing.Queue()
        processes = [
            multiprocessing.Process(target=make_numbers, args=(path, stored)),
            multiprocessing.Process(target=make_squares, args=(path, stored, granted)),
            multiprocessing.Process(target=add_up, args=(path, granted, told)),
        ]
        for process in processes:
            process.start()
        for line in iter(told.get, None):
            print(line)
        for process in processes:
            process.join()


if __name__ == "__main__":
    main()
