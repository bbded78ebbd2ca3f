"""Rows of bench/serve for Python values: an array of numpy by put_value and get_value, and by other ways between processes.

A put by the store is a put_value and the delete that makes room again; a get is a get_value, whose array is a view of what was
read. The other ways: a block of multiprocessing.shared_memory, made anew, that the array is copied into, and copied out of; a pickle
over a pipe of multiprocessing to a process that keeps the array, and gives it back; SET and GET of a pickle by redis-py, if it and
redis-server are there. What is missing is left out, and numpy has to be there. All ways take turns, and each keeps its best run.
"""

from __future__ import annotations

import contextlib
import importlib.util
import multiprocessing
import pickle
import time
from multiprocessing.connection import Connection
from multiprocessing.shared_memory import SharedMemory
from typing import TYPE_CHECKING, Callable, Dict, Iterator, NamedTuple, Optional, Tuple

import store_client

if TYPE_CHECKING:
    import numpy

ARRAY_BYTES = 1 << 24
# of the job that puts the arrays: one is there while the next is put
VALUES_WINDOW = 8 * ARRAY_BYTES
STORE, SHARED, PIPE, REDIS = "the store", "shared memory and a copy", "a pickle over a pipe", "redis-py"


class Way(NamedTuple):
    """How an array is put, and got again; what is put is there for all gets."""

    put: Callable[[], object]
    get: Callable[[], object]


# of each way the best seconds of a put and of a get
Best = Dict[str, Tuple[float, float]]


@contextlib.contextmanager
def by_store(array: numpy.ndarray, path: str, job: int, key: bytes) -> Iterator[Way]:
    """A pool's connections to a node."""
    with store_client.Pool(path, job, key) as pool:
        there = pool.put_value(array)

        def put() -> None:
            pool.delete_value(pool.put_value(array))

        yield Way(put, lambda: pool.get_value(there))
        pool.delete_value(there)


@contextlib.contextmanager
def by_shared_memory(array: numpy.ndarray) -> Iterator[Way]:
    """A block for each put, and one that is read."""
    import numpy

    def put_into(block: SharedMemory) -> SharedMemory:
        numpy.ndarray(array.shape, array.dtype, block.buf)[...] = array
        return block

    def put() -> None:
        block = put_into(SharedMemory(create=True, size=array.nbytes))
        block.close()
        block.unlink()

    def get() -> numpy.ndarray:
        block = SharedMemory(there.name)
        copied = numpy.ndarray(array.shape, array.dtype, block.buf).copy()
        block.close()
        return copied

    there = put_into(SharedMemory(create=True, size=array.nbytes))
    try:
        yield Way(put, get)
    finally:
        there.close()
        there.unlink()


def keep(line: Connection, other_end: Connection) -> None:
    """The other process: it keeps the array that comes, and gives it if it is asked by None, until the other end is closed."""
    other_end.close()
    kept = None
    with contextlib.suppress(EOFError):
        while True:
            told = line.recv()
            if told is None:
                line.send(kept)
            else:
                kept = told
                line.send(None)


@contextlib.contextmanager
def by_pipe(array: numpy.ndarray) -> Iterator[Way]:
    """A process that keeps the array."""
    line, its_line = multiprocessing.Pipe()
    process = multiprocessing.get_context("fork").Process(target=keep, args=(its_line, line), daemon=True)
    process.start()
    its_line.close()

    def put() -> None:
        line.send(array)
        line.recv()

    def get() -> object:
        line.send(None)
        return line.recv()

    try:
        put()
        yield Way(put, get)
    finally:
        line.close()
        process.join()


@contextlib.contextmanager
def by_redis(array: numpy.ndarray, path: str) -> Iterator[Way]:
    """A connection to a server that runs."""
    import redis

    with redis.Redis(unix_socket_path=path) as server:
        server.set("array", pickle.dumps(array, 5))
        yield Way(lambda: server.set("array", pickle.dumps(array, 5)), lambda: pickle.loads(server.get("array")))


def seconds_of(call: Callable[[], object]) -> float:
    began = time.monotonic()
    call()
    return time.monotonic() - began


def measure_values(path: str, job: int, key: bytes, redis_path: Optional[str], runs: int, size: int = ARRAY_BYTES) -> Best:
    """The best times of each way. What comes back is compared once."""
    import numpy

    array = numpy.random.default_rng(1).random(size // 8)
    best: Best = {}
    with contextlib.ExitStack() as stack:
        ways = {SHARED: by_shared_memory(array), PIPE: by_pipe(array), STORE: by_store(array, path, job, key)}
        if redis_path and importlib.util.find_spec("redis"):
            ways[REDIS] = by_redis(array, redis_path)
        ready = {name: stack.enter_context(way) for name, way in ways.items()}
        for name, way in ready.items():
            if not numpy.array_equal(way.get(), array):
                raise ValueError(f"{name} gave another array than was put")
        for _ in range(runs):
            for name, way in ready.items():
                put, get = seconds_of(way.put), seconds_of(way.get)
                best_put, best_get = best.get(name, (put, get))
                best[name] = min(put, best_put), min(get, best_get)
    return best


def print_values(best: Best, size: int = ARRAY_BYTES) -> None:
    """A row for each way; the last columns are the store's time to its."""
    print(f"\n| An array of {size:,} bytes by | put, ms | get, ms | the store's put to it | the store's get to it |")
    print("|---|---|---|---|---|")
    for name in sorted(best, key=lambda name: name != STORE):
        put, get = best[name]
        to_put, to_get = best[STORE][0] / put, best[STORE][1] / get
        print(f"| {name} | {1000 * put:,.1f} | {1000 * get:,.1f} | {to_put:.2f} | {to_get:.2f} |")
