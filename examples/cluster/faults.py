"""Tasks for the tests: some put and load as a program's would, and some are stopped in the middle of it."""

from __future__ import annotations

import os
import time
from pathlib import Path
from typing import Any, Callable, Dict, List, Tuple

import numpy
from distributed import get_worker

from store_client import Kind
from store_client import dask as store
from store_client.dask.reference import digest_of

# how long a store that is away is waited for, if it is to come back, in seconds
LONG = 300.0


def numbers(count: int, seed: int) -> Any:
    """An array of so many numbers that can't be made shorter."""
    return numpy.random.default_rng(seed).standard_normal(count)


def put_numbers(count: int, seed: int, **words: Any) -> store.StoreRef:
    """Puts an array."""
    return store.put(numbers(count, seed), **words)


def put_mixed(count: int) -> store.StoreRef:
    """Puts a value of several arrays, and of what is none."""
    table = numpy.asfortranarray(numpy.arange(12, dtype="i4").reshape(3, 4))
    return store.put({"a": numbers(count, 1), "b": table, "c": "text", "d": bytearray(b"xyz"), "e": numpy.zeros(0)})


def total(ref: store.StoreRef, timeout: float = 60.0) -> float:
    """The sum of an array."""
    return float(ref.load(timeout).sum())


def patiently(work: Callable[..., Any], *words: Any) -> Any:
    """What the work gives, done by a worker that waits long for a store that is away."""
    plugin = _plugin()
    usual, plugin._patience = plugin._patience, LONG
    try:
        return work(*words)
    finally:
        plugin._patience = usual


def look(ref: store.StoreRef) -> Tuple[float, Any, str, bytes, bool]:
    """What the mixed value has."""
    value = ref.load()
    return float(value["a"].sum()), value["b"].flags.f_contiguous, value["c"], bytes(value["d"]), value["a"].flags.writeable


def change(ref: store.StoreRef) -> None:
    """Tries to write to what was loaded."""
    ref.load()[0] = 1


def loaded_in_time(ref: store.StoreRef) -> Tuple[str, float]:
    """What the load raises, and after how many seconds."""
    start = time.monotonic()
    try:
        ref.load()
    except Exception as error:  # pylint: disable=broad-except
        return f"{type(error).__name__}: {error}", time.monotonic() - start
    return "loaded", time.monotonic() - start


def hand_on(ref: store.StoreRef, keep: bool) -> List[store.StoreRef]:
    """Gives the reference in a result of its own."""
    if keep:
        ref.keep()
    return [ref]


def released(ref: store.StoreRef) -> None:
    """Releases the value in a task."""
    ref.release()


def granted(count: int, seed: int, job: int, wrapped: bool) -> store.StoreRef:
    """Puts an array, alone or in a list, and grants it."""
    value = numbers(count, seed)
    ref = store.put([value] if wrapped else value)
    ref.grant(job)
    return ref


def withdrawn(ref: store.StoreRef, job: int) -> None:
    """Ends a grant."""
    ref.withdraw(job)


def worker_name() -> str:
    """The worker that this is called in."""
    return str(get_worker().name)


def _plugin() -> Any:
    return get_worker().plugins["store"]


def die_fetching(ref: store.StoreRef) -> None:
    """The worker's process ends while it fetches a part."""

    async def part(*_: Any) -> bytes:
        os._exit(9)

    _plugin()._peers.part = part
    ref.load()


def die_writing(ref: store.StoreRef) -> None:
    """The worker's process ends when half of a copy is written."""
    host = _plugin()._store

    def put(id: Any, pieces: Any, kind: Kind, *_: Any) -> None:
        host.create(id, pieces.length, kind)
        host._pool(id).write(id, 0, pieces.views[0][: min(pieces.length // 2, 65_536)])
        os._exit(9)

    host.put = put
    ref.load()


def die_putting_once(count: int, seed: int, flag: str) -> store.StoreRef:
    """The first time, the worker's process ends when one part is put."""
    host = _plugin()._store
    original = host.put

    def put(*words: Any) -> None:
        original(*words)
        os._exit(9)

    try:
        Path(flag).touch(exist_ok=False)
        host.put = put
    except FileExistsError:
        pass
    return put_numbers(count, seed)


def write_late(ref: store.StoreRef, seconds: float) -> float:
    """Fetches, and waits so long before it writes each copy."""
    host = _plugin()._store
    original = host.put

    def put(*words: Any) -> None:
        time.sleep(seconds)
        original(*words)

    host.put = put
    try:
        return total(ref)
    finally:
        host.put = original


def states() -> Dict[str, List[str]]:
    """What the host of this worker has: the states of its copies, of each kind."""
    found: Dict[str, List[str]] = {kind.name: [] for kind in Kind}
    for pool in _plugin()._store._pools:
        for item in pool.list()[0]:
            found[item.kind.name].append(item.state.name)
    return found


def copies_are_right(ref: store.StoreRef) -> int:
    """Compares each sealed copy that this host has with the value's digests. How many there are."""
    plugin = _plugin()
    count = 0
    for part in ref.parts:
        for copy in plugin._store.sealed_copies_of(ref.name, part):
            with plugin._store._pool(copy).get(copy) as view:
                if digest_of(view) != ref.digests[part]:
                    raise AssertionError("a sealed copy has other bytes")
            count += 1
    return count
