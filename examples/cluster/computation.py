"""The demo's computation: arrays of one to eight units pass through three layers of tasks, each of which combines two neighbours.

Each layer's tasks are plain functions of arrays; `stored` makes of one a task whose arrays go by the store. So plain Dask and
the store compute the same, bit for bit.
"""

from __future__ import annotations

import hashlib
import os
from typing import Any, Callable, Dict, List, Tuple

import numpy
from distributed import get_worker

from store_client import dask as store

# of the arrays of a layer, in units
SIZES = (1, 8, 2, 4, 1, 2, 1, 4)
LAYERS = 3
# so many numbers are combined at once, so that nothing but the result takes memory
_STEP = 1 << 16


def make(count: int, seed: int) -> Any:
    """The first layer: numbers drawn by lot."""
    return numpy.random.default_rng(seed).standard_normal(count)


def combine(left: Any, right: Any, extra: Any) -> Any:
    """A further layer: as long as the first, from both and from what the second job gave, which begin again if they are shorter."""
    made = numpy.empty_like(left)
    for start in range(0, len(left), _STEP):
        places = numpy.arange(start, min(start + _STEP, len(left)))
        made[places] = numpy.sin(left[places]) + right.take(places, mode="wrap") * extra.take(places, mode="wrap")
    return made


def describe(array: Any) -> Tuple[str, float]:
    """A digest of all bits, and the sum."""
    return hashlib.blake2b(array, digest_size=16).hexdigest(), float(array.sum())


def stored(work: Callable[..., Any], *words: Any) -> Any:
    """A task that does the work on the values of references. What it makes is put, if it is an array."""
    _note(work.__name__)
    values = [word.load(300.0) if isinstance(word, store.StoreRef) else word for word in words]
    made = work(*values)
    return store.put(made, timeout=300.0) if isinstance(made, numpy.ndarray) else made


def plain(work: Callable[..., Any], *words: Any) -> Any:
    """The same task as plain Dask has it."""
    return work(*words)


def granted(count: int, seed: int, job: int) -> store.StoreRef:
    """A task of the second job: numbers that it grants to the first."""
    ref = store.put(make(count, seed), with_key=False)
    ref.grant(job)
    return ref


def submit(client: Any, run: Callable[..., Any], unit: int, extra: Any) -> List[List[Any]]:
    """The futures of all layers, and last of what is said of the arrays of the last one."""
    layers = [[client.submit(run, make, size * unit // 8, seed, pure=False) for seed, size in enumerate(SIZES)]]
    for _ in range(LAYERS - 1):
        below = layers[-1]
        neighbours = [*below[1:], below[0]]
        layers.append([client.submit(run, combine, left, right, extra, pure=False) for left, right in zip(below, neighbours)])
    layers.append([client.submit(run, describe, array, pure=False) for array in layers[-1]])
    return layers


def _note(what: str) -> None:
    """One line more in the list of all tasks that were run."""
    with open(os.path.join(get_worker().local_directory, os.pardir, os.pardir, "ran"), "a", encoding="ascii") as file:
        file.write(f"{what}\n")


def ran(folder: Any) -> Dict[str, int]:
    """How often each sort of task was run."""
    lines = (folder / "ran").read_text(encoding="ascii").splitlines()
    return {name: lines.count(name) for name in ("make", "combine", "describe")}
