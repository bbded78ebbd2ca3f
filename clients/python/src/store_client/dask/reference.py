"""References to values, and what they are made of."""

from __future__ import annotations

import hashlib
import sys
from dataclasses import dataclass, field
from typing import Any, Optional, Tuple

from distributed import default_client, get_worker

from ..encoding import decode_array, decode_value, encode_array, encode_value
from ..ids import ObjectId
from ..requests import Pieces
from .names import Name

# of a part's digest
DIGEST = 16
PLUGIN = "store"


@dataclass(frozen=True)
class StoreRef:
    """A value that lies in the store of a host, by parts; a small one lies in the reference itself. It can be pickled."""

    #: the Dask key of the task that put it
    key: str
    #: the host on which it was put, and the job whose it is
    host: str
    job: int
    #: what it is, in words
    about: str
    #: its length in bytes as it lies there
    length: int
    name: Name = field(repr=False)
    # how long a part is, and the digest of each
    part: int = field(repr=False)
    digests: Tuple[bytes, ...] = field(repr=False)
    # whether it is a pickle; otherwise an array in numpy's own format
    is_pickled: bool = field(repr=False)
    # all of it, if it is small
    inline: bytes = field(default=b"", repr=False)
    # the epoch of the store in which it was put, if the store has one
    store_epoch: Optional[str] = field(default=None, repr=False)

    def load(self, timeout: float = 60.0) -> Any:
        """The value; arrays in it are read-only views of one buffer. In a task, on any host; elsewhere by a task that is run for it.

        `ValueLost`, `HostUnknown`, or what a store refuses. A value of another job is an array: nothing of another job's is unpickled.
        """
        worker = in_worker()
        return worker.load(self, timeout) if worker else default_client().submit(_load, self, timeout, pure=False).result()

    def keep(self) -> None:
        """In a task whose result has the reference: the value stays until this task's key is released too."""
        _this_worker().keep(self)

    def release(self) -> None:
        """The value is removed at all hosts, whoever keeps it; what is granted, once its grants have ended."""
        worker = in_worker()
        if worker:
            worker.release(self)
        elif not self.inline:
            client = default_client()
            client.sync(client.scheduler.store_release, name=self.name.prefix)

    def grant(self, job: int) -> None:
        """In a task on the value's host: another job may load it there, with a reference that it is given."""
        _this_worker().grant(self, job)

    def withdraw(self, job: int) -> None:
        """In a task on the value's host: the other job may load it no longer."""
        _this_worker().withdraw(self, job)

    @property
    def digest(self) -> bytes:
        """32 bytes that are equal for equal values only."""
        return hashlib.blake2b(b"".join(self.digests) + self.inline, digest_size=32).digest()

    @property
    def parts(self) -> range:
        """The numbers of its parts."""
        return range(len(self.digests))

    def place(self, part: int) -> slice:
        """Where the part is in the whole."""
        return slice(part * self.part, min((part + 1) * self.part, self.length))

    def primary(self, part: int) -> ObjectId:
        """The object that the part was put as."""
        return self.name.primary(part, self.job)

    def decode(self, whole: memoryview, job: int) -> Any:
        """The value, for a reader of this job."""
        if not self.is_pickled:
            return decode_array(whole, self.about)
        if job != self.job:
            raise ValueError(f"{self.about} of job {self.job} is pickled: of another job only arrays are loaded")
        return decode_value(whole, self.about)

    def is_older_than(self, epoch: Optional[str]) -> bool:
        """Whether the store of its host, which has this epoch, is known to have been restarted since it was put."""
        return self.store_epoch is not None and epoch is not None and self.store_epoch != epoch

    def __sizeof__(self) -> int:
        return 500 + DIGEST * len(self.digests) + len(self.inline)

    def __dask_tokenize__(self) -> Tuple[bytes, bytes]:
        return self.name.prefix, self.digest


def put(value: Any, with_key: bool = True, timeout: float = 60.0) -> StoreRef:
    """In a task: stores any value that can be pickled in the store of this host. It takes the place of the value in the task's result.

    It stays until the task's key is released, or, if not `with_key`, until `release`. Waits for room for so many seconds;
    what the store refuses then is raised as it is.
    """
    ref: StoreRef = _this_worker().put(value, with_key, timeout)
    return ref


def digest_of(*views: Any) -> bytes:
    """The digest that a reference has of a part, whose bytes these are one after the other."""
    digest = hashlib.blake2b(digest_size=DIGEST)
    for view in views:
        digest.update(view)
    return digest.digest()


def encode(value: Any) -> Tuple[Pieces, bool]:
    """The value's bytes, and whether they are a pickle."""
    numpy = sys.modules.get("numpy")
    if numpy is not None and type(value) is numpy.ndarray and not value.dtype.hasobject:
        return encode_array(value), False
    return encode_value(value), True


def in_words(value: Any) -> str:
    """What the value is."""
    words = [type(value).__name__, *(str(getattr(value, name)) for name in ("dtype", "shape") if hasattr(value, name))]
    return " ".join(words)[:100]


def in_worker() -> Any:
    """The store of the worker in which this is called; None outside of workers."""
    try:
        worker = get_worker()
    except ValueError:
        return None
    if PLUGIN not in worker.plugins:
        raise RuntimeError("this worker has no store: store_client.dask.attach(client, ..) gives it one")
    plugin = worker.plugins[PLUGIN]
    plugin.await_store()
    return plugin


def _this_worker() -> Any:
    worker = in_worker()
    if worker is None:
        raise RuntimeError("this is to be called in a task: here is no worker")
    return worker


def _load(ref: StoreRef, timeout: float) -> Any:
    return ref.load(timeout)
