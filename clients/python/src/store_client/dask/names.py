"""The ids of a value's parts.

A value is cut in parts, each an object. What all their ids begin with is the value's *prefix*, so that a list by prefix finds all
that a host has of it. The 20 bytes of an id's task are:

| Bytes | What |
|---|---|
| 0 to 7 | the beginning of the BLAKE2 digest of the Dask key |
| 8 to 13 | the epoch: a number that the scheduler gives out once, so a key that is computed again has other ids |
| 14 to 19 | the try: 0 for the value itself, a number below 2^47 for a claim, a number from 2^47 on for a copy |

The index is the number of the part, from 1. What claims and copies are is said in sharing.py.
"""

from __future__ import annotations

import hashlib
import random
from dataclasses import dataclass

from ..ids import ObjectId, Task

_DIGEST, _EPOCH, _TRY = 8, 6, 6
PREFIX = _DIGEST + _EPOCH
# from here on a try is one of a copy, drawn by lot
_FIRST_COPY = 1 << (8 * _TRY - 1)
_LOT = random.SystemRandom()


@dataclass(frozen=True)
class Name:
    """A value's name, which its ids begin with: 14 bytes."""

    prefix: bytes

    @classmethod
    def of(cls, key: str, epoch: int) -> Name:
        """The name of what is put under the key in this epoch."""
        return cls(hashlib.blake2b(key.encode(), digest_size=_DIGEST).digest() + epoch.to_bytes(_EPOCH, "big"))

    @property
    def epoch(self) -> int:
        """The number that the scheduler gave."""
        return int.from_bytes(self.prefix[_DIGEST:], "big")

    def primary(self, part: int, job: int) -> ObjectId:
        """The part itself, as it was put."""
        return self._id(0, part, job)

    def claim(self, part: int, turn: int, job: int) -> ObjectId:
        """The claim of the part's turn, from 1."""
        return self._id(turn, part, job)

    def copy(self, part: int, job: int) -> ObjectId:
        """A copy of the part under an id that nobody else makes."""
        return self._id(_LOT.randrange(_FIRST_COPY, 2 * _FIRST_COPY), part, job)

    def _id(self, number: int, part: int, job: int) -> ObjectId:
        return Task(self.prefix + number.to_bytes(_TRY, "big")).object(part + 1, job=job)


def prefix_of(id: ObjectId) -> bytes:
    """The prefix of the value whose part this is."""
    return id.task.value[:PREFIX]


def is_primary(id: ObjectId) -> bool:
    """Whether this is the part itself, and neither a claim nor a copy."""
    return _try_of(id) == 0


def turn_of(id: ObjectId) -> int:
    """The turn of a claim; 0 for the part itself, and for a copy."""
    return _try_of(id) if _try_of(id) < _FIRST_COPY else 0


def _try_of(id: ObjectId) -> int:
    return int.from_bytes(id.task.value[PREFIX:], "big")
