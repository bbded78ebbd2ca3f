"""The bytes of an object that was got."""

from __future__ import annotations

import sys
import warnings
from typing import Any, Optional, Protocol, Type

from .ids import ObjectId
from .refusals import StoreError


class Dropping(Protocol):
    """The connection whose session holds an object, as far as one that is dropped needs it."""

    def release_later(self, id: ObjectId) -> None:
        """Gives one hold up as soon as that can be, and raises nothing."""


class Holder(Dropping, Protocol):
    """The connection whose session holds an object."""

    def release(self, id: ObjectId) -> None:
        """Gives one hold up."""


class ReadBytes:
    """The bytes of an object that was got, and who holds it, if anybody does. One that is dropped is released."""

    _holder: Optional[Dropping]

    def __init__(self, id: ObjectId, view: memoryview, job: int) -> None:
        """The job is the one that got it."""
        self.id = id
        self.view = view
        self._job = job

    def __del__(self) -> None:
        holder = getattr(self, "_holder", None)
        if holder:
            warnings.warn(f"{self!r} was dropped and not released", ResourceWarning, stacklevel=2, source=self)
            holder.release_later(self.id)

    def __len__(self) -> int:
        return len(self.view)

    def __bytes__(self) -> bytes:
        return bytes(self.view)

    def __buffer__(self, flags: int) -> memoryview:
        return self.view

    def __init_subclass__(cls) -> None:
        if sys.version_info < (3, 12):
            # no class can be a buffer, and who takes it for one is told its name
            cls.__name__ = f"{cls.__name__}: take its .view"

    def __repr__(self) -> str:
        return f"<Held {self.id.text(self._job)}, {len(self.view)} bytes, {'held' if self._holder else 'not held'}>"

    def __reduce__(self) -> Any:
        raise TypeError("a Held isn't pickled, since its hold is the session's: pass its id, or bytes(held.view)")


class Held(ReadBytes):
    """An object's bytes, read, and a hold of the session on the object until the end of a `with`, or `release`.

    `view` has the bytes, as a read-only memoryview, also after the hold has ended; from Python 3.12 on a `Held` can be used as
    a buffer itself. An object that another job granted is never held.
    """

    def __init__(self, holder: Optional[Holder], id: ObjectId, view: memoryview, job: int) -> None:
        super().__init__(id, view, job)
        self._holder: Optional[Holder] = holder

    def release(self) -> None:
        """The session's hold is given up, once; the bytes that were read stay."""
        holder, self._holder = self._holder, None
        if holder:
            holder.release(self.id)

    def __enter__(self) -> memoryview:
        return self.view

    def __exit__(self, kind: Optional[Type[BaseException]], *_: Any) -> None:
        try:
            self.release()
        except StoreError:
            # what the block raised says more
            if kind is None:
                raise
