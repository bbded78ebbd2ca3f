"""What calls are given: each wrong argument is a `TypeError` or `ValueError` that says what was expected."""

from __future__ import annotations

import contextlib
import math
import operator
import os
import pickle
import re
from typing import Any, Iterator, List, Optional, Union

# what has the buffer protocol: bytes, bytearray, memoryview, array.array, mmap, arrays of numpy, .. Before Python 3.12 no
# type says that
Buffer = Any

PathLike = Union[str, "os.PathLike[str]"]

LAST_NUMBER = 2**32 - 1


def whole_number(value: Any, what: str, least: int, most: int) -> int:
    """The value as an int, which is in this range."""
    try:
        number = operator.index(value)
    except TypeError:
        raise TypeError(f"{what} is a whole number, not {_named(value)}") from None
    if not least <= number <= most:
        raise ValueError(f"{what} is {least} to {most}, not {number}")
    return number


def length_limit(value: Any) -> Optional[int]:
    """How many bytes a call may get at most, or None."""
    return None if value is None else whole_number(value, "a limit, in bytes,", 0, 2**63 - 1)


def seconds(value: Optional[float], what: str = "a timeout") -> Optional[float]:
    """A number of seconds from 0 on, or None."""
    if value is None:
        return None
    if isinstance(value, (str, bytes)):
        raise TypeError(f"{what} is a number of seconds or None, not {_named(value)}")
    try:
        number = float(value)
    except (TypeError, ValueError):
        raise TypeError(f"{what} is a number of seconds or None, not {_named(value)}") from None
    if math.isnan(number) or number < 0:
        raise ValueError(f"{what} is a number of seconds from 0 on, not {value}")
    return number


def key_bytes(value: Any) -> bytes:
    """The 32 bytes of a job's key. What was given isn't repeated in the error."""
    if isinstance(value, str):
        raise TypeError("a key is 32 bytes, not str: bytes.fromhex reads its 64 digits")
    try:
        key = bytes(memoryview(value))
    except TypeError:
        raise TypeError(f"a key is 32 bytes, not {_named(value)}") from None
    if len(key) != 32:
        raise ValueError(f"a key has 32 bytes, not {len(key)}")
    return key


def socket_path(value: Any) -> str:
    """A socket's path as text."""
    try:
        return os.fsdecode(value)
    except TypeError:
        raise TypeError(f"a socket is named by its path, not by {_named(value)}") from None


@contextlib.contextmanager
def flat(data: Any) -> Iterator[memoryview]:
    """The bytes of a buffer, one after the other; of one that has gaps or another order, a copy in the order of its indexes."""
    views: List[Any] = []
    try:
        views.append(_viewed(data))
        whole = views[0]
        if has_pointers(whole.format):
            raise TypeError(
                f"{_named(data)} has pointers (format {whole.format!r}), which mean nothing to who gets them: put_value stores objects"
            )
        if not whole.nbytes:
            yield memoryview(b"")
        elif not whole.c_contiguous:
            yield memoryview(whole.tobytes())
        else:
            # a view can't be cast from each format, and this one has none
            views.append(pickle.PickleBuffer(whole))
            views.append(views[1].raw())
            yield views[2]
    finally:
        for view in reversed(views):
            # an error that is on its way keeps parts of it
            with contextlib.suppress(BufferError):
                view.release()


@contextlib.contextmanager
def writable(buffer: Any) -> Iterator[memoryview]:
    """The bytes of a buffer that can be written and has no gaps."""
    with _viewed(buffer) as view:
        if view.readonly or not view.c_contiguous or has_pointers(view.format):
            raise TypeError(f"{_named(buffer)} can't be filled with bytes: it is read-only, or has gaps or pointers")
        # a view can't be cast from each format, and this has none
        with pickle.PickleBuffer(view).raw() as whole:
            yield whole


def _viewed(data: Any) -> memoryview:
    try:
        return memoryview(data)
    except TypeError:
        raise TypeError(f"bytes or another buffer were expected, not {_named(data)}: put_value stores any Python object") from None
    except (ValueError, BufferError) as error:
        raise TypeError(f"{_named(data)} can't be read as bytes ({error}): put_array and put_value store such arrays") from error


def has_pointers(layout: str) -> bool:
    """Whether items of a buffer's format are or have addresses: of Python objects, of texts, of functions, or of anything."""
    letters = re.sub(r":[^:]*:|Z[fdg]", "", layout)
    return bool(re.search(r"[OPzZ&X]", letters))


def _named(value: Any) -> str:
    return type(value).__name__
