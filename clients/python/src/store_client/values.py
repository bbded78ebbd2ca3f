"""Python objects, arrays and tables in the store, of any length.

`put_value` stores any object that can be pickled. Large buffers in it, as of arrays, are stored beside the pickle and not in it,
and are got as read-only views of one buffer, without another copy. `put_array` stores an array without a pickle, and `put_table` a table.

**Who unpickles trusts who pickled.** `get_value` runs what the pickle says, and that may be any code, with all that this process
may do. Get values of your own job, or with `trust=True` of one that you would let run code here. From any other job get bytes (`get`),
arrays (`get_array`) or tables (`get_table`): these are only read.
"""

from __future__ import annotations

from typing import TYPE_CHECKING, Any, Optional, Type, TypeVar, overload

from . import parts
from .calls import Calls
from .checks import length_limit, seconds
from .encoding import decode_array, decode_value, encode_array, encode_value
from .ids import ObjectId, expect_id
from .putting import Progress
from .requests import Pieces
from .steps import Deadline, Steps
from .tables import decode_table, encode_table

if TYPE_CHECKING:
    import numpy
    import pyarrow

V = TypeVar("V")


class ValueCalls(Calls):
    """`Calls`, and those for values, arrays and tables."""

    def put_value(self, value: Any, id: Optional[ObjectId] = None, timeout: Optional[float] = None) -> ObjectId:
        """Stores any Python object that can be pickled, under the id or a new one. Arrays of numpy in it may have any order and gaps.

        What is longer than an object may be (16 MiB, or the window) is put in parts; all of them, or none if one finds no room. What is
        longer than window and device quota together is `Full` before anything is put. Waits and is refused as `put`.
        """
        return self._put_pieces(encode_value(value), id, timeout)

    @overload
    def get_value(
        self,
        id: ObjectId,
        timeout: Optional[float] = None,
        trust: bool = False,
        limit: Optional[int] = None,
        expect: None = None,
        since: Optional[str] = None,
    ) -> Any: ...

    @overload
    def get_value(
        self,
        id: ObjectId,
        timeout: Optional[float] = None,
        trust: bool = False,
        limit: Optional[int] = None,
        *,
        expect: Type[V],
        since: Optional[str] = None,
    ) -> V: ...

    def get_value(
        self,
        id: ObjectId,
        timeout: Optional[float] = None,
        trust: bool = False,
        limit: Optional[int] = None,
        expect: Optional[Type[Any]] = None,
        since: Optional[str] = None,
    ) -> Any:
        """The Python object that `put_value` stored; arrays in it are read-only. Waits and is refused as `get`. No hold stays.

        This runs what the pickle says, which may be any code. So another job's value is got with `trust=True` alone, by who would let
        that job run code here. `ValueError` without it, and if the object is no value. The limit is that of `get_array`.

        What is expected is the value's type, which a type checker then knows; `TypeError` if it is of another.
        """
        check_trust(id, self.job, trust)
        return expected(decode_value(self._get_whole(id, timeout, limit, since), id.text(self.job)), expect, id.text(self.job))

    def put_array(self, array: Any, id: Optional[ObjectId] = None, timeout: Optional[float] = None) -> ObjectId:
        """Stores an array of numpy in numpy's own format .npy, without a pickle: of any type of items that has no pointers, any
        order and gaps, any length. Waits and is refused as `put`. `TypeError` for a masked array and others of a class of their own, also in
        a list, and for items of a type that the format can't say.

        What numpy makes an array of is stored as that. What has `__array_interface__` or `__dlpack__`, as a tensor on the CPU, isn't
        copied for that."""
        return self._put_pieces(encode_array(array), id, timeout)

    def get_array(
        self, id: ObjectId, timeout: Optional[float] = None, limit: Optional[int] = None, since: Optional[str] = None
    ) -> numpy.ndarray[Any, numpy.dtype[Any]]:
        """The array that `put_array` stored, read-only. Nothing is unpickled, so it may be another job's, if that granted it.
        Waits and is refused as `get`. No hold stays. `ValueError` if it is no array.

        `TooLong` if it has more bytes than the limit, with its header. Without one the limits of jobs bound it: of another job it has at
        most 63 parts of 16 MiB, since a job has at most 64 grants that stand; of this one 1,023. Memory is taken once all are there.
        """
        array: numpy.ndarray[Any, numpy.dtype[Any]] = decode_array(self._get_whole(id, timeout, limit, since), id.text(self.job))
        return array

    def put_table(self, table: Any, id: Optional[ObjectId] = None, timeout: Optional[float] = None) -> ObjectId:
        """Stores a table of Arrow by pyarrow, without a pickle, as a stream of Arrow's own format. Waits and is refused as `put`.

        What is no table but has `__arrow_c_stream__`, as tables of pandas and polars have, is taken for the table that it hands over.
        `TypeError` for what is none."""
        return self._put_pieces(encode_table(table), id, timeout)

    def get_table(
        self, id: ObjectId, timeout: Optional[float] = None, limit: Optional[int] = None, since: Optional[str] = None
    ) -> pyarrow.Table:
        """The table that `put_table` stored, whose columns are read-only views of one buffer. Nothing is unpickled, so it may be another
        job's, if that granted it. Waits and is refused as `get`. No hold stays. `ValueError` if it is no table, or has a column that can't
        be right. The limit is that of `get_array`."""
        return decode_table(self._get_whole(id, timeout, limit, since), id.text(self.job))

    def delete_value(self, id: ObjectId) -> None:
        """Removes what `put_value`, `put_array` or `put_table` stored, with its parts."""
        self._run(parts.delete_whole(self._requests, expect_id(id)))

    def grant_value(self, id: ObjectId, job: int) -> None:
        """Grants what `put_value`, `put_array` or `put_table` stored to a job, with its parts, each of which is one of the 64 grants that a
        job may have given. If one can't be granted, none is."""
        self._run(parts.grant_whole(self._requests, expect_id(id), job))

    def withdraw_value(self, id: ObjectId, job: int) -> None:
        """Ends the grants of what `put_value`, `put_array` or `put_table` stored."""
        self._run(parts.withdraw_whole(self._requests, expect_id(id), job))

    def _put_pieces(
        self, pieces: Pieces, id: Optional[ObjectId], timeout: Optional[float], progress: Optional[Progress] = None
    ) -> ObjectId:
        timeout = seconds(timeout)
        name = None if id is None else expect_id(id)
        return self._run(parts.put_whole(self._requests, pieces, name, self.new_id, Deadline(timeout), progress), timeout)

    def _get_whole(
        self,
        id: ObjectId,
        timeout: Optional[float],
        limit: Optional[int],
        since: Optional[str] = None,
        progress: Optional[Progress] = None,
    ) -> memoryview:
        most = length_limit(limit)

        def get(deadline: Optional[Deadline]) -> Steps[memoryview]:
            return parts.get_whole(self._requests, id, deadline, most, progress)

        return self._get(get, expect_id(id), timeout, since)


def expected(value: Any, expect: Optional[Type[Any]], what: str) -> Any:
    """The value, which is of this type."""
    if expect is not None and not isinstance(value, expect):
        raise TypeError(f"{what} is a value of type {type(value).__name__}, and {expect.__name__} was expected")
    return value


def check_trust(id: ObjectId, job: int, trust: bool) -> None:
    """`ValueError` if the value is another job's and that isn't trusted."""
    if expect_id(id).job != job and not trust:
        raise ValueError(
            f"{id.text(job)} is of job {id.job}, and get_value runs what its pickle says: get_array runs nothing, and trust=True lets job"
            f" {id.job} run code here"
        )
