"""Tables of Arrow in objects, by pyarrow, without a pickle.

A table lies as a stream of Arrow's own format for messages (IPC), which the libraries of many languages read: a schema, and then batches
of rows, with the columns' bytes as they are. `decode_table` copies none of them: the columns are views of what was read.

A stream may be another job's, so nothing is run that it says, and no memory is taken beyond what is there. A column that is compressed
says itself how long it will be, and a dictionary that grows batch by batch is put together anew for each: streams with either are refused.
`put_table` makes none.
"""

from __future__ import annotations

import struct
from typing import Any, List

from .requests import Pieces

# before it, reading a stream could run what the stream said
_OLDEST = (14, 0, 1)
# of a message that begins a stream: what comes before its metadata
_BEGINS = b"\xff\xff\xff\xff"
# fields of Arrow's messages, by their place in a table of its metadata, and the kinds of message that have columns
_KIND, _HEADER, _BATCH, _IS_DELTA, _COMPRESSION = 1, 2, 1, 2, 3
_DICTIONARY, _ROWS = 2, 3


def encode_table(table: Any) -> Pieces:
    """A table as pieces. Its columns aren't copied, but for those that begin in the midst of others' bytes. `TypeError` for what is none."""
    arrow = _pyarrow()
    table = _as_table(arrow, table)
    sink = _Gathering()
    with arrow.PythonFile(sink, "w") as file, arrow.ipc.new_stream(file, table.schema) as stream:
        # one that is read is made of as many batches, so that none has to be copied into another
        stream.write_table(table)
    return Pieces(sink.views)


def decode_table(whole: memoryview, what: str) -> Any:
    """The table, whose columns are read-only views of the whole. `ValueError` for what is none, and for a column that can't be right."""
    if bytes(whole[:4]) != _BEGINS:
        raise ValueError(f"{what} is no table: it isn't a stream of Arrow's messages, as put_table stores it")
    arrow = _pyarrow()
    buffer = arrow.py_buffer(whole.toreadonly())
    try:
        for message in arrow.ipc.MessageReader.open_stream(buffer):
            _check(memoryview(message.metadata))
        table = arrow.ipc.open_stream(buffer).read_all()
        # what a column says of itself is believed by all that reads it later
        table.validate(full=True)
    except Exception as error:
        # what pyarrow raises for anybody's bytes is of many kinds
        raise ValueError(f"{what} is a table that can't be right: {error}") from error
    return table


class _Gathering:
    """A file of which nothing is read: what is written to it is kept, as a view of the writer's own bytes."""

    closed = False

    def __init__(self) -> None:
        self.views: List[memoryview] = []

    def write(self, data: Any) -> int:
        view = memoryview(data).cast("B")
        if len(view):
            self.views.append(view)
        return len(view)

    def flush(self) -> None:
        """There is nothing to be done."""

    def close(self) -> None:
        self.closed = True


def _as_table(arrow: Any, given: Any) -> Any:
    """The table that it is, or that it hands over by Arrow's own interface, as tables of other libraries do."""
    if isinstance(given, arrow.Table):
        return given
    if isinstance(given, arrow.RecordBatch):
        return arrow.Table.from_batches([given])
    if hasattr(given, "__arrow_c_stream__"):
        return arrow.RecordBatchReader.from_stream(given).read_all()
    raise TypeError(f"a {type(given).__name__} is no table of Arrow: put_value stores any object, and pyarrow.table makes tables")


def _check(metadata: memoryview) -> None:
    """`ValueError` for a message whose columns take more memory than they have bytes. That its metadata is in order pyarrow has seen."""
    message = _table_at(metadata, 0)
    at = _field(metadata, message, _KIND)
    kind = metadata[at] if at else 0
    if kind not in (_DICTIONARY, _ROWS):
        return
    batch = _table_at(metadata, _field(metadata, message, _HEADER))
    if kind == _DICTIONARY:
        at = _field(metadata, batch, _IS_DELTA)
        if at and metadata[at]:
            raise ValueError("a dictionary grows from batch to batch, which put_table never writes")
        batch = _table_at(metadata, _field(metadata, batch, _BATCH))
    if _field(metadata, batch, _COMPRESSION):
        raise ValueError("its columns are compressed, which put_table never does")


def _table_at(metadata: memoryview, at: int) -> int:
    """The table that the place leads to."""
    return at + int(struct.unpack_from("<I", metadata, at)[0])


def _field(metadata: memoryview, table: int, number: int) -> int:
    """Where a field of a table is, or 0 if it isn't there."""
    places = table - int(struct.unpack_from("<i", metadata, table)[0])
    (length,) = struct.unpack_from("<H", metadata, places)
    if 6 + 2 * number > length:
        return 0
    (offset,) = struct.unpack_from("<H", metadata, places + 4 + 2 * number)
    return table + int(offset) if offset else 0


def _pyarrow() -> Any:
    try:
        import pyarrow
        import pyarrow.ipc
    except ImportError:
        raise ImportError("put_table and get_table need pyarrow, as store-client[arrow] installs it") from None
    version = tuple(int(word) for word in pyarrow.__version__.split(".")[:3] if word.isdigit())
    if version < _OLDEST:
        raise ImportError(f"put_table and get_table need pyarrow 14.0.1, and this is {pyarrow.__version__}: it may run what a table says")
    return pyarrow
