"""How values and arrays lie in objects. All numbers are big-endian.

| A value | Bytes |
|---|---|
| `73 74 6f 72 65 00 76 31` ("store", 0, "v1") | 8 |
| n, the number of its buffers | 4 |
| length of its pickle | 8 |
| length of each buffer | 8 n |
| the pickle, of protocol 5 | as said |
| each buffer, from the next multiple of 64 on | as said |

An array that is put by `put_array` lies as a file of numpy's own format, .npy, which many languages read and numpy.load, too: its
header says the type of the items, the order and the shape, and the items begin at a multiple of 64. No pickle is in it.

What is longer than one object may be is cut in parts, each an object, and a manifest names them:

| A manifest | Bytes |
|---|---|
| `73 74 6f 72 65 00 6d 31` ("store", 0, "m1") | 8 |
| length of the whole | 8 |
| length of each part; the last one has what is left | 4 |
| id of each part, of the same job | 28 each |
"""

from __future__ import annotations

import io
import pickle
import re
import struct
import sys
from collections import deque
from dataclasses import dataclass
from typing import Any, List, Optional, Tuple

from .frames import LARGEST
from .ids import ObjectId
from .requests import Pieces

_VALUE = b"store\0v1"
_MANIFEST = b"store\0m1"
_ARRAY = b"\x93NUMPY"
_ALIGNMENT = 64
# the length of what comes before a manifest's ids
MANIFEST_HEAD = 20
# the manifest and its parts are copies of a job at a node
MOST_PARTS = 1023
# in an array's header: texts, and what else may stand in it
_TEXT = re.compile(r"'(?:[^'\\]|\\.)*'|\"(?:[^\"\\]|\\.)*\"")
_BARE = re.compile(r"(?:[0-9L\s,:()\[\]{}]|True|False)*")
_DEEPEST = 32
# what numpy asks of what isn't an array yet
_NUMPY_ASKS = ("__array__", "__array_interface__", "__array_struct__")


# ---- values


def encode_value(value: Any) -> Pieces:
    """A value as pieces: its pickle with a header, and its buffers, which aren't copied."""
    buffers: List[memoryview] = []
    stream = io.BytesIO()
    _Pickler(stream, protocol=5, buffer_callback=lambda buffer: buffers.append(buffer.raw())).dump(value)
    pickled = memoryview(stream.getvalue())
    head = _VALUE + struct.pack(f">IQ{len(buffers)}Q", len(buffers), len(pickled), *map(len, buffers))
    pieces = [memoryview(head), pickled]
    length = len(head) + len(pickled)
    for buffer in buffers:
        pieces += [_padding(length), buffer]
        length += len(pieces[-2]) + len(buffer)
    return Pieces(pieces)


def decode_value(whole: memoryview, what: str) -> Any:
    """The value. Its buffers are read-only views of the whole. `ValueError` for what is no value, which `what` names.

    To unpickle runs what the pickle says, which may be any code: who stored it has to be trusted.
    """
    if bytes(whole[:8]) != _VALUE:
        raise ValueError(f"{what} is no value: it wasn't put by put_value")
    try:
        count, pickled = struct.unpack_from(">IQ", whole, 8)
        lengths = struct.unpack_from(f">{count}Q", whole, 20)
    except struct.error:
        raise ValueError(f"{what} is a value that was cut short") from None
    at = 20 + 8 * count + pickled
    end, buffers = at, []
    for length in lengths:
        start = end + len(_padding(end))
        end = start + length
        buffers.append(whole[start:end].toreadonly())
    if end != len(whole):
        raise ValueError(f"{what} is a value of {end} bytes, and {len(whole)} are there")
    return pickle.loads(whole[at - pickled : at], buffers=buffers)


class _Pickler(pickle.Pickler):
    """Takes arrays of numpy apart, of each type of items that has no pointers: numpy itself keeps some within the pickle."""

    def reducer_override(self, value: Any) -> Any:
        numpy = sys.modules.get("numpy")
        if numpy is None or type(value) is not numpy.ndarray or value.dtype.hasobject:
            return NotImplemented
        items, order = _items_of(value)
        return _array, (pickle.PickleBuffer(items), value.dtype, value.shape, order)


def _array(items: Any, dtype: Any, shape: Tuple[int, ...], order: str) -> Any:
    """An array over these bytes."""
    import numpy

    return numpy.ndarray(shape, dtype, buffer=items, order="F" if order == "F" else "C")


def _items_of(array: Any) -> Tuple[memoryview, str]:
    """The bytes of an array's items, and their order: "C" or "F". Only what has gaps is copied."""
    import numpy

    order = "F" if array.flags.f_contiguous and not array.flags.c_contiguous else "C"
    if not array.nbytes:
        return memoryview(b""), order
    straight = array.T if order == "F" else numpy.ascontiguousarray(array)
    return memoryview(straight.reshape(-1).view(numpy.uint8)), order


def _padding(length: int) -> memoryview:
    return memoryview(bytes(-length % _ALIGNMENT))


# ---- arrays without a pickle


def encode_array(array: Any) -> Pieces:
    """An array of numpy, or what numpy makes one of, as a file of format .npy. `TypeError` if its items have pointers or the format can't
    say their type, or if its class may have more than the items, as a mask, also in a list."""
    numpy = _numpy()
    given, array = array, _as_array(numpy, array)
    if _is_more_than_items(numpy, type(array)):
        raise TypeError(
            f"a {type(array).__name__} would come back as a plain array, without its mask or what else it has: put_value stores it whole,"
            " and numpy.asarray gives its items alone"
        )
    if array.dtype.hasobject:
        raise TypeError(f"an array of {array.dtype} has pointers, which mean nothing to who gets them: put_value stores objects")
    lost = _class_among(numpy, given)
    if lost:
        raise TypeError(
            f"a {lost} among the rows would lose its mask or what else it has: put_value stores the list whole, and of rows with masks"
            " numpy.ma.stack makes one array"
        )
    items, order = _items_of(array)
    described = {"descr": _described(numpy, array.dtype), "fortran_order": order == "F", "shape": array.shape}
    head = io.BytesIO()
    try:
        numpy.lib.format.write_array_header_1_0(head, described)
    except ValueError:
        # many fields
        head = io.BytesIO()
        numpy.lib.format.write_array_header_2_0(head, described)
    return Pieces([memoryview(head.getvalue()), items])


def _described(numpy: Any, dtype: Any) -> Any:
    """The type of the items as a file .npy says it."""
    try:
        described = numpy.lib.format.dtype_to_descr(dtype)
        is_said = numpy.lib.format.descr_to_dtype(described) == dtype
    except (TypeError, ValueError):
        # its fields overlap, or aren't in order
        is_said = False
    if not is_said:
        raise TypeError(f"an array of {dtype} would come back as another: numpy's format .npy can't say that type. put_value stores it")
    return described


def _is_more_than_items(numpy: Any, kind: type) -> bool:
    """Whether an array of this class may have more than its items."""
    return issubclass(kind, numpy.ndarray) and kind not in (numpy.ndarray, numpy.memmap)


def _class_among(numpy: Any, given: Any) -> str:
    """The class of an array in a list that may have more than its items, as deep as lists are in it, or nothing. Numpy leaves the rest out
    there."""
    if _is_more_than_items(numpy, type(given)):
        return type(given).__name__
    within = (list, tuple, deque)
    # of many numbers the types are few
    if not isinstance(given, within) or not any(issubclass(kind, (*within, numpy.ndarray)) for kind in set(map(type, given))):
        return ""
    return next(filter(None, (_class_among(numpy, one) for one in given)), "")


def _as_array(numpy: Any, given: Any) -> Any:
    """What numpy makes of it: if it tells where its bytes are, an array over these. By itself numpy doesn't ask for DLPack."""
    if not hasattr(given, "__dlpack__") or any(hasattr(given, name) for name in _NUMPY_ASKS):
        return numpy.asanyarray(given)
    name = type(given).__name__
    if not hasattr(numpy, "from_dlpack"):
        raise TypeError(f"a {name} is an array by DLPack alone, which numpy has from 1.22 on, and this is {numpy.__version__}")
    try:
        return numpy.from_dlpack(given)
    except (BufferError, RuntimeError, TypeError, ValueError) as error:
        raise TypeError(f"a {name} can't be read by numpy, as one that isn't in this machine's memory: {error}") from error


def decode_array(whole: memoryview, what: str) -> Any:
    """The array, a read-only view of the whole. `ValueError` for what is none. Nothing is run that the bytes say."""
    if bytes(whole[:6]) != _ARRAY:
        raise ValueError(f"{what} is no array: it isn't in numpy's format .npy, as put_array stores it")
    numpy = _numpy()
    head = _header(whole, what)
    file = io.BytesIO(head)
    version = numpy.lib.format.read_magic(file)
    read = numpy.lib.format.read_array_header_1_0 if version == (1, 0) else numpy.lib.format.read_array_header_2_0
    try:
        shape, in_columns, dtype = read(file)
        items = whole[len(head) :].toreadonly()
        if dtype.hasobject:
            raise ValueError("its items are Python objects, which would have to be unpickled")
        if items.nbytes != dtype.itemsize * _product(shape):
            raise ValueError(f"{items.nbytes} bytes follow, and the items would have {dtype.itemsize * _product(shape)}")
        return numpy.ndarray(shape, dtype, buffer=items, order="F" if in_columns else "C")
    except Exception as error:
        # what numpy raises for anybody's bytes is of many kinds
        raise ValueError(f"{what} is an array whose header can't be right: {error}") from error


def _header(whole: memoryview, what: str) -> bytes:
    """The header of an array, with a text that Python can read without harm: it has no operators, and isn't nested deeply."""
    fields = {(1, 0): "<H", (2, 0): "<I"}.get((whole[6], whole[7])) if len(whole) > 7 else None
    if fields is None:
        raise ValueError(f"{what} is an array in a version of numpy's format that isn't 1.0 or 2.0")
    try:
        length = struct.unpack_from(fields, whole, 8)[0]
    except struct.error:
        raise ValueError(f"{what} is an array that was cut short") from None
    head = bytes(whole[: 8 + struct.calcsize(fields) + length])
    bare = _TEXT.sub("", head[8 + struct.calcsize(fields) :].decode("latin-1"))
    if not _BARE.fullmatch(bare) or _depth(bare) > _DEEPEST:
        raise ValueError(f"{what} is an array whose header can't be right: it isn't as numpy writes one")
    return head


def _depth(text: str) -> int:
    """How many brackets are open at most."""
    depth = deepest = 0
    for letter in text:
        depth += (letter in "([{") - (letter in ")]}")
        deepest = max(deepest, depth)
    return deepest


def _numpy() -> Any:
    try:
        import numpy
        import numpy.lib.format
    except ImportError:
        raise ImportError("put_array and get_array need numpy; put and get take and give bytes without it") from None
    return numpy


def _product(shape: Tuple[int, ...]) -> int:
    product = 1
    for length in shape:
        product *= length
    return product


# ---- manifests


@dataclass(frozen=True)
class Manifest:
    """Which parts make up what is longer than one object."""

    length: int
    part: int
    ids: List[ObjectId]

    def encode(self) -> bytes:
        return _MANIFEST + struct.pack(">QI", self.length, self.part) + b"".join(id.to_bytes() for id in self.ids)

    @classmethod
    def decode(cls, whole: memoryview, id: ObjectId) -> Optional[Manifest]:
        """The manifest that is the object of this id; None if it is none. `ValueError` for one that can't be right."""
        if not is_manifest(whole):
            return None
        if len(whole) > MANIFEST_HEAD + 28 * MOST_PARTS:
            raise ValueError(f"{id} is a manifest of more than {MOST_PARTS} parts, and no job has so many copies")
        try:
            length, part = struct.unpack_from(">QI", whole, 8)
            ids = [ObjectId.from_bytes(whole[at : at + 28]) for at in range(MANIFEST_HEAD, len(whole), 28)]
        except (ValueError, struct.error):
            raise ValueError(f"{id} is a manifest that was cut short") from None
        # who grants a manifest can't have others read what is their own
        if not 1 <= part <= LARGEST or len(ids) != -(-length // part) or any(one.job != id.job for one in ids):
            raise ValueError(f"{id} is a manifest whose parts can't be right")
        if len({id, *ids}) != 1 + len(ids):
            raise ValueError(f"{id} is a manifest that can't be right: a part stands in it twice, or it itself")
        return cls(length, part, ids)

    def places(self) -> List[Tuple[ObjectId, range]]:
        """Of each part its id, and where its bytes are in the whole."""
        starts = range(0, self.length, self.part)
        return [(id, range(start, min(start + self.part, self.length))) for id, start in zip(self.ids, starts)]


def is_manifest(whole: memoryview) -> bool:
    """Whether the object begins as a manifest does."""
    return bytes(whole[:8]) == _MANIFEST
