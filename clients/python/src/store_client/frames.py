"""Frames: a length of 4 bytes, a kind of 1, and the body. Numbers are big-endian."""

from __future__ import annotations

import enum
import struct
from typing import Dict

from .ids import ObjectId
from .items import GrantedItem, Kind, OwnItem, State, Usage

# the longest reply, in bytes after the length
LONGEST_REPLY = 262_144

# the most bytes that one Write or Read moves
MOST_BYTES = 65_536

# the most bytes of an object
LARGEST = 16_777_216

# the bytes of an item of a List: of a copy of the job's own, and of an object that another job granted
_OWN, _GRANTED = 34, 33


class Command(enum.IntEnum):
    """The kinds of the commands' frames."""

    HELLO = 0x01
    CREATE = 0x02
    WRITE = 0x03
    SEAL = 0x04
    GET = 0x05
    READ = 0x06
    RELEASE = 0x07
    UNPIN = 0x08
    BORROW = 0x09
    GIVE_UP = 0x0A
    DELETE = 0x0B
    END_TASK = 0x0C
    GRANT = 0x0D
    WITHDRAW = 0x0E
    PEEK = 0x0F
    LIST = 0x10
    USAGE = 0x11
    LEAVE = 0x12
    GET_WAIT = 0x13
    CREATE_WAIT = 0x14


class Reply(enum.IntEnum):
    """The kinds of the replies' frames."""

    OK = 0x80
    PLACED = 0x81
    GOT = 0x82
    BYTES = 0x83
    LIST = 0x84
    USAGE = 0x85
    REFUSED = 0x8F


def head(kind: int, length: int) -> bytes:
    """What comes before a body of this many bytes."""
    return struct.pack(">IB", 1 + length, kind)


def frame(kind: int, body: bytes = b"") -> bytes:
    """A whole frame."""
    return head(kind, len(body)) + body


def numbers(*values: int) -> bytes:
    """Numbers of 4 bytes each."""
    return struct.pack(f">{len(values)}I", *values)


def read_list(body: bytes, prefix: bytes = b"") -> tuple[list[OwnItem], list[GrantedItem]]:
    """The job's own copies whose ids begin so, and what others granted. `ValueError` or `struct.error` for what is no such body."""
    end = _own_end(body)
    own = []
    for at in range(4, end, _OWN):
        # of a thousand copies hardly any may be wanted, and most of the time is taken by what is made of them
        if body.startswith(prefix, at):
            state, kind, length = struct.unpack_from(">BBI", body, at + 28)
            # a fetch that hasn't found the object has none
            least = 0 if state == State.FETCHING else 1
            own.append(OwnItem(ObjectId.from_bytes(body[at : at + 28]), State(state), Kind(kind), _length(length, least)))
    granted = []
    for at in range(end + 4, len(body), _GRANTED):
        length, depth = struct.unpack_from(">IB", body, at + 28)
        granted.append(GrantedItem(ObjectId.from_bytes(body[at : at + 28]), _length(length, 1), depth))
    return own, granted


def read_names(body: bytes) -> Dict[bytes, int]:
    """The same, as bytes of ids alone: of the job's own copies with their states, of others' with none."""
    end = _own_end(body)
    names = {body[at : at + 28]: body[at + 28] for at in range(4, end, _OWN)}
    names.update((body[at : at + 28], -1) for at in range(end + 4, len(body), _GRANTED))
    return names


def _own_end(body: bytes) -> int:
    """Where the job's own copies end in the body of a List, which is as long as it says."""
    (own,) = struct.unpack_from(">I", body, 0)
    end = 4 + _OWN * int(own)
    (granted,) = struct.unpack_from(">I", body, end)
    if end + 4 + _GRANTED * granted != len(body):
        raise ValueError(f"{own} copies and {granted} objects of others in {len(body)} bytes")
    return end


def _length(length: int, least: int) -> int:
    if not least <= length <= LARGEST:
        raise ValueError(f"no object has {length} bytes")
    return length


def read_usage(body: bytes) -> Usage:
    """Six numbers of 8 bytes. `struct.error` for what is no such body."""
    return Usage(*struct.unpack(">6Q", body))
