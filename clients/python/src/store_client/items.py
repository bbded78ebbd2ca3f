"""What Create, List and Usage tell."""

from __future__ import annotations

import enum
from dataclasses import dataclass
from typing import NamedTuple

from .ids import ObjectId


class State(enum.IntEnum):
    """The state of a copy."""

    CREATED = 0
    SEALED = 1
    RESTORING = 2
    FETCHING = 3
    AWAY = 4


class Kind(enum.IntEnum):
    """A primary is an object's first copy; a secondary was transferred, or offered as a copy."""

    PRIMARY = 0
    SECONDARY = 1


class Placed(NamedTuple):
    """Where a new copy lies in the job's window, in bytes: its length is the object's, rounded up to a multiple of 16."""

    offset: int
    length: int


@dataclass(frozen=True)
class OwnItem:
    """A copy of the job at the node; its length is in bytes."""

    id: ObjectId
    state: State
    kind: Kind
    length: int


@dataclass(frozen=True)
class GrantedItem:
    """An object that another job granted; its length is in bytes, its depth 1 to 3."""

    id: ObjectId
    length: int
    depth: int


@dataclass(frozen=True)
class Usage:
    """The job's quotas at the node and what is used of them, in bytes; its copies, and its device works in flight."""

    window: int
    window_used: int
    device: int
    device_used: int
    copies: int
    works: int
