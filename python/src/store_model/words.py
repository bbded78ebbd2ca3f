"""The words of the rules: refusals, limits, and what a copy has."""

from __future__ import annotations

import enum
import hashlib
from dataclasses import dataclass, field
from typing import Dict, List, Optional, Set, Union

UNIT = 16
LONGEST_OBJECT = 16 << 20
LARGEST_WINDOW = 256 << 20
LARGEST_DEVICE_QUOTA = 1 << 40
LONGEST_CALL = 1 << 16
CHUNK = 1 << 16
MOST_COPIES = 1024
MOST_WORKS = 8
MOST_HOLDS = 64
MOST_BORROWERS = 64
MOST_GIVEN = 64
MOST_ENDED_TASKS = 1024
MOST_JOBS = 64
DEEPEST = 3


class Refusal(enum.Enum):
    """The refusals that a schedule may meet, by number and printed name."""

    NotAdmitted = 1
    BadId = 2
    Exists = 3
    Absent = 4
    NotSealed = 5
    AlreadySealed = 6
    BadSize = 7
    OutOfBounds = 8
    Full = 9
    Pending = 10
    NotHeld = 11
    Granted = 12
    NotGranted = 13
    DeviceFailed = 14
    Damaged = 15
    Busy = 16
    TooMany = 17
    Gone = 18
    NoRoom = 21
    NotOwner = 22
    NotResident = 23
    Stale = 24


class Refused(Exception):
    """A call is refused."""

    def __init__(self, refusal: Refusal):
        super().__init__(refusal)
        self.refusal = refusal

    def __str__(self) -> str:
        return f"refused {self.refusal.value} {self.refusal.name}"


def refuse_if(condition: object, refusal: Refusal) -> None:
    if condition:
        raise Refused(refusal)


class State(enum.Enum):
    CREATED = "created"
    SEALED = "sealed"
    RESTORING = "restoring"
    FETCHING = "fetching"
    AWAY = "away"


class Kind(enum.Enum):
    PRIMARY = "primary"
    SECONDARY = "secondary"


class Phase(enum.Enum):
    """How far a fetch has come."""

    LOCATING = enum.auto()
    SIZED = enum.auto()
    PULLING = enum.auto()
    FAILED = enum.auto()


@dataclass
class Fetch:
    number: int
    phase: Phase = Phase.LOCATING
    # the node that the chunks come from, once the fetch is sized
    source: Optional[int] = None
    # the indexes of the chunks to come, rising; of a fetch that is Pulling
    missing: List[int] = field(default_factory=list)
    # what a failed fetch answers
    failure: Optional[Refusal] = None


@dataclass
class Copy:
    """What a job has of an object at a node."""

    kind: Kind
    length: int
    state: State
    # where its extent begins in the window, if it has one; an extent is as long as the rounded length
    offset: Optional[int] = None
    # the object's bytes, while there is an extent
    content: bytearray = field(default_factory=bytearray)
    digest: Optional[bytes] = None
    pinned: bool = False
    borrowers: Set[bytes] = field(default_factory=set)
    # how many holds each session has, if any
    holds: Dict[int, int] = field(default_factory=dict)
    # the number of the write that put its bytes on the device
    backed_by: Optional[int] = None
    # the number of its device work in flight
    work: Optional[int] = None
    doomed: bool = False
    fault: Optional[Refusal] = None
    fetch: Optional[Fetch] = None

    @property
    def extent(self) -> int:
        return rounded(self.length)

    @property
    def is_primary(self) -> bool:
        return self.kind is Kind.PRIMARY

    @property
    def is_backed(self) -> bool:
        return self.backed_by is not None

    @property
    def is_working(self) -> bool:
        return self.work is not None

    @property
    def is_held(self) -> bool:
        return bool(self.holds)

    @property
    def in_scope(self) -> bool:
        return self.pinned or bool(self.borrowers)

    def place(self, offset: int) -> None:
        """Gives the copy an extent of zeros."""
        self.offset = offset
        self.content = bytearray(self.length)

    def displace(self) -> None:
        """Takes the copy's extent."""
        self.offset = None
        self.content = bytearray()

    def matches(self, content: Union[bytes, bytearray]) -> bool:
        """Whether these are the bytes that the copy's length and digest are of."""
        return len(content) == self.length and digest_of(content) == self.digest


def rounded(length: int) -> int:
    return -(-length // UNIT) * UNIT


def chunks(length: int) -> int:
    return -(-length // CHUNK)


def digest_of(content: Union[bytes, bytearray]) -> bytes:
    return hashlib.sha256(content).digest()


def is_quota(window: int, device: int) -> bool:
    return UNIT <= window <= LARGEST_WINDOW and window % UNIT == 0 and device <= LARGEST_DEVICE_QUOTA
