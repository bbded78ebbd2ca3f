"""How a store finds room in its window."""

from __future__ import annotations

from typing import TYPE_CHECKING, Collection, Iterator, List, Optional, Sequence

from .ids import ObjectId
from .words import MOST_WORKS, Refusal, Refused, State, refuse_if, rounded

if TYPE_CHECKING:
    from .store import PrivateStore


def beginnings(ids: Sequence[ObjectId]) -> Iterator[Sequence[ObjectId]]:
    """The beginnings of the list, the shortest first; not the empty one."""
    return (ids[:count] for count in range(1, len(ids) + 1))


def free_offset(store: PrivateStore, length: int, without: Collection[ObjectId] = ()) -> Optional[int]:
    """The least offset at which there would be room if these copies had no extents."""
    left_out = set(without)
    kept = [copy for one, copy in store.copies.items() if one not in left_out]
    extents = sorted((copy.offset, copy.extent) for copy in kept if copy.offset is not None)
    offset, needed = 0, rounded(length)
    for start, extent in extents:
        if offset + needed <= start:
            break
        offset = start + extent
    return offset if offset + needed <= store.window else None


def make_room(store: PrivateStore, length: int) -> int:
    """The offset of room for an object, once what has to go has gone; otherwise the refusal."""
    offset = free_offset(store, length)
    if offset is not None:
        return offset
    evictable = [one for one in store.copies if is_evictable(store, one)]
    for victims in beginnings(evictable):
        offset = free_offset(store, length, victims)
        if offset is not None:
            for one in victims:
                store.evict(one)
            return offset
    return spill(store, length, evictable)


def is_evictable(store: PrivateStore, one: ObjectId) -> bool:
    copy = store.copies[one]
    return is_loose(store, one) and not copy.is_working and (not copy.is_primary or copy.is_backed)


def is_loose(store: PrivateStore, one: ObjectId) -> bool:
    """Sealed, and neither held nor granted."""
    copy = store.copies[one]
    return copy.state is State.SEALED and not copy.is_held and not store.is_granted(one)


def is_to_come(store: PrivateStore, one: ObjectId) -> bool:
    """Whether room will come of a work in flight."""
    copy = store.copies[one]
    return copy.is_working and copy.offset is not None and not copy.is_held and not store.is_granted(one)


def is_spillable(store: PrivateStore, one: ObjectId) -> bool:
    copy = store.copies[one]
    is_bare = not copy.is_backed and not copy.is_working and not copy.doomed
    return copy.is_primary and is_bare and is_loose(store, one)


def spill(store: PrivateStore, length: int, evictable: List[ObjectId]) -> int:
    """Asks for writes of as many copies as are in the way, and never finds room at once."""
    coming = evictable + [one for one in store.copies if is_to_come(store, one)]
    refuse_if(free_offset(store, length, coming) is not None, Refusal.Pending)
    candidates = [one for one in store.copies if is_spillable(store, one)]
    helping = (some for some in beginnings(candidates) if free_offset(store, length, [*coming, *some]) is not None)
    chosen = next(helping, None)
    if chosen is None:
        raise Refused(Refusal.Full)
    more = sum(store.copies[one].extent for one in chosen)
    refuse_if(store.device_bytes() + more > store.device_quota, Refusal.Full)
    refuse_if(len(store.works) >= MOST_WORKS, Refusal.Busy)
    if store.spill_failed:
        store.spill_failed = False
        raise Refused(Refusal.DeviceFailed)
    for one in chosen[: MOST_WORKS - len(store.works)]:
        store.ask(one)
    raise Refused(Refusal.Pending)
