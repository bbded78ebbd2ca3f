"""What is longer than one object: put in parts with a manifest, as a whole or not at all.

The manifest is created first, so it is known at once whether its id is free; then the parts are put, several at a time if there
are several connections; then the manifest is written and sealed. Who finds it sealed finds all parts. If one part finds no room, those
that are there are deleted again. The parts' ids are of the manifest's task, so they end with it.
"""

from __future__ import annotations

import random
from typing import Callable, Dict, List, Optional, Set, Tuple, TypeVar

from .encoding import MANIFEST_HEAD, MOST_PARTS, Manifest, is_manifest
from .finding import Search, let_go
from .frames import LARGEST
from .ids import ObjectId
from .items import State
from .memory import blank
from .putting import (
    NewCopy,
    Progress,
    check_limit,
    fill,
    get,
    get_into,
    granted_lengths,
    hold,
    peek_into,
    put_named,
    put_new,
    reserve,
    take_back,
    write_and_seal,
)
from .refusals import BadSize, Full, StoreError
from .requests import Pieces, Requests, value_of
from .steps import Deadline, Steps, TakeBack, Together, ask, ask_all, undoing

T = TypeVar("T")

# so many parts may be put at once, and have room beside each other in half of the window
MOST_AT_ONCE = 8
_PARTS_OF_A_WINDOW = 2 * MOST_AT_ONCE
# the parts of an object whose id was given have indexes from here on in its task, which hardly anybody gives
_FIRST_INDEX = 1 << 31


class _Moved:
    """How many bytes of all were moved, which somebody is told as parts are done."""

    def __init__(self, progress: Optional[Progress], whole: int) -> None:
        self._progress, self._whole, self._moved = progress, whole, 0

    def with_part(self, steps: Steps[T], length: int) -> Steps[T]:
        """Does the steps, by which a part of this length is moved."""
        result = yield from steps
        self._moved += length
        if self._progress:
            self._progress(self._moved, self._whole)
        return result


def put_whole(
    requests: Requests,
    pieces: Pieces,
    id: Optional[ObjectId],
    new_id: Callable[[], ObjectId],
    deadline: Deadline,
    progress: Optional[Progress] = None,
) -> Steps[ObjectId]:
    """One object, or parts with a manifest if it is too long for one. Its id. The progress is that of parts."""
    name = id or new_id()
    if pieces.length <= LARGEST:
        try:
            yield from (put_named if id else put_new)(requests, pieces, name, deadline)
            return name
        except BadSize:
            if not pieces.length:
                raise
            # the window is smaller than that
    usage = yield from ask(requests.usage())
    window = usage.window
    if pieces.length > window + usage.device:
        # what would be written before the last part finds no room would be written in vain
        raise Full("create", name, requests.job, f"{pieces.length} bytes; window and device quota have {window + usage.device} in all")
    length = min(LARGEST, max(16, window // _PARTS_OF_A_WINDOW // 16 * 16))
    cut = pieces.cut(length)
    if len(cut) > MOST_PARTS:
        most = f"a window of {window} takes {MOST_PARTS} parts of {length}"
        raise BadSize("create", name, requests.job, f"{pieces.length} bytes; {most}")
    ids = _beside(id, len(cut)) if id else [new_id() for _ in cut]
    whole = NewCopy(requests, name, is_secret=not id)
    # no other client gives the ids of parts
    copies = [NewCopy(requests, part, is_secret=True) for part in ids]
    moved = _Moved(progress, pieces.length)
    steps = _put_parts(requests, cut, copies, whole, Manifest(pieces.length, length, ids), deadline, moved)
    with requests.keeping.unfinished(name, ids):
        yield from undoing(steps, lambda: take_back([whole, *copies]))
    return name


def _beside(id: ObjectId, count: int) -> List[ObjectId]:
    """So many ids of the same task, drawn by lot."""
    first = random.SystemRandom().randrange(_FIRST_INDEX, (1 << 32) - count)
    return [id.task.object(index, job=id.job) for index in range(first, first + count)]


def _put_parts(
    requests: Requests,
    cut: List[Pieces],
    copies: List[NewCopy],
    whole: NewCopy,
    manifest: Manifest,
    deadline: Deadline,
    moved: _Moved,
) -> Steps[None]:
    pieces = Pieces([memoryview(manifest.encode())])
    yield from reserve(requests, whole, pieces.length, deadline)
    yield Together([moved.with_part(fill(requests, part, copy, deadline), part.length) for part, copy in zip(cut, copies)])
    yield from write_and_seal(requests, pieces, whole.id)


def get_whole(
    requests: Requests,
    id: ObjectId,
    deadline: Optional[Deadline],
    limit: Optional[int] = None,
    progress: Optional[Progress] = None,
) -> Steps[memoryview]:
    """The bytes of an object, or of all parts if it is a manifest, in one buffer. No hold stays. `TooLong` if they are more than the limit.

    Memory is taken once it is known that the parts are there, as long as the manifest says. Of those of this job that are at
    another node that isn't known before they come.
    """
    whole = yield from get(requests, id, deadline, keep=False, limit=limit)
    manifest = Manifest.decode(whole, id)
    if manifest is None:
        return whole
    check_limit(requests, id, manifest.length, limit)
    lengths, on_device = yield from _known_of_parts(requests, manifest.ids, deadline)
    fits = all(lengths.get(part, len(place)) == len(place) for part, place in manifest.places())
    if fits:
        buffer, moved = blank(manifest.length), _Moved(progress, manifest.length)
        places = [(part, buffer[place.start : place.stop]) for part, place in manifest.places()]
        if id.job == requests.job:
            fits = yield from _get_parts(requests, places, on_device, deadline, moved)
        else:
            yield Together([moved.with_part(peek_into(requests, part, place), len(place)) for part, place in places])
    if not fits:
        raise ValueError(f"{id.text(requests.job)} is a manifest, and a part has another length than it says")
    return buffer.toreadonly()


def _known_of_parts(
    requests: Requests, ids: List[ObjectId], deadline: Optional[Deadline]
) -> Steps[Tuple[Dict[ObjectId, int], Set[ObjectId]]]:
    """The lengths of parts of another job, once all are granted; of this job, of those that are at this node. And which are on the device."""
    if ids and ids[0].job != requests.job:
        return dict(zip(ids, (yield from granted_lengths(requests, ids, deadline)))), set()
    own, _ = yield from ask(requests.list())
    lengths = {item.id: item.length for item in own if item.state is not State.FETCHING}
    return lengths, {item.id for item in own if item.state in (State.AWAY, State.RESTORING)}


def _get_parts(
    requests: Requests, places: List[Tuple[ObjectId, memoryview]], on_device: Set[ObjectId], deadline: Optional[Deadline], moved: _Moved
) -> Steps[bool]:
    """Fills the places, unless a part has another length. Those on the device come last, and one after another: in a full window each takes
    the room of the one before, and at the same time it would take it before that was read."""
    parts = [(part in on_device, moved.with_part(get_into(requests, part, place, deadline), len(place))) for part, place in places]
    at_once = [steps for is_last, steps in parts if not is_last]
    fits: List[bool] = (yield Together(at_once)) if at_once else []
    for is_last, steps in parts:
        if is_last:
            fits.append((yield from steps))
    return all(fits)


def parts_of(requests: Requests, id: ObjectId) -> Steps[List[ObjectId]]:
    """The ids of the parts; none if the object is no manifest. Only the beginning of another object is read."""
    if id.job == requests.job:
        search = Search(requests, id)
        if not is_manifest((yield from undoing(_beginning(requests, search), lambda: let_go([search])))):
            return []
    manifest = Manifest.decode((yield from get(requests, id, None, keep=False)), id)
    return manifest.ids if manifest else []


def _beginning(requests: Requests, search: Search) -> Steps[memoryview]:
    length = yield from hold(requests, search, None)
    answers = yield from ask_all([requests.read(search.id, 0, min(length, MANIFEST_HEAD)), search.release()])
    return memoryview(value_of(answers[0]))


def delete_whole(requests: Requests, id: ObjectId) -> Steps[None]:
    """The object, and its parts if it is a manifest, are removed."""
    parts = yield from parts_of(requests, id)
    yield from ask(requests.delete(id))
    yield TakeBack(parts)


def grant_whole(requests: Requests, id: ObjectId, job: int) -> Steps[None]:
    """The object is granted, after its parts if it is a manifest. If one can't be, none is."""
    given: List[ObjectId] = []
    try:
        for one in [*(yield from parts_of(requests, id)), id]:
            yield from ask(requests.grant(one, job))
            given.append(one)
    except StoreError:
        yield from ask_all([requests.withdraw(one, job) for one in given])
        raise


def withdraw_whole(requests: Requests, id: ObjectId, job: int) -> Steps[None]:
    """The grants of the object and of its parts end."""
    parts = yield from parts_of(requests, id)
    yield from ask(requests.withdraw(id, job))
    yield from ask_all([requests.withdraw(one, job) for one in parts])

