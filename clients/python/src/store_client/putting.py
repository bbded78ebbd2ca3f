"""What a put and a get of one whole object do.

A put under a new id, which nobody else can know, is sent in one burst: Create, the Writes, Seal. If a Write is refused, the
object is deleted before anybody hears of it. Under an id that was given, others may know the object: it is created first, since
otherwise our Writes would go into a copy that another producer is writing; and it is sealed once all Writes are answered, since
nobody should see it half written.

A Create that meets a fetch in the place of the object takes the fetch away, by Get and never by Delete: a fetch that failed is
removed by that, and any other copy stays what it is. If the fetch has found the object at another node, it is there already, and the put
is refused with `3 Exists` as soon as the fetch has ended.
"""

from __future__ import annotations

from typing import Any, Callable, List, Optional, Sequence

from .finding import Search, find, find_what_is_there, let_go, state_of
from .frames import LARGEST, MOST_BYTES
from .ids import ObjectId
from .items import Kind, Placed, State
from .memory import blank
from .refusals import Absent, BadSize, Busy, Exists, NotGranted, Pending, Refused, TooLong
from .requests import Answer, Pieces, Request, Requests, count_done, first_refusal, value_of
from .steps import Deadline, Pauses, Steps, TakeBack, ask, ask_all, undoing

# called with the bytes moved so far and the bytes in all
Progress = Callable[[int, int], None]

# up to which length, in bytes, the whole object is sent with its Create: what is longer would be sent in vain too often
_BURST = 1 << 20


class NewCopy:
    """A copy that is to be created. Whether there is one to be taken back is known at any time, also to a call that is interrupted."""

    def __init__(self, requests: Requests, id: ObjectId, is_secret: bool, kind: Kind = Kind.PRIMARY) -> None:
        """`is_secret` says that nobody else can know the id."""
        self._requests = requests
        self.id = id
        self._kind = kind
        self._is_secret = is_secret
        self._tries = 0
        # the answers to its Creates, as they come
        self._answers: List[Answer] = []

    def create(self, length: int) -> Request[Placed]:
        """A try to create it."""
        self._tries += 1
        return self._requests.create(self.id, length, self._kind, heard=self._answers)

    @property
    def is_ours(self) -> bool:
        """Whether a Create was answered with a copy; or may have been, if nobody else can know the id."""
        return (self._tries - len(self._answers) if self._is_secret else 0) + count_done(self._answers) > 0


def take_back(copies: Sequence[NewCopy]) -> Steps[None]:
    """Deletes those that are ours."""
    ids = [copy.id for copy in copies if copy.is_ours]
    if ids:
        yield TakeBack(ids)


def put_new(
    requests: Requests,
    pieces: Pieces,
    id: ObjectId,
    deadline: Deadline,
    progress: Optional[Progress] = None,
    kind: Kind = Kind.PRIMARY,
) -> Steps[None]:
    """A sealed object under an id that nobody else knows. If it can't be written whole it is deleted again."""
    copy = NewCopy(requests, id, is_secret=True, kind=kind)
    yield from undoing(_fill_new(requests, pieces, copy, deadline, progress), lambda: take_back([copy]))


def _fill_new(requests: Requests, pieces: Pieces, copy: NewCopy, deadline: Deadline, progress: Optional[Progress]) -> Steps[None]:
    writes, seal = requests.writes(copy.id, pieces), requests.seal(copy.id)
    if 1 <= pieces.length <= _BURST and progress is None:
        answers = yield from ask_all([copy.create(pieces.length), *writes, seal])
        if not isinstance(answers[0], (Pending, Busy)):
            _raise(first_refusal(answers))
            return
    yield from reserve(requests, copy, pieces.length, deadline)
    yield from _one_by_one_or_all(writes, [seal], pieces.length, progress)


def put_named(
    requests: Requests,
    pieces: Pieces,
    id: ObjectId,
    deadline: Deadline,
    progress: Optional[Progress] = None,
    kind: Kind = Kind.PRIMARY,
) -> Steps[None]:
    """A sealed object under an id that others may know. If it can't be written whole it is deleted again, unless the call is cut
    off before it is known whose copy it is."""
    copy = NewCopy(requests, id, is_secret=False, kind=kind)
    with requests.keeping.unfinished(id):
        yield from undoing(fill(requests, pieces, copy, deadline, progress), lambda: take_back([copy]))


def fill(requests: Requests, pieces: Pieces, copy: NewCopy, deadline: Deadline, progress: Optional[Progress] = None) -> Steps[None]:
    """Creates, writes and seals."""
    yield from reserve(requests, copy, pieces.length, deadline)
    yield from write_and_seal(requests, pieces, copy.id, progress)


def write_and_seal(requests: Requests, pieces: Pieces, id: ObjectId, progress: Optional[Progress] = None) -> Steps[None]:
    """Fills a copy that was created, and seals it once all of it is there."""
    yield from _one_by_one_or_all(requests.writes(id, pieces), [], pieces.length, progress)
    yield from ask(requests.seal(id))


def _raise(refusal: Optional[Refused]) -> None:
    if refusal is not None:
        raise refusal


def reserve(requests: Requests, copy: NewCopy, length: int, deadline: Deadline) -> Steps[None]:
    """Creates the copy, as soon as there is room and no fetch in its place."""
    if length >= 1 << 32:
        # no frame can say that
        raise BadSize("create", copy.id, requests.job, f"{length} bytes; an object has 1 to {LARGEST}")
    pauses = Pauses(deadline)
    while True:
        refusal = first_refusal((yield from ask_all([copy.create(length)])))
        if isinstance(refusal, Exists):
            refusal = yield from _take_fetch_away(requests, copy, length, refusal)
        if refusal is None:
            return
        if deadline.is_over or not isinstance(refusal, (Pending, Busy)):
            raise refusal
        yield pauses.next()


def _take_fetch_away(requests: Requests, copy: NewCopy, length: int, exists: Exists) -> Steps[Optional[Refused]]:
    """The copy in the place of a fetch that has failed, or `Pending` as long as it hasn't. Another copy there is `Exists`."""
    state = yield from state_of(requests, copy.id)
    if state not in (None, State.FETCHING):
        raise exists
    got, created = yield from ask_all([requests.get(copy.id), copy.create(length)])
    if not isinstance(created, Refused):
        return None
    if not isinstance(got, Refused):
        yield from ask_all([requests.release(copy.id)])
        raise exists
    return Pending("create", copy.id, requests.job, "a fetch is in its place") if isinstance(created, Exists) else created


def hold(requests: Requests, search: Search, deadline: Optional[Deadline]) -> Steps[int]:
    """One hold of an object of this job, and its length. With a deadline it is waited for."""
    if deadline is None:
        yield from find_what_is_there(requests, search)
    else:
        yield from find(requests, [search], 1, deadline)
    if search.length is None:
        raise search.refusal or Absent("get", search.id, requests.job)
    yield from ask_all([search.release() for _ in range(search.holds - 1)])
    return search.length


def granted_lengths(requests: Requests, ids: Sequence[ObjectId], deadline: Optional[Deadline]) -> Steps[List[int]]:
    """The lengths of objects that another job granted. With a deadline the grants are waited for."""
    pauses = Pauses(deadline or Deadline(0))
    while True:
        _, granted = yield from ask(requests.list())
        lengths = {item.id: item.length for item in granted}
        missing = next((id for id in ids if id not in lengths), None)
        if missing is None:
            return [lengths[id] for id in ids]
        if deadline is None or deadline.is_over or not deadline.awaits_puts:
            raise NotGranted("peek", missing, requests.job)
        yield pauses.next()


def check_limit(requests: Requests, id: ObjectId, length: int, limit: Optional[int]) -> None:
    """`TooLong` before memory is taken."""
    if limit is not None and length > limit:
        raise TooLong(f"{id.text(requests.job)} has {length} bytes, and the limit is {limit}")


def get(
    requests: Requests,
    id: ObjectId,
    deadline: Optional[Deadline],
    keep: bool,
    progress: Optional[Progress] = None,
    limit: Optional[int] = None,
) -> Steps[memoryview]:
    """An object's bytes. The hold of an object of this job stays if `keep` says so; one that was granted is never held."""
    if id.job != requests.job:
        (length,) = yield from granted_lengths(requests, [id], deadline)
        check_limit(requests, id, length, limit)
        buffer = blank(length)
        yield from peek_into(requests, id, buffer, progress)
        return buffer.toreadonly()
    likely = 0 if progress else requests.lengths.likely
    search = Search(requests, id, deadline is None or deadline.awaits_puts, likely, keep)
    return (yield from undoing(_get_own(requests, search, deadline, keep, progress, limit), lambda: let_go([search])))


def peek_into(requests: Requests, id: ObjectId, into: memoryview, progress: Optional[Progress] = None) -> Steps[None]:
    """The bytes of an object that another job granted, into a buffer of its length."""
    yield from _one_by_one_or_all(requests.peeks(id, into), [], len(into), progress)


def _get_own(
    requests: Requests, search: Search, deadline: Optional[Deadline], keep: bool, progress: Optional[Progress], limit: Optional[int]
) -> Steps[memoryview]:
    length = yield from hold(requests, search, deadline)
    requests.lengths.note(length)
    check_limit(requests, search.id, length, limit)
    if search.bytes is not None:
        yield from ask_all([search.release() for _ in range(0 if keep else search.holds)])
        return memoryview(value_of(search.bytes))
    if not search.holds:
        search.begin_anew()
        length = yield from hold(requests, search, deadline)
    buffer = blank(length)
    last = [] if keep else [search.release()]
    yield from _one_by_one_or_all(requests.reads(search.id, buffer), last, len(buffer), progress)
    return buffer.toreadonly()


def get_into(requests: Requests, id: ObjectId, into: memoryview, deadline: Optional[Deadline]) -> Steps[bool]:
    """The same into a buffer of the object's length; `False` if it has another length. No hold stays."""
    if id.job != requests.job:
        fits = (yield from granted_lengths(requests, [id], deadline)) == [len(into)]
        if fits:
            yield from peek_into(requests, id, into)
        return fits
    search = Search(requests, id, deadline is None or deadline.awaits_puts, len(into), keep=False)
    return (yield from undoing(_get_own_into(requests, search, into, deadline), lambda: let_go([search])))


def _get_own_into(requests: Requests, search: Search, into: memoryview, deadline: Optional[Deadline]) -> Steps[bool]:
    fits = (yield from hold(requests, search, deadline)) == len(into)
    reads = requests.reads(search.id, into) if fits and search.bytes is None else []
    yield from _one_by_one_or_all(reads, [search.release() for _ in range(search.holds)], len(into), None)
    if search.bytes is not None:
        into[:] = value_of(search.bytes)
    return fits


def _one_by_one_or_all(moving: List[Request[Any]], last: List[Request[Any]], length: int, progress: Optional[Progress]) -> Steps[None]:
    """The Writes, Reads or Peeks in one burst with what comes last; one by one if somebody wants to know how far they are."""
    if progress is None:
        _raise(first_refusal((yield from ask_all([*moving, *last]))))
        return
    for number, request in enumerate(moving, 1):
        yield from ask(request)
        progress(min(number * MOST_BYTES, length), length)
    if last:
        _raise(first_refusal((yield from ask_all(last))))
