"""Waiting for objects: how a get looks for what may not be there yet, and leaves nothing in its way.

A Get of an id that this node doesn't know enters a fetch, and answers `10 Pending`. The next Get is told what came of it: if
no node has the object sealed, `4 Absent`, and the fetch is removed. In between, the fetch lies in the place of the object, and
a Create of it is `3 Exists`. From this come the rules:

* **A look is asked to its end.** A Get that is Pending is at once followed by another. If no node has the object, that is
  Absent, and nothing of the look is left, neither in the way of who creates the object nor among the job's copies. From the second
  look on both are sent together, so a fetch of ours stands as long as the server takes from one command to the next. What is
  pending after two Gets is a transfer from a node that has the object, or a restore from the device.
* **A transfer is left to go on.** It is of an object that exists, so nobody has to create it; each Get of it asks for
  its missing chunks once more, so it is asked about by a Read of no bytes, which changes nothing, and by a Get after 0.1
  seconds, 0.2, and so on up to 2. If the time is over the transfer goes on by itself. Its copy is a secondary
  like others, which is evicted if room is needed.
* **What is heard of is looked for at once.** After a tenth of a second the keeper of the host is listened to (listening.py), which tells of
  puts that have ended. It tells of no others, such as those of other clients, and so the looks go on, up to a second apart where they would be 0.2.
* **A fetch that finds no room is deleted.** If a Get is answered Full or BadSize, and the copy is listed as one that is being
  fetched, the look that found it takes it away again. This is the only Delete of a look. It isn't sent if the list shows
  anything else, such as an object of this node on the device. To lose by it, other sessions would have to get the object room, fetch
  it in vain, remove it and create it anew, all between the list and the Delete.
* **Who puts, and meets a fetch** in the place of the object (putting.py), takes it away by a Get, and never by a Delete, so the
  object of another producer is never in danger.

Consumer and producer at one node: the look is over before the producer creates, or the producer's Create comes between both Gets
and is Exists, and then its own Get collects the fetch and it creates. Several consumers at one node may take each other's fetches
away, or enter one after another's look: it is taken away by the next look, at most 0.1 seconds later, or by the producer. A look
that is cut off by Ctrl-C in the middle of an exchange, with the connection, may leave its fetch to be taken away so. At two nodes:
a fetch at the consumer's node is in nobody's way at the producer's. An object whose seal the directory hasn't been told of yet is
Absent, and found by a later look.
"""

from __future__ import annotations

import contextlib
import enum
import time
from typing import Any, Dict, List, Optional, Sequence, Tuple

from .board import Bell, is_there
from .checks import seconds, whole_number
from .frames import MOST_BYTES
from .ids import ObjectId, expect_id
from .items import State
from .listening import listens
from .refusals import Absent, BadSize, Busy, Full, NotGranted, NotHeld, NotSealed, Pending, Refused, StoreError
from .requests import Answer, Repeated, Request, Requests, count_done
from .steps import Ask, Deadline, Pauses, Steps, ask, ask_all, undoing

# what is worth another look, if there is time
NOT_YET = (Absent, NotSealed, Busy, NotGranted, Pending)

# after how many seconds a transfer is asked for again, at first and at most
_FIRST_REMINDER, _LAST_REMINDER = 0.1, 2.0
# after so many seconds of a wait the keeper is listened to: until then the pauses are short
_LISTENS_AFTER = 0.1


class _Phase(enum.Enum):
    """What is asked next of an object."""

    UNKNOWN = enum.auto()  # one Get
    ENTERED = enum.auto()  # one Get, at once
    UNDER_WAY = enum.auto()  # a Read of no bytes, or a Get when it is time
    MISSING = enum.auto()  # two Gets
    OVER = enum.auto()  # nothing: it is here, or refused for another reason


class Search:
    """What is known of one object that is waited for."""

    def __init__(self, requests: Requests, id: ObjectId, awaits_put: bool = True, likely: int = 0, keep: bool = True) -> None:
        """`awaits_put` says whether it is waited for if nobody has put it. If it is likely to have this length, its bytes are asked for
        with the first Get; and unless `keep` says that it is to stay, the hold is given up in the same trip, if the session has no other.
        """
        self._requests = requests
        self._likely, self._keep = likely if likely <= MOST_BYTES else 0, keep
        self.id = id
        self._awaits_put = awaits_put
        self.is_foreign = id.job != requests.job
        self._phase = _Phase.UNKNOWN
        self._reminder = _FIRST_REMINDER
        self._remind_at = 0.0
        # whether it was seen at this node, sealed: what of that is pending is on the device
        self._is_at_node = False
        self.name = id.to_bytes()
        #: until when a List tells whether to look here, by the monotonic clock: it says nothing of other nodes
        self.listed_until = 0.0
        #: the object's length, once it is here and is this job's
        self.length: Optional[int] = None
        #: the answer to the Read of its bytes, if it has the length that was likely
        self.bytes: Optional[Answer] = None
        #: the last refusal
        self.refusal: Optional[Refused] = None
        # the answers to its Gets and Releases, as they come
        self._gets: List[Answer] = []
        self._releases: List[Answer] = []
        # a look at what is missing
        self._both = Repeated(2 * [requests.get(id, heard=self._gets)])

    @property
    def is_over(self) -> bool:
        """Whether the object is here, or is there and can't be had."""
        return self._phase is _Phase.OVER

    @property
    def is_urgent(self) -> bool:
        """Whether it is asked about again without a pause."""
        return self._phase is _Phase.ENTERED

    @property
    def is_moving(self) -> bool:
        """Whether it is on its way."""
        return self._phase is _Phase.UNDER_WAY

    @property
    def is_restored(self) -> bool:
        """Whether it is on its way from this node's own device, or waits until that has made room."""
        return self.is_moving and self._is_at_node

    @property
    def is_told_of(self) -> bool:
        """Whether the keeper tells when it has come, if this client puts it: it tells of no grant, and not of the end of a transfer."""
        return self._phase is _Phase.MISSING and not self.is_foreign

    def is_due(self, names: Dict[bytes, int]) -> bool:
        """Whether it is worth a look, now that this is listed."""
        if self._phase is not _Phase.MISSING or is_there(self.name, names):
            return True
        return not self.is_foreign and time.monotonic() >= self.listed_until

    @property
    def holds(self) -> int:
        """How many holds of the session the search has. This is so at any time, also of a call that is interrupted."""
        return count_done(self._gets) - count_done(self._releases)

    def release(self) -> Request[None]:
        """One of its holds less."""
        return self._requests.release(self.id, self._releases)

    def begin_anew(self) -> None:
        """Its hold was given up, and is wanted."""
        self._phase, self._likely, self.length = _Phase.UNKNOWN, 0, None

    @property
    def _asks_for_bytes(self) -> bool:
        return self._phase is _Phase.UNKNOWN and self._likely > 0 and not self.is_foreign

    def last_questions(self) -> List[Request[Any]]:
        """What is asked after all questions, if the session holds nothing."""
        return [self.release()] if self._asks_for_bytes and not self._keep else []

    def questions(self) -> Sequence[Request[Any]]:
        """What is asked now."""
        if self.is_foreign:
            return [self._requests.peek(self.id, 0, 0)]
        if self._phase is _Phase.MISSING:
            return self._both
        if self._phase is _Phase.UNDER_WAY and time.monotonic() < self._remind_at:
            return [self._requests.read(self.id, 0, 0)]
        get = self._both[0]
        return [get, self._requests.read(self.id, 0, self._likely)] if self._asks_for_bytes else [get]

    def hear(self, asked: Sequence[Request[Any]], answers: Sequence[Answer]) -> None:
        """Takes the answers to what was asked."""
        if asked is self._both and answers[-1] is self.refusal:
            # all is as it was
            return
        if asked[0].name == "read":
            # a copy that is no longer being fetched is here, or being restored, or gone: a Get tells
            self._is_at_node = not isinstance(answers[0], (Absent, NotSealed))
            if not isinstance(answers[0], NotSealed):
                self._phase = _Phase.ENTERED
            return
        if asked[-1].name == "read":
            self.bytes = answers[-1] if answers[0] == self._likely else None
            answers = answers[:1]
        found = [answer for answer in answers if not isinstance(answer, Refused)]
        if found:
            self._phase, self.refusal = _Phase.OVER, None
            self.length = None if self.is_foreign else found[0]
            return
        # of a long wait they would be many
        self._gets[:] = [answer for answer in self._gets if not isinstance(answer, Refused)]
        for answer in answers:
            self._phase = self._phase_after(answer)
            self.refusal = answer

    def _phase_after(self, refusal: Refused) -> _Phase:
        if not isinstance(refusal, Pending):
            self._reminder = _FIRST_REMINDER
            is_awaited = isinstance(refusal, NOT_YET) and (self._awaits_put or not isinstance(refusal, Absent))
            return _Phase.MISSING if is_awaited else _Phase.OVER
        # this Get may have entered the fetch
        if not isinstance(self.refusal, Pending):
            return _Phase.ENTERED
        self._remind_at = time.monotonic() + self._reminder
        self._reminder = min(2 * self._reminder, _LAST_REMINDER)
        return _Phase.UNDER_WAY


def look(requests: Requests, searches: Sequence[Search]) -> Steps[None]:
    """One look at each of them that isn't over, asked to its end."""
    asked_of = [search for search in searches if not search.is_over]
    while asked_of:
        asked = [search.questions() for search in asked_of]
        last = [request for search in asked_of for request in search.last_questions()]
        answers = yield Ask(asked[0] if len(asked) == 1 else [request for questions in asked for request in questions], last)
        for search, questions in zip(asked_of, asked):
            search.hear(questions, answers[: len(questions)])
            answers = answers[len(questions) :]
            if isinstance(search.refusal, (Full, BadSize)):
                yield from _drop_fetch(requests, search.id)
        asked_of = [search for search in asked_of if search.is_urgent]


def find(requests: Requests, searches: Sequence[Search], count: int, deadline: Deadline) -> Steps[None]:
    """Looks until so many of the searches are over, or the time is."""
    pauses, board, bell = Pauses(deadline), requests.board, Bell()
    board.waits.update(dict.fromkeys(searches, bell))
    moving = 0
    try:
        yield from look(requests, searches)
        while sum(search.is_over for search in searches) < count and not deadline.is_over:
            # a transfer takes as long as it does, however late it began
            moving, before = sum(search.is_moving for search in searches), moving
            if moving > before:
                pauses.restart()
            pauses.is_moving, pauses.is_restored = moving > 0, any(search.is_restored for search in searches)
            yield from look(requests, (yield from _await_next_look(requests, searches, pauses, bell)))
    finally:
        for search in searches:
            board.waits.pop(search, None)
        board.leave(bell)


def _await_next_look(requests: Requests, searches: Sequence[Search], pauses: Pauses, bell: Bell) -> Steps[Sequence[Search]]:
    """Pauses. Which of the searches are worth a look then."""
    board = requests.board
    hears = pauses.waited >= _LISTENS_AFTER and listens(requests.keeping)
    pauses.is_told = hears and all(search.is_told_of for search in searches if not search.is_over)
    is_shared = board.is_shared
    leads = is_shared and board.leads(bell, pauses.length)
    yield pauses.next_far(bell) if is_shared and not leads else pauses.next(bell)
    if bell.has_come:
        # at another node it may be a moment until that is known here
        bell.has_come = False
        pauses.restart()
    if not leads or pauses.is_over:
        return searches
    names = yield from ask(requests.names())
    board.tell(names)
    bell.hush()
    due = [search for search in searches if search.is_due(names)]
    for search in due:
        search.listed_until = time.monotonic() + pauses.length_far
    return due


def find_what_is_there(requests: Requests, search: Search) -> Steps[None]:
    """Looks until the object is here, or nobody has it sealed."""
    pauses = Pauses(Deadline(None))
    while True:
        yield from look(requests, [search])
        if not isinstance(search.refusal, Pending):
            return
        pauses.is_moving, pauses.is_restored = search.is_moving, search.is_restored
        yield pauses.next()


def _drop_fetch(requests: Requests, id: ObjectId) -> Steps[None]:
    """If the copy that found no room is a fetch, it is given up."""
    state = yield from state_of(requests, id)
    if state is State.FETCHING:
        yield from ask_all([requests.delete(id)])


def state_of(requests: Requests, id: ObjectId) -> Steps[Optional[State]]:
    """The state of this job's copy at the node; None if there is none."""
    own, _ = yield from ask(requests.list())
    return next((item.state for item in own if item.id == id), None)


def wait(requests: Requests, ids: Sequence[ObjectId], count: int, deadline: Deadline) -> Steps[List[bool]]:
    """Of each id whether it is here, or there and can't be had, once that is so of `count` of them or the time is over."""
    searches = [Search(requests, id) for id in ids]
    yield from undoing(_find_and_let_go(requests, searches, count, deadline), lambda: let_go(searches))
    return [search.is_over for search in searches]


def _find_and_let_go(requests: Requests, searches: Sequence[Search], count: int, deadline: Deadline) -> Steps[None]:
    yield from find(requests, searches, count, deadline)
    yield from let_go(searches)


def let_go(searches: Sequence[Search]) -> Steps[None]:
    """The searches' holds are given up, also by the end of the session if it is lost."""
    with contextlib.suppress(StoreError):
        yield from ask_all([search.release() for search in searches for _ in range(search.holds)])


def checked_wait(ids: Sequence[ObjectId], count: int, timeout: Optional[float]) -> Tuple[List[ObjectId], int, Optional[float]]:
    """What `wait` was given. `TypeError`, `ValueError`."""
    names = [expect_id(id) for id in ids]
    if len(set(names)) != len(names):
        raise ValueError("an id stands twice among those that are waited for")
    count = whole_number(count, "how many are waited for", 1, len(names)) if names else 0
    return names, count, seconds(timeout)


def parted(ids: Sequence[ObjectId], here: Sequence[bool]) -> Tuple[List[ObjectId], List[ObjectId]]:
    """The ids of what is here, and the others."""
    return [id for id, is_here in zip(ids, here) if is_here], [id for id, is_here in zip(ids, here) if not is_here]


def contains(requests: Requests, id: ObjectId) -> Steps[bool]:
    """Whether the object lies sealed at this node, in memory or on the device, or is granted to the job. Nothing changes."""
    question = requests.peek(id, 0, 0) if id.job != requests.job else requests.read(id, 0, 0)
    answer = (yield from ask_all([question]))[0]
    if isinstance(answer, (Absent, NotSealed, NotGranted)):
        return False
    if isinstance(answer, Refused) and not isinstance(answer, NotHeld):
        raise answer
    return True

