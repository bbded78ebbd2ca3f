"""What a call does, apart from how it waits: generators that yield what is to be done next, and are sent what came of it.

A connection that blocks runs them (connection.py), a pool with several (pool.py), and one of asyncio (aio.py).
"""

from __future__ import annotations

import random
import time
from dataclasses import dataclass
from typing import Any, Callable, Generator, List, Optional, Sequence, TypeVar, Union

from .board import Bell
from .ids import ObjectId
from .requests import Answer, Request, value_of

T = TypeVar("T")

# a server that answers has so long for the exchange in which a timeout ends, in seconds: it isn't given up for a late look
GRACE = 1.0


@dataclass(frozen=True)
class Ask:
    """Requests that are sent at once. What comes of it is their answers, refusals among them.

    What is last is sent with them only if the session holds nothing, and has no answer otherwise. It is a Release after its Get: if that is
    refused, the Release would give up another hold.
    """

    requests: Sequence[Request[Any]]
    last: Sequence[Request[Any]] = ()


@dataclass(frozen=True)
class Rest:
    """A pause, in seconds, which a bell may end."""

    seconds: float
    bell: Optional[Bell] = None


@dataclass(frozen=True)
class TakeBack:
    """Objects of ours that are deleted, also if the connection is lost meanwhile, as far as that can be. Nothing is raised."""

    ids: Sequence[ObjectId]


@dataclass(frozen=True)
class Together:
    """Steps that may be run at the same time. All have ended when they are answered, or one has failed and its fault is raised."""

    all: Sequence[Generator[Any, Any, Any]]


Effect = Union[Ask, Rest, TakeBack, Together]
Steps = Generator[Effect, Any, T]


@dataclass(frozen=True)
class Over:
    """That there are no more steps, and what they gave."""

    result: Any


def go_on(steps: Steps[Any], outcome: Any = None) -> Union[Effect, Over]:
    """What is to be done next, now that this came of the last; at the beginning None."""
    try:
        return steps.send(outcome)
    except StopIteration as stop:
        return Over(stop.value)


def fail(steps: Steps[Any], error: BaseException) -> Union[Effect, Over]:
    """What is to be done next, now that the last has failed so. If nothing is, the error is raised."""
    try:
        return steps.throw(error)
    except StopIteration as stop:
        return Over(stop.value)


class Deadline:
    """When the time of a call is over; never, if it is given none."""

    def __init__(self, timeout: Optional[float], awaits_puts: bool = True) -> None:
        """`awaits_puts` says whether a get waits for what nobody has put. What is being put or on its way it waits for in any case."""
        self.end = None if timeout is None else time.monotonic() + timeout
        self.awaits_puts = awaits_puts

    @property
    def is_over(self) -> bool:
        return self.end is not None and time.monotonic() >= self.end

    def within(self, seconds: float) -> float:
        """So many seconds, or what is left if that is less."""
        return seconds if self.end is None else max(0.0, min(seconds, self.end - time.monotonic()))


class Pauses:
    """Pauses between tries, in seconds. Each is a small part of the time that was waited already: so what comes soon is seen soon, and who
    waits for long asks seldom.

    Of what is on its way each is drawn by lot, and is so long at most. Two may have to make room for each other: what comes for one is taken
    away by the other's next try. By pauses of one length they could take turns without end. By lot one soon asks twice in a row, and has it.
    """

    FIRST, LONGEST, LONGEST_IF_TOLD, LONGEST_IF_RESTORED, PART, FAR = 0.001, 0.2, 1.0, 0.02, 32, 8

    def __init__(self, deadline: Deadline) -> None:
        self._deadline = deadline
        #: whether most of what is waited for is told
        self.is_told = False
        #: whether something is on its way, and whether from this node's own device: that takes no longer than a device does
        self.is_moving = self.is_restored = False
        self.restart()

    def restart(self) -> None:
        """Something else is waited for from now on."""
        self._began = time.monotonic()

    @property
    def waited(self) -> float:
        """The time that was waited already, in seconds."""
        return time.monotonic() - self._began

    @property
    def length(self) -> float:
        """How long a pause is now."""
        longest = self.LONGEST_IF_RESTORED if self.is_restored else self.LONGEST_IF_TOLD if self.is_told else self.LONGEST
        return min(longest, max(self.FIRST, self.waited / self.PART))

    @property
    def is_over(self) -> bool:
        """Whether there is no time left."""
        return self._deadline.is_over

    def next(self, bell: Optional[Bell] = None) -> Rest:
        """The next one."""
        return self._rest(self.length, bell)

    def next_far(self, bell: Bell) -> Rest:
        """The next one, of who is told of most that comes."""
        return self._rest(self.length_far, bell)

    def _rest(self, length: float, bell: Optional[Bell]) -> Rest:
        return Rest(self._deadline.within(length * random.random() if self.is_moving else length), bell)

    @property
    def length_far(self) -> float:
        """How long such a pause is now."""
        return self.FAR * min(self.LONGEST, self.length)


def answers_due(requests: Sequence[Request[Any]], end: Optional[float], patience: Optional[float]) -> Optional[float]:
    """Until when the server has to have answered, in a call that ends then, at a connection that has so much patience."""
    if end is not None:
        return max(end, time.monotonic() + GRACE)
    if patience is None or any(request.waits for request in requests):
        return None
    return time.monotonic() + patience


def ask_all(requests: Sequence[Request[Any]]) -> Steps[List[Answer]]:
    """The answers, refusals among them."""
    answers: List[Answer] = (yield Ask(requests)) if requests else []
    return answers


def ask(request: Request[T]) -> Steps[T]:
    """What one command gives; a refusal is raised."""
    answers = yield from ask_all([request])
    value: T = value_of(answers[0])
    return value


def undoing(steps: Steps[T], undo: Callable[[], Steps[None]]) -> Steps[T]:
    """Does the steps. If they fail or are interrupted, what undoes them is done, and then the fault is raised."""
    try:
        # no line comes after the steps, so none that is interrupted is left to itself
        return (yield from steps)
    except GeneratorExit:
        # nobody does these steps any more
        raise
    except BaseException:
        yield from undo()
        raise
