"""Takes a job to one of its limits."""

from __future__ import annotations

from typing import Callable, List, NamedTuple

from .ids import ObjectId
from .words import MOST_BORROWERS, MOST_COPIES, MOST_ENDED_TASKS, MOST_GIVEN, MOST_HOLDS, UNIT

# window and device quota of a job that is taken to a limit
QUOTA = (192, 1024)
# how many more are tried than there may be
MORE = 2
FIRST = 100

# says a command of the job, by its word and values
Say = Callable[..., object]


def to_most_holds(say: Say, one: ObjectId) -> None:
    put(say, one)
    for _ in range(MOST_HOLDS + MORE):
        say("get", one)


def to_most_borrowers(say: Say, one: ObjectId) -> None:
    put(say, one)
    for number in range(FIRST, FIRST + MOST_BORROWERS + MORE):
        say("borrow", one, f"t{number}")


def to_most_grants(say: Say, one: ObjectId) -> None:
    put(say, one)
    for job in range(FIRST, FIRST + MOST_GIVEN + MORE):
        say("grant", one, job)


def to_most_works(say: Say, one: ObjectId) -> None:
    """More copies are in the way of a new one than may be written at once."""
    window, _ = QUOTA
    for index in range(FIRST, FIRST + window // UNIT):
        put(say, one._replace(index=index))
    for _ in range(MORE):
        say("create", one, window)


def to_most_copies(say: Say, one: ObjectId) -> None:
    for index in range(FIRST, FIRST + MOST_COPIES + MORE):
        say("get", one._replace(index=index))
    say("create", one, 1)


def to_most_ended_tasks(say: Say, one: ObjectId) -> None:
    for number in range(FIRST, FIRST + MOST_ENDED_TASKS + MORE):
        say("endtask", f"t{number}")
    say("create", one, 1)


def put(say: Say, one: ObjectId) -> None:
    """A sealed object of the least size."""
    say("create", one, UNIT)
    say("seal", one)


class Crowd(NamedTuple):
    """A way to a limit: the command that it needs, and how often it is drawn."""

    word: str
    weight: int
    draw: Callable[[Say, ObjectId], None]


CROWDS: List[Crowd] = [
    Crowd("get", 3, to_most_holds),
    Crowd("borrow", 3, to_most_borrowers),
    Crowd("grant", 3, to_most_grants),
    Crowd("create", 9, to_most_works),
    Crowd("get", 1, to_most_copies),
    Crowd("endtask", 1, to_most_ended_tasks),
]
