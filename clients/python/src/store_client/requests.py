"""A request is a command's frame and what is known of its reply. All arguments are checked here, before anything is sent."""

from __future__ import annotations

import functools
import struct
from dataclasses import dataclass
from typing import Any, Callable, Dict, Generic, List, Optional, Sequence, Tuple, TypeVar, Union

from . import frames
from .board import Board
from .checks import LAST_NUMBER, whole_number
from .frames import LARGEST, MOST_BYTES, Command, Reply, head, numbers
from .ids import ObjectId, Task, expect_id, expect_task
from .items import GrantedItem, Kind, OwnItem, Placed, Usage
from .keeping import NOBODY
from .refusals import BY_NUMBER, BadSize, ProtocolError, Refused

T = TypeVar("T")

# the commands' names, as a schedule has them
_NAMES = {
    **{command: command.name.lower() for command in Command},
    Command.GET_WAIT: "get",
    Command.CREATE_WAIT: "create",
    Command.GIVE_UP: "giveup",
    Command.END_TASK: "endtask",
}


@dataclass(frozen=True)
class Request(Generic[T]):
    """A command to be sent, and how its reply is read, which is a `T`."""

    command: Command
    # the frame, in pieces
    parts: Tuple[Any, ...]
    due: Reply
    read: Callable[[bytes], T]
    id: Optional[ObjectId] = None
    job: int = 0
    # lengths that a refusal repeats, and the limit that a `BadSize` names
    detail: str = ""
    limit: str = ""
    # where the bytes of the reply go, exactly so many
    into: Optional[memoryview] = None
    # to which the answer is added as soon as it has come, for who has to know it also if the call is interrupted just then
    heard: Optional[List[Any]] = None
    # of a Get, that a Release of it is sent with it
    is_let_go: bool = False

    @property
    def name(self) -> str:
        """The command in the words of a schedule."""
        return _NAMES[self.command]

    @property
    def waits(self) -> bool:
        """Whether the server answers only once something has happened."""
        return self.command in (Command.GET_WAIT, Command.CREATE_WAIT)

    def space_of(self, kind: int, length: int) -> Optional[memoryview]:
        """Where a reply's body of this length goes by itself, if it does."""
        if self.into is None or kind != Reply.BYTES:
            return None
        if length != len(self.into):
            raise ProtocolError(f"{length} bytes came, and {len(self.into)} were asked for")
        return self.into

    def answer(self, kind: int, body: bytes, is_awaited: bool = True) -> Any:
        """What the reply says, a `Refused` among the rest. `ProtocolError` if it is no reply to this command. If nobody awaits it any more,
        nobody hears it."""
        answer = self._read_answer(kind, body)
        if self.heard is not None and is_awaited:
            self.heard.append(answer)
        return answer

    def _read_answer(self, kind: int, body: bytes) -> Any:
        if kind == Reply.REFUSED and len(body) == 1:
            if body[0] not in BY_NUMBER:
                raise ProtocolError(f"there is no refusal {body[0]}")
            refusal = BY_NUMBER[body[0]]
            detail = f"{self.detail}; {self.limit}" if refusal is BadSize and self.limit else self.detail
            return refusal(self.name, self.id, self.job, detail)
        if kind != self.due:
            raise ProtocolError(f"a reply of kind {kind:#04x} came, and {int(self.due):#04x} is due")
        try:
            return self.read(body)
        except (ValueError, struct.error) as error:
            raise ProtocolError(f"what came is no such reply: {error}") from error


Answer = Union[Any, Refused]


class Repeated(List[Request[Any]]):
    """Requests that are sent at once, again and again. If they are refused as they were before, the answers are the same objects."""

    def __init__(self, requests: Sequence[Request[Any]]) -> None:
        super().__init__(requests)
        self.frames = b"".join(part for request in requests for part in request.parts)
        #: the answers that were given last, and their frames, if all were refused
        self.answers: List[Answer] = []
        self.refusals = b""

    def note(self, answers: List[Answer]) -> None:
        """They were answered so."""
        is_refused = all(isinstance(answer, Refused) for answer in answers)
        self.answers = answers
        self.refusals = b"".join(frames.frame(Reply.REFUSED, bytes([answer.number])) for answer in answers) if is_refused else b""


def value_of(answer: Answer) -> Any:
    """What was answered; a refusal is raised."""
    if isinstance(answer, Refused):
        raise answer
    return answer


def count_done(answers: Sequence[Answer]) -> int:
    """How many of the answers are no refusals."""
    return sum(not isinstance(answer, Refused) for answer in answers)


def holds_after(holds: int, requests: Sequence[Request[Any]], answers: Sequence[Answer]) -> int:
    """How many holds a session has that had so many, once the requests were answered so."""
    for request, answer in zip(requests, answers):
        if isinstance(answer, Refused):
            continue
        if request.due is Reply.GOT:
            holds += 1
        elif request.command is Command.RELEASE:
            holds -= 1
        elif request.command is Command.LEAVE:
            holds = 0
    return holds


def first_refusal(answers: Sequence[Answer]) -> Optional[Refused]:
    """The first of the answers that is a refusal."""
    return next((answer for answer in answers if isinstance(answer, Refused)), None)


def hello(job: int, key: bytes) -> Request[None]:
    return Request(Command.HELLO, _frame(Command.HELLO, numbers(job) + key), Reply.OK, _read_nothing, job=job, detail=f"job {job}")


class Lengths:
    """The lengths of the objects that were got last. The next one's is likely that of both."""

    def __init__(self) -> None:
        self._last = self._before = 0

    def note(self, length: int) -> None:
        self._last, self._before = length, self._last

    @property
    def likely(self) -> int:
        """The length that the next one is likely to have, or 0."""
        return self._last if self._last == self._before else 0


class Requests:
    """The requests of one job."""

    def __init__(self, job: int) -> None:
        self.job = job
        #: whom who puts tells so, and what those who wait share
        self.keeping = NOBODY
        self.board = Board()
        self.lengths = Lengths()

    def create(
        self, id: ObjectId, length: int, kind: Kind = Kind.PRIMARY, wait: bool = False, heard: Optional[List[Any]] = None
    ) -> Request[Placed]:
        length = whole_number(length, "a length", 0, LAST_NUMBER)
        try:
            kind = Kind(kind)
        except ValueError:
            raise ValueError(f"a kind is Kind.PRIMARY (0) or Kind.SECONDARY (1), not {kind!r}") from None
        command = Command.CREATE_WAIT if wait else Command.CREATE
        sent = _frame(command, expect_id(id).to_bytes() + bytes([kind]) + numbers(length))
        limit = f"an object has 1 to {LARGEST}, and at most the window"
        return Request(command, sent, Reply.PLACED, _read_placed, id, self.job, f"{length} bytes", limit, heard=heard)

    def write(self, id: ObjectId, offset: int, views: Sequence[memoryview]) -> Request[None]:
        count = sum(map(len, views))
        offset = whole_number(offset, "an offset", 0, LAST_NUMBER)
        if 37 + count > LAST_NUMBER:
            raise ValueError(f"a Write has at most {MOST_BYTES} bytes, not {count}")
        fields = expect_id(id).to_bytes() + numbers(offset)
        parts = (head(Command.WRITE, len(fields) + count) + fields, *filter(len, views))
        return Request(Command.WRITE, parts, Reply.OK, _read_nothing, id, self.job, _stretch(offset, count), _most("Write"))

    def writes(self, id: ObjectId, pieces: Pieces) -> List[Request[None]]:
        """The Writes of a whole object."""
        return [self.write(id, number * MOST_BYTES, piece.views) for number, piece in enumerate(pieces.cut(MOST_BYTES))]

    def seal(self, id: ObjectId) -> Request[None]:
        return self._told(Command.SEAL, id)

    def get(self, id: ObjectId, wait: bool = False, heard: Optional[List[Any]] = None) -> Request[int]:
        command = Command.GET_WAIT if wait else Command.GET
        return Request(command, _frame(command, expect_id(id).to_bytes()), Reply.GOT, _read_length, id, self.job, heard=heard)

    def read(self, id: ObjectId, offset: int, count: int, into: Optional[memoryview] = None) -> Request[bytes]:
        return self._bytes_of(Command.READ, id, offset, count, into)

    def reads(self, id: ObjectId, into: memoryview) -> List[Request[bytes]]:
        """The Reads that fill the buffer."""
        return [self.read(id, at, len(part), part) for at, part in _parts(into)]

    def peek(self, id: ObjectId, offset: int, count: int, into: Optional[memoryview] = None) -> Request[bytes]:
        return self._bytes_of(Command.PEEK, id, offset, count, into)

    def peeks(self, id: ObjectId, into: memoryview) -> List[Request[bytes]]:
        """The Peeks that fill the buffer."""
        return [self.peek(id, at, len(part), part) for at, part in _parts(into)]

    def release(self, id: ObjectId, heard: Optional[List[Any]] = None) -> Request[None]:
        return self._told(Command.RELEASE, id, heard=heard)

    def unpin(self, id: ObjectId, task: Task) -> Request[None]:
        return self._told(Command.UNPIN, id, expect_task(task).value)

    def borrow(self, id: ObjectId, task: Task) -> Request[None]:
        return self._told(Command.BORROW, id, expect_task(task).value)

    def give_up(self, id: ObjectId, task: Task) -> Request[None]:
        return self._told(Command.GIVE_UP, id, expect_task(task).value)

    def delete(self, id: ObjectId) -> Request[None]:
        return self._told(Command.DELETE, id)

    def end_task(self, task: Task) -> Request[None]:
        sent = _frame(Command.END_TASK, expect_task(task).value)
        return Request(Command.END_TASK, sent, Reply.OK, _read_nothing, job=self.job, detail=f"task {task}")

    def grant(self, id: ObjectId, job: int) -> Request[None]:
        number = whole_number(job, "a job", 0, LAST_NUMBER)
        return self._told(Command.GRANT, id, numbers(number), detail=f"to job {number}")

    def withdraw(self, id: ObjectId, job: int) -> Request[None]:
        number = whole_number(job, "a job", 0, LAST_NUMBER)
        return self._told(Command.WITHDRAW, id, numbers(number), detail=f"from job {number}")

    def list(self, prefix: bytes = b"") -> Request[Tuple[List[OwnItem], List[GrantedItem]]]:
        """Of the job's own copies those whose ids begin so."""
        return Request(Command.LIST, _frame(Command.LIST), Reply.LIST, functools.partial(frames.read_list, prefix=prefix), job=self.job)

    def names(self) -> Request[Dict[bytes, int]]:
        """What a List tells, in a form that is read quickly."""
        return Request(Command.LIST, _frame(Command.LIST), Reply.LIST, frames.read_names, job=self.job)

    def usage(self) -> Request[Usage]:
        return Request(Command.USAGE, _frame(Command.USAGE), Reply.USAGE, frames.read_usage, job=self.job)

    def leave(self) -> Request[None]:
        return Request(Command.LEAVE, _frame(Command.LEAVE), Reply.OK, _read_nothing, job=self.job)

    def _told(
        self, command: Command, id: ObjectId, more: bytes = b"", detail: str = "", heard: Optional[List[Any]] = None
    ) -> Request[None]:
        """A command whose body is an id and what follows it, and which is answered Ok."""
        sent = _frame(command, expect_id(id).to_bytes() + more)
        return Request(command, sent, Reply.OK, _read_nothing, id, self.job, detail, heard=heard)

    def _bytes_of(self, command: Command, id: ObjectId, offset: int, count: int, into: Optional[memoryview]) -> Request[bytes]:
        offset = whole_number(offset, "an offset", 0, LAST_NUMBER)
        count = whole_number(count, "a number of bytes", 0, LAST_NUMBER)
        sent = _frame(command, expect_id(id).to_bytes() + numbers(offset, count))
        limit = _most(command.name.capitalize())
        # what comes into a buffer of the caller's is as long as that
        due = count if into is None else None
        read = functools.partial(_read_bytes, due)
        return Request(command, sent, Reply.BYTES, read, id, self.job, _stretch(offset, count), limit, into)


class Pieces:
    """Views of bytes that are one after the other, as if they were one."""

    def __init__(self, views: Sequence[memoryview]) -> None:
        self.views = [view for view in views if len(view)]
        self.length = sum(map(len, self.views))

    def cut(self, length: int) -> List[Pieces]:
        """Pieces of this length each; the last one has what is left."""
        cut: List[Pieces] = []
        views: List[memoryview] = []
        missing = length
        for view in self.views:
            while len(view) >= missing:
                cut.append(Pieces([*views, view[:missing]]))
                views, view, missing = [], view[missing:], length
            if len(view):
                views.append(view)
                missing -= len(view)
        return [*cut, Pieces(views)] if views else cut


def _frame(command: Command, body: bytes = b"") -> Tuple[bytes]:
    return (frames.frame(command, body),)


def _parts(into: memoryview) -> List[Tuple[int, memoryview]]:
    return [(at, into[at : at + MOST_BYTES]) for at in range(0, len(into), MOST_BYTES)]


def _stretch(offset: int, count: int) -> str:
    return f"{count} bytes from {offset} on"


def _most(what: str) -> str:
    return f"a {what} has at most {MOST_BYTES}"


def _read_nothing(body: bytes) -> None:
    if body:
        raise ValueError("an Ok with more bytes")


def _read_placed(body: bytes) -> Placed:
    return Placed(*struct.unpack(">2I", body))


def _read_bytes(due: Optional[int], body: bytes) -> bytes:
    if due is not None and len(body) != due:
        raise ValueError(f"{len(body)} bytes, and {due} were asked for")
    return body


def _read_length(body: bytes) -> int:
    length = int(struct.unpack(">I", body)[0])
    if not 1 <= length <= LARGEST:
        raise ValueError(f"no object has {length} bytes")
    return length
