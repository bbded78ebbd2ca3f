"""The guarantee at a program that serves: a job's reply frames, when it is alone and beside sessions of another job."""

from __future__ import annotations

import contextlib
import itertools
import socket
import subprocess
import tempfile
import threading
import time
from typing import Any, Callable, Dict, Iterator, List, NamedTuple, Sequence, Tuple

from store_client import ObjectId, ProtocolError, Task
from store_client.requests import Request, Requests
from store_testing.frames import enter, exchange
from store_testing.server import Server
from store_testing.spelling import read_bytes, spelled

JOB, OTHER = 1, 2
# of the job, in bytes, and of the other one, whose sessions fill more than they have
WINDOW, DEVICE = 64, 64
OTHERS_WINDOW, OTHERS_DEVICE = 1 << 16, 1 << 17
OTHERS_OBJECT = 20_000
OTHERS_SESSIONS = 4
# how many commands of the other job are answered between two of this job, at least
BETWEEN = 20
# seconds that an answer or an end may take
PATIENCE = 60.0
# letters of a wrong line
_SHOWN = 40

def _id(text: str) -> ObjectId:
    """The object that job 1 means."""
    return ObjectId.parse(text, JOB)


def _create_wait(requests: Requests, id: ObjectId, length: int) -> Request[Any]:
    return requests.create(id, length, wait=True)


def _write(requests: Requests, id: ObjectId, offset: int, data: bytes) -> Request[Any]:
    return requests.write(id, offset, [memoryview(data)])


def _get_wait(requests: Requests, id: ObjectId) -> Request[Any]:
    return requests.get(id, wait=True)


# of each command, what makes its frame, and what its fields are
COMMANDS: Dict[str, Tuple[Callable[..., Request[Any]], Tuple[Callable[[str], Any], ...]]] = {
    "create": (Requests.create, (_id, int)),
    "createwait": (_create_wait, (_id, int)),
    "write": (_write, (_id, int, read_bytes)),
    "seal": (Requests.seal, (_id,)),
    "get": (Requests.get, (_id,)),
    "getwait": (_get_wait, (_id,)),
    "read": (Requests.read, (_id, int, int)),
    "release": (Requests.release, (_id,)),
    "unpin": (Requests.unpin, (_id, Task.parse)),
    "borrow": (Requests.borrow, (_id, Task.parse)),
    "giveup": (Requests.give_up, (_id, Task.parse)),
    "delete": (Requests.delete, (_id,)),
    "endtask": (Requests.end_task, (Task.parse,)),
    "grant": (Requests.grant, (_id, int)),
    "withdraw": (Requests.withdraw, (_id, int)),
    "peek": (Requests.peek, (_id, int, int)),
    "list": (Requests.list, ()),
    "usage": (Requests.usage, ()),
    "leave": (Requests.leave, ()),
}


class SessionFault(Exception):
    """Why nothing can be shown."""


class Said(NamedTuple):
    """A command of the session: its text, and its request."""

    text: str
    request: Request[Any]


def read_session(text: str) -> List[Said]:
    """The commands of a session's lines."""
    lines = [line.strip() for line in text.splitlines()]
    return [Said(line, _request(line)) for line in lines if line and not line.startswith("#")]


def _request(line: str) -> Request[Any]:
    word, *fields = line.split()
    if word not in COMMANDS:
        raise SessionFault(f"{line[:_SHOWN]!r}: no command of a session: {', '.join(COMMANDS)}")
    make, readers = COMMANDS[word]
    try:
        if len(fields) != len(readers):
            raise ValueError(f"{word} has {len(readers)} fields")
        return make(Requests(JOB), *(read(field) for read, field in zip(readers, fields)))
    except ValueError as error:
        raise SessionFault(f"{line[:_SHOWN]!r}: {error}") from error


def spell(said: Said, reply: bytes) -> str:
    """A reply's frame in the words of a schedule."""
    try:
        return spelled(said.request.answer(reply[4], reply[5:]), JOB)
    except ProtocolError:
        return f"the frame {reply.hex()}"


def ask(stream: socket.socket, sent: bytes) -> bytes:
    """The frame that answers a command's frame."""
    reply = exchange(stream, sent)
    if len(reply) < 5:
        raise SessionFault("the program ended a session")
    return reply


class Neighbour:
    """Sessions of the other job that put, get, list and delete all the while, and are refused what isn't theirs."""

    def __init__(self, path: str) -> None:
        self._path = path
        self._over = threading.Event()
        self._answered = [0] * OTHERS_SESSIONS
        self._faults: List[str] = []
        self._threads = [threading.Thread(target=self._work, args=(number,), daemon=True) for number in range(OTHERS_SESSIONS)]

    @property
    def answered(self) -> int:
        """How many commands were answered so far."""
        return sum(self._answered)

    def await_more(self) -> None:
        """Until so many more are answered as have to be between two commands."""
        due, end = self.answered + BETWEEN, time.monotonic() + PATIENCE
        while self.answered < due:
            if self._faults or time.monotonic() > end:
                raise SessionFault(f"job {OTHER}: {self._faults[0] if self._faults else 'no answers'}")
            time.sleep(0.0005)

    def _work(self, number: int) -> None:
        with socket.socket(socket.AF_UNIX) as stream:
            try:
                stream.settimeout(PATIENCE)
                enter(stream, self._path, OTHER)
                for sent in itertools.cycle(_noise(number)):
                    if self._over.is_set():
                        return
                    ask(stream, sent)
                    self._answered[number] += 1
            except (AssertionError, OSError, SessionFault) as fault:
                self._faults.append(f"{fault}")

    def __enter__(self) -> Neighbour:
        for thread in self._threads:
            thread.start()
        return self

    def __exit__(self, *_: object) -> None:
        self._over.set()
        for thread in self._threads:
            thread.join()


def _noise(number: int) -> List[bytes]:
    """What a session of the other job says again and again: among it the ids of the first one, as its own and as that job's."""
    requests, mine = Requests(OTHER), ObjectId(Task.numbered(1), OTHER, number + 1)
    foreign = ObjectId(Task.numbered(1), JOB, 1)
    data = memoryview(bytes([number]) * OTHERS_OBJECT)
    said: List[Request[Any]] = [
        requests.create(mine, OTHERS_OBJECT, wait=True), requests.write(mine, 0, [data]), requests.seal(mine),
        requests.get(mine, wait=True),
        requests.read(mine, 0, OTHERS_OBJECT), requests.peek(foreign, 0, 3), requests.get(foreign), requests.list(), requests.usage(),
        requests.create(ObjectId(Task.numbered(2), OTHER, 1), OTHERS_WINDOW), requests.release(mine), requests.delete(mine),
    ]
    return [_sent(request) for request in said]


def _sent(request: Request[Any]) -> bytes:
    return b"".join(bytes(part) for part in request.parts)


@contextlib.contextmanager
def _served(program: str, jobs: Dict[int, Tuple[int, int]]) -> Iterator[str]:
    """The path of a server's socket, with these jobs: their windows and devices."""
    with tempfile.TemporaryDirectory() as folder:
        with Server([program], folder, 1, sum(window for window, _ in jobs.values())) as server:
            for job, (window, device) in jobs.items():
                server.admit(0, job, window, device)
            yield server.path()
            server.close()


def _replies(path: str, session: Sequence[Said], before: Callable[[], None]) -> List[bytes]:
    """The job's reply frames, with something done before each command."""
    with socket.socket(socket.AF_UNIX) as stream:
        stream.settimeout(PATIENCE)
        enter(stream, path, JOB)
        frames = []
        for said in session:
            before()
            frames.append(ask(stream, _sent(said.request)))
        return frames


def alone(program: str, session: Sequence[Said]) -> List[bytes]:
    """The job's reply frames where there is no other job."""
    with _told(), _served(program, {JOB: (WINDOW, DEVICE)}) as path:
        return _replies(path, session, lambda: None)


def beside(program: str, session: Sequence[Said]) -> Tuple[List[bytes], int]:
    """Those beside the other job, and how many commands of that were answered meanwhile."""
    jobs = {JOB: (WINDOW, DEVICE), OTHER: (OTHERS_WINDOW, OTHERS_DEVICE)}
    with _told(), _served(program, jobs) as path, Neighbour(path) as neighbour:
        neighbour.await_more()
        before = neighbour.answered
        frames = _replies(path, session, neighbour.await_more)
        return frames, neighbour.answered - before


@contextlib.contextmanager
def _told() -> Iterator[None]:
    """What goes wrong at the server is a fault in words."""
    try:
        yield
    except (AssertionError, OSError, subprocess.SubprocessError) as fault:
        raise SessionFault(f"the program that serves: {fault}") from fault
