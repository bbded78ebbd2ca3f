"""Clients of bench/serve: what each of them asks, of the store, of the floor and of Redis, and how fast several of them are at once."""

from __future__ import annotations

import contextlib
import functools
import hashlib
import multiprocessing
import random
import signal
import socket
import time
from multiprocessing.connection import Connection
from typing import Callable, ContextManager, Iterable, Iterator, List, NamedTuple, Optional, Sequence, Tuple, Union

from store_testing.frames import frame, head, hello, ident, numbers

from .serving_rows import PATIENCE

PIECE = 1 << 16
HELLO, CREATE, WRITE, SEAL, GET, READ, RELEASE, DELETE = 1, 2, 3, 4, 5, 6, 7, 0x0B
OK, PLACED, GOT, BYTES = 0x80, 0x81, 0x82, 0x83
# without threads, a fork is safe, and what it is given isn't copied
PROCESSES = multiprocessing.get_context("fork")


class Row(NamedTuple):
    operation: str
    size: int
    connections: int
    nodes: int


class Step(NamedTuple):
    """What is sent; how the answer has to begin, its length, and how many of the object's bytes follow its beginning."""

    sent: bytes
    head: bytes
    length: int
    content: int = 0


class Script(NamedTuple):
    """What a client asks before it is timed, in each operation, and after; and the bytes that an operation gives, if they
    are looked at."""

    path: str
    before: Tuple[Step, ...]
    timed: Tuple[Step, ...]
    after: Tuple[Step, ...]
    content: Optional[bytes]


# what a client does again and again, and how it makes ready for it
Operation = Callable[[], object]
Preparing = ContextManager[Operation]
# what is sent, how the answer has to begin, and the part of a buffer that it fills
Asked = Tuple[bytes, bytes, memoryview]


class Done(NamedTuple):
    """When a client's operations began and ended, and how many there were; none yet, if it is ready."""

    began: float = 0
    ended: float = 0
    times: int = 0


# ---- what is asked


def content(size: int) -> bytes:
    """An object's bytes, the same ones each time."""
    return random.Random(size).randbytes(size)


def command(kind: int, body: bytes, answer: int = OK, length: int = 0) -> Step:
    """A command, which is answered by a frame of this kind with so many bytes after it."""
    return Step(frame(kind, body), head(answer, length), 5 + length, length if answer == BYTES else 0)


def store_script(folder: str, row: Row, client: int) -> Script:
    """The client's job is its own, and so is its object."""
    job, data = client + 1, content(row.size)
    one = ident(job, 1)
    pieces = [(at, data[at : at + PIECE]) for at in range(0, row.size, PIECE)]
    first = Step(hello(job), head(OK, 0), 5)
    delete = command(DELETE, one)
    put = [command(CREATE, one + b"\0" + numbers(row.size), PLACED, 8)]
    put += [command(WRITE, one + numbers(at) + piece) for at, piece in pieces]
    put.append(command(SEAL, one))
    path = f"{folder}/store.{client % row.nodes}"
    if row.operation == "put":
        return Script(path, (first,), (*put, delete), (), b"")
    reads = [command(READ, one + numbers(at, len(piece)), BYTES, len(piece)) for at, piece in pieces]
    return Script(path, (first, *put), (command(GET, one, GOT, 4), *reads, command(RELEASE, one)), (delete,), data)


def floor_script(folder: str, row: Row, client: int) -> Script:
    """The store's, at a process for this connection. The bytes that it gives are no object's."""
    return store_script(folder, row, client)._replace(path=f"{folder}/floor.{client}", content=None)


def redis_script(folder: str, row: Row, client: int) -> Script:
    """The client's key is its own."""
    path, name, data = f"{folder}/redis.{client % row.nodes}", b"object%d" % client, content(row.size)
    put = redis_command(b"+OK\r\n", 5, 0, b"SET", name, data)
    if row.operation == "put":
        return Script(path, (), (put,), (), b"")
    head = b"$%d\r\n" % row.size
    get = redis_command(head, len(head) + row.size + 2, row.size, b"GET", name)
    return Script(path, (put,), (get,), (), data)


def redis_command(head: bytes, length: int, content_length: int, *words: bytes) -> Step:
    """A command's words, each with its length."""
    sent = b"*%d\r\n" % len(words) + b"".join(b"$%d\r\n%s\r\n" % (len(word), word) for word in words)
    return Step(sent, head, length, content_length)


# ---- a client


def ask(stream: socket.socket, buffer: bytearray, sent: bytes, head: bytes, part: memoryview) -> None:
    """Reads the answer into the buffer's part, which is as long as it has to be. The beginning is looked at as soon as it
    is there, since a refusal is shorter."""
    stream.sendall(sent)
    got = 0
    while got < len(part):
        count = stream.recv_into(part[got:])
        got += count
        if not count or not buffer.startswith(head[:got]):
            told = buffer[: min(got, 40)].hex() if count else "no more"
            raise ValueError(f"answered {told} to {sent[:40].hex()}, should begin with {head.hex()}")


@contextlib.contextmanager
def asking(script: Script) -> Iterator[Operation]:
    """A connection, ready for the script's operation. The first one is done, and its bytes are compared."""
    with socket.socket(socket.AF_UNIX) as stream:
        stream.connect(script.path)
        buffer = bytearray(max(step.length for step in (*script.before, *script.timed, *script.after)))
        view = memoryview(buffer)

        def ready(steps: Sequence[Step]) -> List[Asked]:
            return [(step.sent, step.head, view[: step.length]) for step in steps]

        def ask_all(asked: Sequence[Asked]) -> None:
            for sent, due, part in asked:
                ask(stream, buffer, sent, due, part)

        ask_all(ready(script.before))
        told = b""
        for step, asked in zip(script.timed, ready(script.timed)):
            ask_all([asked])
            told += buffer[len(step.head) : len(step.head) + step.content]
        if script.content is not None and told != script.content:
            raise ValueError("gave other bytes than were put")
        yield functools.partial(ask_all, ready(script.timed))
        ask_all(ready(script.after))


@contextlib.contextmanager
def hashing(data: bytes) -> Iterator[Operation]:
    yield lambda: hashlib.sha256(data).digest()


def work(line: Connection, preparing: Preparing, seconds: float) -> None:
    """Tells when it is ready, waits for the others, and tells when it began and ended and how many operations it did."""
    try:
        with preparing as operate:
            line.send(Done())
            line.recv()
            count, began = 0, time.monotonic()
            now = began
            while now < began + seconds or not count:
                operate()
                count += 1
                now = time.monotonic()
        line.send(Done(began, now, count))
    except (OSError, ValueError) as fault:
        line.send(str(fault))


def hear(line: Connection, seconds: float = 0) -> Done:
    if not line.poll(seconds + PATIENCE):
        raise ValueError("no answer")
    told: Union[str, Done] = line.recv()
    if isinstance(told, str):
        raise ValueError(told)
    return told


def speed_of(works: Sequence[Preparing], seconds: float) -> float:
    """Operations a second of processes that work at once."""
    pipes = [PROCESSES.Pipe() for _ in works]
    lines = [line for line, _ in pipes]
    with processes(work, [(its_line, preparing, seconds) for (_, its_line), preparing in zip(pipes, works)]):
        for _, its_line in pipes:
            its_line.close()
        for line in lines:
            hear(line)
        for line in lines:
            line.send(None)
        told = [hear(line, seconds) for line in lines]
    return sum(one.times for one in told) / (max(one.ended for one in told) - min(one.began for one in told))


@contextlib.contextmanager
def processes(target: Callable[..., None], all_words: Iterable[Tuple[object, ...]]) -> Iterator[None]:
    """A process for each of the words; they are ended afterwards."""
    started = []
    try:
        for words in all_words:
            started.append(PROCESSES.Process(target=as_child, args=(target, *words), daemon=True))
            started[-1].start()
        yield
    finally:
        for process in started:
            process.terminate()
            process.join()


def as_child(target: Callable[..., None], *words: object) -> None:
    """What interrupts the script is the parent's to deal with, and it ends this process."""
    signal.signal(signal.SIGINT, signal.SIG_IGN)
    signal.signal(signal.SIGTERM, signal.SIG_DFL)
    target(*words)
