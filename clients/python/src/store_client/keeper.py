"""The keeper: a process that deletes what others have begun to put, once they are killed, and tells those who wait of what was put. There is
one for each host, user, job and socket.

    a process of the job                          the keeper                       the store
    --------------------                          ----------                       ---------
    its first put          -- "task T is mine" ->    T
    put(data)              ------------------------------------------------------->  Create, Write, Seal of T.1
    put(data, X)           -- "X has begun"    ->    X
                           ------------------------------------------------------->  Create, Write, Seal of X
    put_value(long)        -- "M of P1 P2 ..   ->    M: P1 P2 ..
                               has begun"
                           ------------------------------------------------------->  Create M, P1 P2 .., Seal M
                           -- "M has ended"    ->
    kill -9                -- the connection   ->    is it dead? then, half a second later,
                              closes                 and some times more:
                                                         List  ----------------->  what of it is here?
                                                         Delete ---------------->  T.n and X, if they are Created;
                                                                                   M and P1 P2 .., if M isn't sealed

    a process that waits                          the keeper                       one that puts
    --------------------                          ----------                       -------------
    get(X, timeout=60)     -- "I listen" ------>
                                                  -- "somebody listens" ------->
                                                  <- "X has ended" -------------   put(data, X), as soon as it is sealed
    asks the store at once <- "X has ended" -----

What it is told it notes in a file, all but the key. If it is killed with those that told it, as all of a container may be, the next keeper
reads the notes. It looks after them once a process of the job has told it the key.

What is sealed and isn't a part of what hasn't ended is never deleted, nor what a process that lives has begun, nor any object of a
process that told nothing. A session that is closed leaves its objects as they are.

The library starts it (keeping.py) when a process has something to tell, and hands it its socket, which listens already, and the lock that
makes it the only one. It ends some seconds after the last process has.
"""

from __future__ import annotations

import contextlib
import os
import select
import socket
import struct
import sys
import time
from pathlib import Path
from typing import TYPE_CHECKING, Dict, Iterator, List, Optional, Set, Tuple

if TYPE_CHECKING:
    from store_client import Connection, ObjectId

_HELLO, _TASK, _BEGIN, _END, _LEAVE, _LISTEN = b"H", b"T", b"B", b"E", b"L", b"R"
# what those that put are told once somebody listens, and of how many puts one message tells those that listen
_LISTENED, _MOST_TOLD = b"R", 2000
# in the notes: a client that has come, with its process, when that was born and in which namespace, and one that needn't be looked after
# any more
_CAME, _OVER = b"C", b"O"
# before each message of the notes: whose it is, and how long
_NOTE = struct.Struct(">II")
# from so many bytes on the notes are written anew
_LONGEST_NOTES = 1 << 20
# in bytes
_ID, _LONGEST_MESSAGE = 28, 65536
# After the end of a process the store does what it was sent before, so it is looked at more than once: after so many seconds, also if the
# store has much to do
_LOOKS = (0.5, 1.5, 3.0, 6.0, 9.0, 20.0, 60.0)
# in seconds: how often it is asked whether a process lives that closed its connection, and how long messages may come together, also if
# somebody listens
_PAUSE, _REST, _SHORT_REST = 1.0, 0.02, 0.0005
# so many pauses the keeper waits for others, if nobody is left
_LINGER = 5
# how long the store may take for an answer, in seconds
_SILENCE = 5.0


class Client:
    """A session, or all of a pool's, and what its process told of them."""

    def __init__(self, process: int, born: Optional[str], stream: Optional[socket.socket] = None) -> None:
        """Without a stream it is one that is known by notes alone."""
        self._process, self._born = process, born
        self.stream = stream
        self.key = b""
        self.has_left = False
        # whether it listens to what is put, and was told that somebody does
        self.listens = self.is_told = False
        self.tasks: Set[bytes] = set()
        # of each put that has begun and not ended the parts
        self.puts: Dict[bytes, List[bytes]] = {}
        # once the connection is closed: when the process was seen dead, when it is looked for or after next, and how often it was
        self.died: Optional[float] = None
        self.due = 0.0
        self.looks = 0

    def hear(self, message: bytes) -> List[bytes]:
        """Takes what it tells. The ids of the puts that have ended."""
        kind, body = message[:1], message[1:]
        ids = [body[at : at + _ID] for at in range(1 if kind == _BEGIN else 0, len(body), _ID)]
        ended = ids[: body[0]] if kind == _BEGIN else ids if kind == _END else []
        for id in ended:
            self.puts.pop(id, None)
        if kind == _HELLO:
            self.key, self.tasks, self.puts = body, set(), {}
        elif kind == _TASK:
            self.tasks.add(body)
        elif kind == _BEGIN:
            self.puts[ids[len(ended)]] = ids[len(ended) + 1 :]
        elif kind == _LEAVE:
            self.has_left = True
        elif kind == _LISTEN:
            self.listens = True
        return ended

    def tell(self, message: bytes) -> None:
        """What it doesn't read isn't waited for."""
        with contextlib.suppress(OSError):
            if self.stream:
                self.stream.send(message, socket.MSG_DONTWAIT | socket.MSG_NOSIGNAL)

    @property
    def may_leave_something(self) -> bool:
        return not self.has_left and bool(self.tasks or self.puts)

    def is_same_process(self, other: Client) -> bool:
        return (self._process, self._born) == (other._process, other._born)

    def messages(self) -> Iterator[bytes]:
        """What has to be heard to know as much of it, but the key."""
        yield _CAME + f"{self._process} {self._born} {_namespace()}".encode("ascii")
        yield from (_TASK + task for task in self.tasks)
        yield from (_BEGIN + b"\0" + b"".join((whole, *parts)) for whole, parts in self.puts.items())

    def look(self) -> bool:
        """Whether it is time to look after it, and not only to look whether it lives."""
        now = time.monotonic()
        if self.died is not None:
            self.looks += 1
        elif self._born is None or _born(self._process) != self._born:
            self.died = now
        self.due = now + _PAUSE if self.died is None else self.died + _LOOKS[min(self.looks, len(_LOOKS) - 1)]
        return self.looks > 0


def _born(process: int) -> Optional[str]:
    """What tells a process from others of its number: when it was started. None if it is dead."""
    try:
        state, *fields = Path(f"/proc/{process}/stat").read_text(encoding="ascii", errors="replace").rpartition(")")[2].split()
    except OSError:
        return None
    return None if state in "ZX" else fields[18]


def _namespace() -> str:
    """In which the numbers of processes are those of this one."""
    try:
        return os.readlink("/proc/self/ns/pid")
    except OSError:
        return "unknown"


def _noted_client(message: bytes) -> Optional[Client]:
    """The client that came, if it can be told whether its process lives: it may be one of a container that shares the folder."""
    process, born, namespace = message[1:].decode("ascii").split()
    return Client(int(process), born) if born != "None" and namespace == _namespace() != "unknown" else None


class Notes:
    """What clients have told, in a file, for the next keeper if this one is killed. If it can't be written all goes on without it."""

    def __init__(self, path: str) -> None:
        self._path = path
        self._numbers: Dict[Client, int] = {}
        self._file = -1
        self._length = 0

    def read(self) -> List[Client]:
        """The clients of an earlier keeper that may have left something."""
        clients: Dict[int, Client] = {}
        # what can't be right ends it: a disk may have been full
        with contextlib.suppress(OSError, ValueError, IndexError, struct.error):
            for number, message in _noted(Path(self._path).read_bytes()):
                client = _noted_client(message) if message[:1] == _CAME else None
                if client:
                    clients[number] = client
                elif message[:1] in (_CAME, _OVER):
                    clients.pop(number, None)
                elif number in clients:
                    clients[number].hear(message)
        return [client for client in clients.values() if client.may_leave_something]

    def begin(self, clients: List[Client]) -> None:
        """Writes the file anew, with what is known of these clients."""
        self._numbers = {client: number for number, client in enumerate(clients)}
        new = f"{self._path}.new"
        with contextlib.suppress(OSError):
            if self._file >= 0:
                os.close(self._file)
            self._file, self._length = -1, 0
            self._file = os.open(new, os.O_WRONLY | os.O_CREAT | os.O_TRUNC | os.O_APPEND | os.O_CLOEXEC | os.O_NOFOLLOW, 0o600)
            self._write([(self._numbers[client], message) for client in clients for message in client.messages()])
            os.replace(new, self._path)

    def add(self, told: List[Tuple[Client, bytes]], clients: List[Client]) -> None:
        """Adds what clients have told, which are these now."""
        if self._length + sum(_NOTE.size + len(message) for _, message in told) > _LONGEST_NOTES:
            return self.begin(clients)
        noted: List[Tuple[int, bytes]] = []
        for client, message in told:
            if client not in self._numbers:
                self._numbers[client] = max(self._numbers.values(), default=0) + 1
                noted.append((self._numbers[client], next(client.messages())))
            # the key is in no file
            noted.append((self._numbers[client], _HELLO if message[:1] == _HELLO else message))
            if message == _OVER:
                del self._numbers[client]
        with contextlib.suppress(OSError):
            self._write(noted)

    def _write(self, noted: List[Tuple[int, bytes]]) -> None:
        if self._file >= 0 and noted:
            whole = b"".join(_NOTE.pack(number, len(message)) + message for number, message in noted)
            self._length += os.write(self._file, whole)

    def remove(self) -> None:
        os.unlink(self._path)


def _noted(whole: bytes) -> Iterator[Tuple[int, bytes]]:
    """The messages of notes, and whose they are. The last one may have been cut off."""
    at = 0
    while at + _NOTE.size <= len(whole):
        number, length = _NOTE.unpack_from(whole, at)
        at += _NOTE.size + length
        if at <= len(whole):
            yield number, whole[at - length : at]


class Keeper:
    """Listens to processes, and looks after those that have ended."""

    def __init__(self, path: str, job: int, name: str, listener: socket.socket) -> None:
        self._path, self._job, self._name = path, job, name
        self._listener = listener
        self._poll = select.poll()
        self._poll.register(listener, select.POLLIN)
        self._clients: Dict[int, Client] = {}
        self._notes = Notes(f"{name}.notes")
        # those whose connection is closed, and those of an earlier keeper
        self._gone = self._notes.read()
        self._notes.begin(self._gone)
        # what was told and isn't noted yet, and puts that have ended and aren't passed on
        self._told: List[Tuple[Client, bytes]] = []
        self._ended: List[bytes] = []
        # that of any client: the job has one
        self._key = b""

    def run(self) -> None:
        """Until nobody is left."""
        idle = 0
        while True:
            pauses = [client.due - time.monotonic() for client in self._gone] or ([] if self._clients else [_PAUSE])
            ready = self._poll.poll(1000 * max(0.0, min(pauses)) + 1 if pauses else None)
            if ready:
                # who tells much isn't to wake this process each time
                time.sleep(_SHORT_REST if self._listening() else _REST)
            for number, _ in ready:
                self._hear(number)
            # who waits needn't wait for the disk, too
            self._pass_on()
            self._note()
            self._tell_that_somebody_listens()
            self._look_after_all()
            idle = 0 if ready or self._clients or self._gone else idle + 1
            if idle and (idle >= _LINGER or not os.path.exists(self._path)):
                return self._end()

    def _listening(self) -> List[Client]:
        return [client for client in self._clients.values() if client.listens]

    def _pass_on(self) -> None:
        ended, self._ended = self._ended, []
        for at in range(0, len(ended), _MOST_TOLD):
            for client in self._listening():
                client.tell(b"".join(ended[at : at + _MOST_TOLD]))

    def _tell_that_somebody_listens(self) -> None:
        if self._listening():
            for client in self._clients.values():
                if not client.is_told and not client.listens:
                    client.is_told = True
                    client.tell(_LISTENED)

    def _hear(self, number: int) -> None:
        if number == self._listener.fileno():
            self._accept()
            return
        client = self._clients[number]
        stream = client.stream
        assert stream
        try:
            while message := stream.recv(_LONGEST_MESSAGE, socket.MSG_DONTWAIT):
                self._take(client, message)
        except BlockingIOError:
            return
        except OSError:
            # as if it were closed
            pass
        self._poll.unregister(stream)
        del self._clients[number]
        stream.close()
        if client.may_leave_something:
            self._gone.append(client)
        else:
            self._told.append((client, _OVER))

    def _take(self, client: Client, message: bytes) -> None:
        self._ended += client.hear(message)
        self._told.append((client, message))
        if message[:1] == _HELLO:
            self._key = client.key
            for earlier in self._gone:
                if not earlier.stream and earlier.is_same_process(client):
                    # it has told the puts that it has begun, and they are no others
                    earlier.puts.clear()

    def _note(self) -> None:
        told, self._told = self._told, []
        self._notes.add(told, [client for client in (*self._clients.values(), *self._gone) if client.may_leave_something])

    def _accept(self) -> None:
        with contextlib.suppress(OSError):
            stream, _ = self._listener.accept()
            process = struct.unpack("3i", stream.getsockopt(socket.SOL_SOCKET, socket.SO_PEERCRED, 12))[0]
            self._clients[stream.fileno()] = Client(process, _born(process), stream)
            self._poll.register(stream, select.POLLIN)

    def _end(self) -> None:
        """Nobody finds the keeper any more. Who has just connected starts another when it has something more to tell."""
        with contextlib.suppress(OSError):
            self._notes.remove()
        with contextlib.suppress(OSError):
            for name in (f"{self._name}.socket", f"{self._name}.lock"):
                os.unlink(name)
            os.rmdir(os.path.dirname(self._name))

    # ---- those that have ended

    def _look_after_all(self) -> None:
        if not os.path.exists(self._path):
            # the store has ended, with all objects
            self._gone.clear()
        now = time.monotonic()
        dead = [client for client in self._gone if client.due <= now and client.look()]
        if dead:
            # found beside this file
            sys.path.append(str(Path(__file__).resolve().parents[1]))
            self._look_after(dead)
            sys.path.pop()
        self._told += [(client, _OVER) for client in self._gone if client.looks >= len(_LOOKS)]
        self._gone = [client for client in self._gone if client.looks < len(_LOOKS)]

    def _look_after(self, dead: List[Client]) -> None:
        """Deletes what they have left, if the store answers."""
        import store_client

        if not self._key:
            return
        with contextlib.suppress(store_client.StoreError):
            with store_client.connect(self._path, self._job, self._key, _SILENCE, keeper=False) as store:
                for id in self._left_by(dead, store):
                    with contextlib.suppress(store_client.Refused):
                        store.delete(id)

    def _left_by(self, dead: List[Client], store: Connection) -> List[ObjectId]:
        """What the dead have left, of a put in parts the manifest first."""
        from store_client import State

        found = {item.id.to_bytes(): item for item in store.list()[0]}
        created = {name for name, item in found.items() if item.state is State.CREATED}
        sealed = {name for name, item in found.items() if item.state not in (State.CREATED, State.FETCHING)}
        left: List[bytes] = []
        for client in dead:
            left += (name for name in created if name[:20] in client.tasks)
            for whole, parts in client.puts.items():
                left += () if whole in sealed else (name for name in (whole, *parts) if name in created or name in sealed)
        living = [*self._clients.values(), *(client for client in self._gone if client.died is None)]
        begun = {name for client in living for whole, parts in client.puts.items() for name in (whole, *parts)}
        return [found[name].id for name in dict.fromkeys(left) if name not in begun]


def main(path: str, job: str, name: str, listener: str) -> None:
    """Keeps a job at a node's socket. The keeper's socket and lock are named so; the socket listens and has this number, and the lock is
    held by being open."""
    stream = socket.socket(fileno=int(listener))
    stream.setblocking(False)
    Keeper(path, int(job), name, stream).run()


if __name__ == "__main__":
    main(*sys.argv[1:])
