"""What other processes of the host put is heard of by way of the keeper, so that a wait for it looks at once. See keeper.py.

One thread listens for all of a process that wait for a job's objects at a node. It is started by a wait that lasts, and ends some seconds
after the last. It also listens to the keepers of the server's other nodes, if there are any. Nothing is raised, and nobody waits for it: what
isn't heard of is found by looking.
"""

from __future__ import annotations

import contextlib
import os
import select
import socket
import threading
import time
from typing import Dict, List, Sequence, Tuple

from .board import board_of
from .items import State
from .keeping import FLAGS, HELLO, LISTEN, Keeping, connected, joined, keepers_folder

# the bytes of an id, and the most that the keeper tells at once
_ID, _LONGEST_MESSAGE = 28, 65536
# in seconds: the thread goes on so long after the last wait; so often it looks whether keepers have come; and at least so often whether other
# nodes have any
_LINGER, _PAUSE, _LONG_PAUSE = 5.0, 2.0, 10.0
_MOST_NODES = 8


class Ear:
    """What hears of a job's objects at a node, as long as somebody waits."""

    def __init__(self, path: str, job: int, key: bytes) -> None:
        self._path, self._job, self._key = path, job, key
        self._lock = threading.Lock()
        self._board = board_of(path, job)
        self.has_thread = False
        # whether no keeper or no thread could be started, which isn't tried again and again
        self._is_deaf = False
        #: to the keepers, by the paths of their nodes' sockets
        self.streams: Dict[str, socket.socket] = {}

    def listens(self) -> bool:
        """Those who wait are woken from now on, as soon as the keeper is there. Whether it is."""
        if not self._is_deaf and not self.has_thread:
            self._begin()
        return self._path in self.streams

    def _begin(self) -> None:
        with self._lock:
            if self.has_thread:
                return
            try:
                threading.Thread(target=self._run, name="store_client listens", daemon=True).start()
                self.has_thread = True
            except RuntimeError:
                # the process may have no more threads, or is about to end
                self._is_deaf = True

    def _run(self) -> None:
        try:
            # with the key the keeper can look after what an earlier one has noted
            self._add(self._path, connected(self._path, self._job), (HELLO + self._key, LISTEN))
            folder = keepers_folder()
        except OSError:
            self._is_deaf = True
        else:
            self._hear(folder)
        with self._lock:
            streams, self.streams = self.streams, {}
            self.has_thread = False
        for stream in streams.values():
            stream.close()

    def _add(self, path: str, stream: socket.socket, messages: Sequence[bytes]) -> None:
        self.streams[path] = stream
        # one that has ended is noticed when it is read
        with contextlib.suppress(OSError):
            for message in messages:
                stream.send(message, FLAGS)

    def _hear(self, folder: str) -> None:
        """Until the keeper of this node ends, or nobody waits any more. The folder is that of all keepers."""
        end, join_at = time.monotonic() + _LINGER, 0.0
        changed, poll = 0, self._poll()
        while self._path in self.streams and time.monotonic() < end:
            # a keeper that comes makes its socket in the folder of all, and may not listen yet
            if changed != (changed := _last_change(folder)) or join_at <= time.monotonic():
                join_at = time.monotonic() + _LONG_PAUSE
                self._join_others()
                poll = self._poll()
            ready = [number for number, _ in poll.poll(min(_LINGER, _PAUSE) * 1000)]
            if ready:
                for path in [path for path, stream in self.streams.items() if stream.fileno() in ready and not self._take(stream)]:
                    self.streams.pop(path).close()
                poll = self._poll()
            if self._board.waits:
                end = time.monotonic() + _LINGER

    def _poll(self) -> select.poll:
        poll = select.poll()
        for stream in self.streams.values():
            poll.register(stream, select.POLLIN)
        return poll

    def _take(self, stream: socket.socket) -> bool:
        """Wakes those whose objects the keeper tells of. Whether it goes on."""
        try:
            message = stream.recv(_LONGEST_MESSAGE)
        except BlockingIOError:
            return True
        except OSError:
            return False
        ended = dict.fromkeys((message[at : at + _ID] for at in range(0, len(message), _ID)), int(State.SEALED))
        self._board.tell(ended)
        return bool(message)

    def _join_others(self) -> None:
        """The keepers of the other nodes are listened to, as far as they are there by now."""
        for path in _other_nodes(self._path):
            if path not in self.streams:
                with contextlib.suppress(OSError):
                    self._add(path, joined(path, self._job), (LISTEN,))


def _last_change(folder: str) -> int:
    """When a file of the folder came or went last."""
    try:
        return os.stat(folder).st_mtime_ns
    except OSError:
        return 0


def _other_nodes(path: str) -> List[str]:
    """The paths of the sockets that stand beside this, as those of a server's nodes do."""
    base, dot, number = os.path.realpath(path).rpartition(".")
    if number not in map(str, range(_MOST_NODES)):
        return []
    others = (f"{base}{dot}{other}" for other in range(_MOST_NODES) if str(other) != number)
    return [other for other in others if os.path.exists(other)]


# of each socket's path and job
_ears: Dict[Tuple[str, int], Ear] = {}


def ear_of(keeping: Keeping) -> Ear:
    """That of the process, for the node and the job that this keeping is of."""
    name = keeping.path, keeping.job
    # one is kept, whichever thread is first
    return _ears.get(name) or _ears.setdefault(name, Ear(*name, keeping.key))


def listens(keeping: Keeping) -> bool:
    """Those who wait are woken from now on when the keeper has heard of what they wait for, if there may be one. Whether it is listened to
    already."""
    return keeping.is_wanted and ear_of(keeping).listens()


def _forget_all() -> None:
    for ear in _ears.values():
        for stream in ear.streams.values():
            stream.close()
    _ears.clear()


os.register_at_fork(after_in_child=_forget_all)
