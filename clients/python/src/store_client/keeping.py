"""What a process tells the keeper of its host: the tasks under which it puts, and which puts have begun. See keeper.py.

No answer is waited for, and nothing is raised: if there can be no keeper, all goes on without one.
"""

from __future__ import annotations

import contextlib
import fcntl
import hashlib
import os
import socket
import stat
import subprocess
import sys
import tempfile
import threading
import time
import weakref
from pathlib import Path
from typing import Dict, Iterator, List, Optional, Sequence, Set

from .ids import ObjectId, Task
from .refusals import ConnectionLost

# the kinds of messages, of one byte; keeper.py has them, too
HELLO, TASK, BEGIN, END, LEAVE, LISTEN = b"H", b"T", b"B", b"E", b"L", b"R"
FLAGS = socket.MSG_DONTWAIT | socket.MSG_NOSIGNAL
# a socket's path has at most 107 bytes, and what follows the folder for temporary files in it has 47
_LONGEST_PLACE = 60
# how long another process that is starting the keeper is waited for, in seconds; how often this one tries; and the pause between. A start
# takes 20 ms, and seconds on a machine that does much else
_PATIENCE, _STARTS, _PAUSE = 5.0, 2, 0.01
# so long after it was connected with the keeper a process may not know yet that somebody listens, in seconds
_NEW = 5.0
# so many ends of puts one message tells
_MOST_ENDED = 255

_all: weakref.WeakSet[Keeping] = weakref.WeakSet()


class Keeping:
    """What the keeper is told of one session, or of all of a pool's. The keeper is started when there is something to tell."""

    def __init__(self, path: str, job: int, key: bytes, is_wanted: bool = True) -> None:
        self.path, self.job, self.key = path, job, key
        self.is_wanted = is_wanted
        self._forget()
        _all.add(self)

    def _forget(self) -> None:
        """At first, and in a process that was forked off, to which nothing of it belongs."""
        with contextlib.suppress(AttributeError):
            if self._socket:
                self._socket.close()
        self._lock = threading.RLock()
        self._socket: Optional[socket.socket] = None
        # whether the keeper has said that somebody listens to what is put
        self._is_listened_to = False
        # until when that may be so and not be known
        self._is_new_until = 0.0
        # whether there is a keeper that knows all of what follows
        self._is_known = False
        self._tasks: Set[bytes] = set()
        self._begun: Dict[bytes, bytes] = {}
        # of puts of one object, which are told with the next message
        self._ended: List[bytes] = []

    def task(self, task: Task) -> None:
        """From now on this process puts under the task, which no other process does."""
        if self.is_wanted:
            self._tasks.add(task.value)
            self._tell(TASK + task.value)

    @contextlib.contextmanager
    def unfinished(self, id: ObjectId, parts: Sequence[ObjectId] = ()) -> Iterator[None]:
        """Within the block the object is being put, with its parts: if the process is killed meanwhile, they are deleted. So they are, at
        the end of the process, if the connection is lost and nothing could be taken back."""
        if not self.is_wanted:
            yield
            return
        whole = id.to_bytes()
        self._begin(whole, b"".join(part.to_bytes() for part in parts))
        try:
            yield
        except (GeneratorExit, ConnectionLost):
            raise
        except BaseException:
            self._end(whole, at_once=bool(parts))
            raise
        self._end(whole, at_once=bool(parts))

    def _begin(self, whole: bytes, parts: bytes) -> None:
        with self._lock:
            ended, self._ended = self._ended, []
            self._begun[whole] = parts
            self._tell(BEGIN + bytes([len(ended)]) + b"".join(ended) + whole + parts)

    def _end(self, whole: bytes, at_once: bool) -> None:
        """A put of one object tells the keeper once, and so its end is told with what comes next, unless somebody listens or may."""
        with self._lock:
            self._begun.pop(whole, None)
            self._ended.append(whole)
            is_new = time.monotonic() < self._is_new_until
            if at_once or is_new or self._hears_of_listeners() or len(self._ended) == _MOST_ENDED:
                ended, self._ended = self._ended, []
                self._tell(END + b"".join(ended))

    def close(self, is_clean: bool) -> None:
        """Nothing more is put. If it is clean, the session has left nothing that wasn't to be left."""
        with self._lock:
            self.is_wanted = False
            if self._socket:
                with self._socket, contextlib.suppress(OSError):
                    if is_clean:
                        self._socket.send(LEAVE, FLAGS)

    def _hears_of_listeners(self) -> bool:
        """Whether somebody listens to what is put. The keeper says so once."""
        if self._socket and not self._is_listened_to:
            with contextlib.suppress(OSError):
                self._is_listened_to = bool(self._socket.recv(1, socket.MSG_DONTWAIT))
        return self._is_listened_to

    def _tell(self, message: bytes) -> None:
        with self._lock:
            for _ in range(_STARTS):
                if not (self._socket or self._open()):
                    break
                assert self._socket
                try:
                    for part in (message,) if self._is_known else (*self._all_of_it(), message):
                        self._socket.send(part, FLAGS)
                    self._is_known = True
                    return
                except BlockingIOError:
                    # the keeper has stood still for long: it is told all once more when there is more to tell
                    self._is_known = False
                    return
                except OSError:
                    # it has ended
                    self._socket.close()
                    self._socket = None
            self.is_wanted = False

    def _open(self) -> bool:
        with contextlib.suppress(OSError):
            self._socket, self._is_known, self._is_listened_to = connected(self.path, self.job), False, False
            self._is_new_until = time.monotonic() + _NEW
        return self._socket is not None

    def _all_of_it(self) -> Iterator[bytes]:
        yield HELLO + self.key
        yield from (TASK + task for task in self._tasks)
        yield from (BEGIN + b"\0" + whole + parts for whole, parts in self._begun.items())


def connected(path: str, job: int) -> socket.socket:
    """A connection to the keeper of a job at a node's socket, which is started if there is none. `OSError`."""
    end, starts = time.monotonic() + _PATIENCE, 0
    while starts <= _STARTS and time.monotonic() < end:
        # the folder is removed with the last keeper
        name = _name_of(path, job)
        try:
            return joined(path, job)
        except BlockingIOError as error:
            raise TimeoutError("the keeper takes no connection") from error
        except OSError:
            # there is none, or it is about to end
            pass
        if _start(name, path, job):
            # it listens now, however long that took
            starts, end = starts + 1, time.monotonic() + _PATIENCE
        else:
            time.sleep(_PAUSE)
    raise TimeoutError("there is no keeper")


def joined(path: str, job: int) -> socket.socket:
    """The same if there is one, and otherwise `OSError`."""
    stream = socket.socket(socket.AF_UNIX, socket.SOCK_SEQPACKET)
    try:
        stream.setblocking(False)
        stream.connect(f"{_name_of(path, job)}.socket")
    except OSError:
        stream.close()
        raise
    return stream


def _name_of(path: str, job: int) -> str:
    """How the keeper's files begin. `OSError` if there can be no folder for them."""
    words = f"{job} {os.path.realpath(path)}".encode("utf-8", "surrogateescape")
    return f"{keepers_folder()}/{hashlib.sha256(words).hexdigest()[:16]}"


def keepers_folder() -> str:
    """The folder of this user's keepers, which nobody else can look into. `OSError`."""
    place = tempfile.gettempdir()
    if len(os.fsencode(place)) > _LONGEST_PLACE:
        place = "/tmp"
    folder = f"{place}/store-keepers-{os.getuid()}"
    with contextlib.suppress(FileExistsError):
        os.mkdir(folder, 0o700)
    found = os.lstat(folder)
    if not stat.S_ISDIR(found.st_mode) or found.st_uid != os.getuid() or found.st_mode & 0o077:
        raise PermissionError(f"{folder} isn't this user's alone")
    return folder


def _start(name: str, path: str, job: int) -> bool:
    """Starts the keeper, unless another process does, or it is about to end. Its socket listens before it runs."""
    try:
        lock = os.open(f"{name}.lock", os.O_RDWR | os.O_CREAT | os.O_CLOEXEC | os.O_NOFOLLOW, 0o600)
    except FileNotFoundError:
        # the folder has just been removed
        return False
    try:
        fcntl.flock(lock, fcntl.LOCK_EX | fcntl.LOCK_NB)
        if not os.fstat(lock).st_nlink:
            # a keeper that has ended had it
            return False
        with contextlib.suppress(FileNotFoundError):
            os.unlink(f"{name}.socket")
        with socket.socket(socket.AF_UNIX, socket.SOCK_SEQPACKET) as listener:
            listener.bind(f"{name}.socket")
            listener.listen()
            # the shell ends at once, so the keeper is no child of this process; -S and -I: nothing is read but Python's own library
            words = ["/bin/sh", "-c", '"$@" &', "sh", sys.executable, "-I", "-S", "-B", str(Path(__file__).with_name("keeper.py"))]
            words += [os.path.realpath(path), str(job), name, str(listener.fileno())]
            none = subprocess.DEVNULL
            subprocess.run(
                words, stdin=none, stdout=none, stderr=none, cwd="/", start_new_session=True, pass_fds=[listener.fileno(), lock], check=True
            )
    except BlockingIOError:
        return False
    except subprocess.SubprocessError as error:
        raise OSError("no keeper could be started") from error
    finally:
        os.close(lock)
    return True


def _forget_all() -> None:
    for keeping in list(_all):
        keeping._forget()


os.register_at_fork(after_in_child=_forget_all)

#: for who has no keeper
NOBODY = Keeping("", 0, b"", is_wanted=False)
