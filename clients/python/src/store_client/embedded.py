"""A server of a process's own, which ends with it."""

from __future__ import annotations

import contextlib
import os
import re
import secrets
import select
import shutil
import subprocess
import sys
import tempfile
import weakref
from pathlib import Path
from typing import Optional, Union

from .checks import seconds, whole_number
from .connection import Connection
from .pool import Pool
from .refusals import NotStarted
from .server_program import find_program

# the one job
_JOB = 1
# of a job's window, in bytes: the unit, and the most that a server gives one job; and of its device
_UNIT, MOST_MEMORY, MOST_DEVICE = 16, 2**28, 2**40
_UNITS = {"": 0, "K": 10, "M": 20, "G": 30, "T": 40}
_SIZE = re.compile(r"([0-9]{1,20})([KMGT]?)(?:i?B)?", re.ASCII)
# seconds until a server listens, and until it has ended with its folder; and how long a process can wait for the first at all
_PATIENCE, _LONGEST_PATIENCE = 60.0, 86_400.0
# A socket's path has at most 107 bytes. What follows the temporary folder in it has 23
_LONGEST_PLACE = 84

_servers: weakref.WeakSet[_Server] = weakref.WeakSet()


class LocalStore(Connection):
    """A connection to a server of this process's own. The server ends, and its folder is removed, with the block, with `close`, when the
    connection is dropped, and in any case with the process, also if that is killed. Objects end with it.

    Other processes connect by `path`, `job` and `key`, or with a `pool`, and may end as they like.
    """

    def __init__(
        self, memory: Union[int, str] = "256M", device: Union[int, str] = "1G", timeout: Optional[float] = None, keeper: bool = True
    ) -> None:
        """See `local`."""
        self._has_keeper = keeper
        window = _size(memory, "memory", _UNIT, MOST_MEMORY) // _UNIT * _UNIT
        quota, key = _size(device, "device", 0, MOST_DEVICE), secrets.token_bytes(32)
        patience = seconds(timeout)
        self._server = _Server(window, f"admit 0 {_JOB} {window} {quota} {key.hex()}\n", _PATIENCE if patience is None else patience)
        # also if there will be no connection
        self._end = weakref.finalize(self, self._server.end)
        try:
            # the server ends with this process, and so does all that it may leave
            super().__init__(f"{self._server.folder}/store.0", _JOB, key, timeout, keeper=False)
        except BaseException:
            self._end()
            raise

    @property
    def path(self) -> str:
        """The path of the server's socket."""
        return self._path

    @property
    def key(self) -> bytes:
        """The key of the job."""
        return self._key

    def pool(self, connections: int = 4) -> Pool:
        """Connections to the same server, for threads and for processes: it may be used after a fork, and pickled for a worker."""
        return Pool(self.path, self.job, self.key, self._timeout, connections, self._has_keeper)

    def close(self) -> None:
        """The session ends, and the server. In a process that was forked off only what it has of the session ends."""
        try:
            super().close()
        finally:
            self._end()

    def __enter__(self) -> LocalStore:
        return self

    def __repr__(self) -> str:
        return f"<LocalStore at {self._path}{': ' + self._lost if self._lost else ''}>"


class _Server:
    """A server, and the process that keeps it until the pipe to it is closed. Only the process that started it has that open."""

    def __init__(self, memory: int, order: str, patience: float) -> None:
        self._process, self.folder = os.getpid(), ""
        # -S and -I: nothing is read but Python's own library
        words = [sys.executable, "-I", "-S", str(Path(__file__).with_name("server_keeper.py")), find_program(), _place(), str(memory)]
        pipe = subprocess.PIPE
        try:
            # a terminal's signals don't reach it
            self._keeper = subprocess.Popen(words, stdin=pipe, stdout=pipe, bufsize=0, cwd="/", start_new_session=True)
        except OSError as error:
            raise NotStarted(f"{sys.executable or 'this Python, which says no path'}: {error.strerror}") from error
        _servers.add(self)
        try:
            self.folder = self._started(order, patience)
        except BaseException:
            self.end()
            raise

    def _started(self, order: str, patience: float) -> str:
        """The server's folder."""
        assert self._keeper.stdin and self._keeper.stdout
        with self._keeper.stdout as answers:
            with contextlib.suppress(BrokenPipeError):
                self._keeper.stdin.write(order.encode())
            poll = select.poll()
            poll.register(answers, select.POLLIN)
            if not poll.poll(min(patience, _LONGEST_PATIENCE) * 1000):
                raise NotStarted(f"the server isn't ready after {patience:g} seconds")
            told = os.fsdecode(answers.readline()).strip()
        word, _, folder = told.partition(" ")
        if word != "ready":
            raise NotStarted(f"the server didn't start: {told or 'what was to keep it has ended'}")
        return folder

    def end(self) -> None:
        """Once this returns the server has ended, and its folder is removed."""
        if os.getpid() == self._process:
            self.forget()
            # it ends in any case
            with contextlib.suppress(subprocess.TimeoutExpired):
                self._keeper.wait(_PATIENCE)
            if self.folder:
                # it was killed, perhaps
                shutil.rmtree(self.folder, ignore_errors=True)

    def forget(self) -> None:
        """Closes what this process has of the pipe."""
        assert self._keeper.stdin
        self._keeper.stdin.close()


def _size(value: Union[int, str], what: str, least: int, most: int) -> int:
    """The bytes that a number says, or a text, as the daemon's settings have it: 65536, 64K, 64M, 64MiB, 1G, 1T."""
    if isinstance(value, str):
        found = _SIZE.fullmatch(value.strip())
        if not found:
            raise ValueError(f"{what}: {value!r} is no size: bytes, or a number with K, M, G or T, like 64M")
        value = int(found[1]) << _UNITS[found[2]]
    return whole_number(value, f"{what}, in bytes,", least, most)


def _place() -> str:
    """The folder for temporary files, or /tmp if the path of a socket in it would be too long."""
    usual = tempfile.gettempdir()
    return usual if len(os.fsencode(usual)) <= _LONGEST_PLACE else "/tmp"


def _forget_all() -> None:
    for server in list(_servers):
        server.forget()


os.register_at_fork(after_in_child=_forget_all)


def local(
    memory: Union[int, str] = "256M", device: Union[int, str] = "1G", timeout: Optional[float] = None, keeper: bool = True
) -> LocalStore:
    """Starts a server of one job, in a folder of its own below the one for temporary files, and connects to it. `NotStarted`.

    The job has all of the memory, at most 256M, and for what has no room in it so much of the disk as `device` says. Sizes are bytes, or
    texts with K, M, G or T. The program is the one that STORE_PROGRAM names, or that of the package store-server, or `store` on PATH, or
    in a checkout of the repository the one that its scripts take. The timeout is that of `connect`, and of the start. The keeper is for
    the processes that use its `pool`: this one has none, since all ends with it.
    """
    return LocalStore(memory, device, timeout, keeper)
