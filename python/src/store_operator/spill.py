"""The folders that spilled objects go to: the owner's alone, one server's alone, and swept of what an earlier run left.

A server keeps each spilled object in a file JOB.NUMBER, which is JOB.NUMBER.part while it is written, and opens both by name. So
no one else may be able to put a link there, and none may be there at the start.
"""

from __future__ import annotations

import contextlib
import fcntl
import os
import re
import stat
from pathlib import Path
from typing import Iterator, NamedTuple, Optional, Sequence, Tuple

from .jobs import Over
from .sockets import Identity

LOCK = "lock"
_SPILLED = re.compile(r"(0|[1-9][0-9]{0,9})\.(0|[1-9][0-9]{0,19})(\.part)?", re.ASCII)
_FOLDER = os.O_RDONLY | os.O_DIRECTORY | os.O_NOFOLLOW | os.O_CLOEXEC


class SpillFault(Exception):
    """A folder that can't be used; the text says which and why."""


class Spilled(NamedTuple):
    """Spilled objects of a node: how many files, their bytes, and what is free beside them for the owner, in bytes."""

    files: int
    bytes: int
    free: int


class SpillFolders:
    """The folder above the nodes' folders, with its lock, which the server holds too as long as it runs."""

    def __init__(self, above: Path, nodes: Sequence[Path]) -> None:
        self.above = above
        self.nodes = tuple(nodes)
        self._lock: Optional[int] = None
        # which folders were swept for the server that runs: others may have come into their places since
        self._own: Tuple[Identity, ...] = ()

    def take(self) -> int:
        """Makes what is missing, and locks. The lock's descriptor, for the server: it stays locked as long as anyone has it open."""
        _make(self.above)
        lock = self._open_lock()
        try:
            fcntl.flock(lock, fcntl.LOCK_EX | fcntl.LOCK_NB)
        except BlockingIOError:
            holder = os.pread(lock, 20, 0).decode("latin-1").strip()
            os.close(lock)
            raise SpillFault(f"spill folder {self.above}: a live server uses it (daemon {holder or 'unknown'})") from None
        self._lock = lock
        # on a full disk it is locked all the same
        with contextlib.suppress(OSError):
            os.ftruncate(lock, 0)
            os.pwrite(lock, f"{os.getpid()}\n".encode(), 0)
        for folder in self.nodes:
            _make(folder)
        return lock

    def _open_lock(self) -> int:
        path = self.above / LOCK
        try:
            lock = os.open(path, os.O_RDWR | os.O_CREAT | os.O_NOFOLLOW | os.O_CLOEXEC | os.O_NONBLOCK, 0o600)
        except OSError as error:
            raise SpillFault(f"spill folder {self.above}: {LOCK}: {error.strerror}") from error
        if not stat.S_ISREG(os.fstat(lock).st_mode):
            os.close(lock)
            raise SpillFault(f"spill folder {self.above}: {LOCK} is no file")
        return lock

    def sweep(self) -> int:
        """Removes the files that a server which has ended left, and nothing else. How many there were. From here on the folders are the
        next server's.

        What has such a name and is no file is a fault: the server would write through a link. So is a folder that a live server has,
        whoever started it: it needs what is there.
        """
        swept = [_sweep(folder) for folder in self.nodes]
        self._own = tuple(own for own, _ in swept)
        return sum(count for _, count in swept)

    def clear(self) -> int:
        """The same, once that server has ended. If another folder has come into the place of its own nothing is removed there."""
        return sum(_sweep(folder, own)[1] for folder, own in zip(self.nodes, self._own))

    def sweep_jobs(self, over: Sequence[Over]) -> int:
        """Removes what lies there of jobs that are over, by node: a server reads none of it any more. How many files there were.

        The server goes on meanwhile, and may remove the same files: neither minds that one has gone.
        """
        return sum(_sweep_jobs(folder, own, jobs) for folder, own, jobs in zip(self.nodes, self._own, over))

    def spilled(self) -> Tuple[Spilled, ...]:
        """What lies in the server's folders now, by node."""
        return tuple(_spilled_in(folder, own) for folder, own in zip(self.nodes, self._own))

    def give_up(self) -> None:
        """Unlocks, once the server has ended too."""
        if self._lock is not None:
            os.close(self._lock)
            self._lock = None


def _make(folder: Path) -> None:
    """Makes the folder if it isn't there. One that is not the owner's alone is refused."""
    try:
        folder.mkdir(mode=0o700, exist_ok=True)
        # by a descriptor, so that what is looked at is what is used; the last name is no link
        there = os.open(folder, _FOLDER)
    except FileNotFoundError:
        raise SpillFault(f"spill folder {folder}: there is no folder {folder.parent}: make it for the user that runs this") from None
    except OSError as error:
        raise SpillFault(f"spill folder {folder}: {error.strerror}") from error
    try:
        found = os.fstat(there)
    finally:
        os.close(there)
    if found.st_uid != os.geteuid():
        raise SpillFault(f"spill folder {folder}: it belongs to another user ({found.st_uid})")
    mode = stat.S_IMODE(found.st_mode)
    if mode & 0o077:
        raise SpillFault(f"spill folder {folder}: others may use it (mode {mode:04o}): chmod 700 {folder}")


def _sweep(folder: Path, own: Optional[Identity] = None) -> Tuple[Identity, int]:
    """Which folder it is, and how many files were removed."""
    with _opened(folder, own) as there:
        # a live server has it locked as long as it runs
        try:
            fcntl.flock(there, fcntl.LOCK_EX | fcntl.LOCK_NB)
        except BlockingIOError:
            raise SpillFault(f"spill folder {folder}: a live server uses it") from None
        found = list(_spilled(there))
        for name, about in found:
            if not stat.S_ISREG(about.st_mode):
                raise SpillFault(f"spill folder {folder}: {name} is no file, and a spilled object would go there: remove it")
        for name, _ in found:
            os.unlink(name, dir_fd=there)
        return _identity(there), len(found)


def _sweep_jobs(folder: Path, own: Identity, over: Over) -> int:
    with _opened(folder, own) as there:
        count = 0
        for name, about in _spilled(there):
            if over.has(int(name.partition(".")[0])) and stat.S_ISREG(about.st_mode):
                with contextlib.suppress(FileNotFoundError):
                    os.unlink(name, dir_fd=there)
                    count += 1
        return count


def _spilled_in(folder: Path, own: Identity) -> Spilled:
    with _opened(folder, own) as there:
        sizes = [about.st_size for _, about in _spilled(there) if stat.S_ISREG(about.st_mode)]
        room = os.fstatvfs(there)
    return Spilled(len(sizes), sum(sizes), room.f_bavail * room.f_frsize)


@contextlib.contextmanager
def _opened(folder: Path, own: Optional[Identity] = None) -> Iterator[int]:
    """The folder's descriptor. A fault if it isn't there, or isn't this one."""
    try:
        there = os.open(folder, _FOLDER)
    except OSError as error:
        raise SpillFault(f"spill folder {folder}: {error.strerror}") from error
    try:
        if own is not None and own != _identity(there):
            raise SpillFault(f"spill folder {folder}: it was moved or removed, and this is another one")
        yield there
    finally:
        os.close(there)


def _identity(there: int) -> Identity:
    found = os.fstat(there)
    return Identity(found.st_dev, found.st_ino)


def _spilled(folder: int) -> Iterator[Tuple[str, os.stat_result]]:
    """What has a spilled object's name in an open folder; a link is looked at itself."""
    for name in os.listdir(folder):
        if _SPILLED.fullmatch(name):
            try:
                yield name, os.stat(name, dir_fd=folder, follow_symlinks=False)
            except FileNotFoundError:
                # erased meanwhile
                continue
