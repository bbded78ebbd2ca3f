"""The Unix sockets of nodes, and the daemon's own: whether one is free, whether it listens, who may connect, and its end."""

from __future__ import annotations

import asyncio
import contextlib
import errno
import os
import socket
import stat
from pathlib import Path
from typing import NamedTuple, Optional, Sequence

# between two looks whether a server listens yet, in seconds
_REST = 0.02
# a connect to a server that doesn't accept waits; a look doesn't
_LOOK = 1.0
_BACKLOG = 64


class SocketFault(Exception):
    """A socket that can't be used; the text says which and why."""


class Identity(NamedTuple):
    """Of what is at a path, which another one may be later."""

    device: int
    number: int


def clear(path: Path) -> None:
    """Leaves the path free: a socket on which nobody listens is removed, and anything else is a fault."""
    if is_there(path):
        raise SocketFault(f"socket {path}: a server listens there")
    try:
        path.unlink(missing_ok=True)
        if not path.parent.is_dir():
            raise SocketFault(f"socket {path}: there is no such folder")
    except OSError as error:
        raise SocketFault(f"socket {path}: {error.strerror}") from error


def is_there(path: Path) -> bool:
    """Whether a server listens there. A fault if that can't be known, or if what is there is no socket."""
    try:
        if not stat.S_ISSOCK(path.lstat().st_mode):
            raise SocketFault(f"socket {path}: a file is there that is no socket")
    except FileNotFoundError:
        return False
    except OSError as error:
        raise SocketFault(f"socket {path}: {error.strerror}") from error
    return _listens(path)


def _listens(path: Path) -> bool:
    with socket.socket(socket.AF_UNIX) as looking:
        looking.settimeout(_LOOK)
        # only this says that nobody listens; a server of another user, or one that is busy, is there
        try:
            failed = looking.connect_ex(str(path))
        except socket.timeout:
            return True
    if failed in (errno.ECONNREFUSED, errno.ENOENT):
        return False
    if failed in (0, errno.EAGAIN):
        return True
    raise SocketFault(f"socket {path}: {os.strerror(failed)}")


async def await_all(paths: Sequence[Path]) -> None:
    """Waits until a server listens on each."""
    for path in paths:
        while not is_there(path):
            await asyncio.sleep(_REST)


def mask(mode: int) -> int:
    """The umask with which a process makes sockets of this mode."""
    return 0o777 & ~mode


def look_at_folder(path: Path, group: Optional[int]) -> None:
    """A fault if others may put something in the place of a socket that is made there; `group` is whose members are others too."""
    folder = path.parent
    try:
        found = folder.stat()
    except FileNotFoundError:
        raise SocketFault(f"socket {path}: there is no such folder") from None
    except OSError as error:
        raise SocketFault(f"socket {path}: {error.strerror}") from error
    if found.st_uid not in (0, os.geteuid()):
        raise SocketFault(f"socket {path}: its folder belongs to another user ({found.st_uid}), who may put others there")
    mode = stat.S_IMODE(found.st_mode)
    is_shared = found.st_gid != os.getegid() or found.st_gid == group
    if mode & (0o022 if is_shared else 0o002) and not mode & stat.S_ISVTX:
        raise SocketFault(f"socket {path}: others may write its folder (mode {mode:04o}): chmod go-w {folder}")


def move(old: Sequence[Path], new: Sequence[Path], group: Optional[int]) -> None:
    """From here on sessions find the sockets. Who may connect is said by the modes with which they were made, and by the group."""
    for path, place in zip(old, new):
        try:
            _give(path, group)
            path.rename(place)
        except OSError as error:
            raise SocketFault(f"socket {path}: {error.strerror}") from error


def _give(path: Path, group: Optional[int]) -> None:
    """To the group if there is one. A fault if it isn't this user's socket, whatever a link there leads to."""
    there = os.open(path, os.O_PATH | os.O_NOFOLLOW | os.O_CLOEXEC)
    try:
        found = os.fstat(there)
        if not stat.S_ISSOCK(found.st_mode) or found.st_uid != os.geteuid():
            raise SocketFault(f"socket {path}: another file has come into its place")
        if group is not None:
            # what is open, whatever is at the path by now
            os.chown(f"/proc/self/fd/{there}", -1, group)
    finally:
        os.close(there)


def remove(paths: Sequence[Path]) -> None:
    """Removes what servers that have ended left. Where another one listens, or a file is, it stays."""
    for path in paths:
        try:
            if not is_there(path):
                path.unlink(missing_ok=True)
        except (SocketFault, OSError):
            continue


def identity(path: Path) -> Optional[Identity]:
    """Of what is there, if anything is."""
    try:
        found = path.lstat()
    except OSError:
        return None
    return Identity(found.st_dev, found.st_ino)


def remove_own(path: Path, own: Optional[Identity]) -> None:
    """Removes what is there if it is this one still: somebody else may have made another one."""
    if own is not None and identity(path) == own:
        with contextlib.suppress(OSError):
            path.unlink()


def listen(path: Path) -> socket.socket:
    """A socket for the owner alone, at a path that is cleared."""
    clear(path)
    listening = socket.socket(socket.AF_UNIX)
    before = os.umask(mask(0o600))
    try:
        listening.bind(str(path))
        listening.listen(_BACKLOG)
    except OSError as error:
        listening.close()
        raise SocketFault(f"socket {path}: {error.strerror}") from error
    finally:
        os.umask(before)
    return listening
