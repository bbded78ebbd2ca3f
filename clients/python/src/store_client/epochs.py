"""What tells one run of a server from the next.

All objects end with their server. Who starts servers, as `store-daemon` does, keeps a file beside their sockets: for `PATH.0`, `PATH.1`, ..
it is `PATH.epoch`. It has a number that was drawn by lot for this run, as 32 hexadecimal digits: the store's epoch. It is there before a
session finds the sockets, and an earlier server has ended then. So who reads it in a session, before it puts, reads the epoch of its own
server: if the file is a later one's, the session is lost, and nothing more is put by it.
"""

from __future__ import annotations

import os
import re
import stat
from typing import Any, Callable, Optional, TypeVar

from .ids import ObjectId
from .refusals import Absent, LostAtRestart, NotGranted
from .steps import Deadline, Steps

T = TypeVar("T")

_NODE = re.compile(r"\.[0-9]+")
_EPOCH = re.compile(r"[0-9a-f]{32}")
# more than a file of an epoch has, in bytes
_MOST = 64


def epoch_file(path: str) -> str:
    """The file of the epoch, beside this socket."""
    stem, ending = os.path.splitext(os.path.realpath(path))
    return f"{stem if _NODE.fullmatch(ending) else stem + ending}.epoch"


def read_epoch(path: str) -> Optional[str]:
    """The epoch of the server whose socket this is; None if nobody keeps one, or if another user made the file."""
    try:
        owner = os.stat(path).st_uid
        file = os.open(epoch_file(path), os.O_RDONLY | os.O_NOFOLLOW | os.O_NONBLOCK | os.O_CLOEXEC)
    except (OSError, ValueError):
        return None
    try:
        found = os.fstat(file)
        if not stat.S_ISREG(found.st_mode) or found.st_uid != owner:
            return None
        text = os.read(file, _MOST).decode("ascii", "replace").strip()
    except OSError:
        return None
    finally:
        os.close(file)
    return text if _EPOCH.fullmatch(text) else None


def checked_epoch(value: Any) -> Optional[str]:
    """An epoch that a call is given, or None."""
    if value is None:
        return None
    if not isinstance(value, str):
        raise TypeError(f"an epoch is the text that `epoch` gives, or None, not {type(value).__name__}")
    if not _EPOCH.fullmatch(value):
        raise ValueError(f"an epoch has 32 lower-case hexadecimal digits, not {value!r}")
    return value


def getting(
    get: Callable[[Optional[Deadline]], Steps[T]],
    id: ObjectId,
    job: int,
    timeout: Optional[float],
    since: Optional[str],
    epoch: Optional[str],
) -> Steps[T]:
    """The steps that get an object by this deadline. If it was put in another epoch, and isn't here, it isn't waited for any more:
    `LostAtRestart`."""
    is_lost = since is not None and epoch is not None and since != epoch
    try:
        return (yield from get(None if timeout is None else Deadline(timeout, awaits_puts=not is_lost)))
    except (Absent, NotGranted) as refusal:
        # of what lies in parts one may be missing for another reason
        if not is_lost or refusal.id != id:
            raise
        raise LostAtRestart(refusal.command, id, job, f"put in epoch {since}, and now it is {epoch}") from None
