"""What a call raises: a class for each refusal of a store, and the faults of a connection. All can be pickled and copied."""

from __future__ import annotations

from typing import ClassVar, Dict, Optional, Type

from .ids import ObjectId


class StoreError(Exception):
    """Any error of this package that isn't a wrong argument."""


class ConnectionLost(StoreError):
    """The server is gone, or closed the session, or the call was cut short. The connection can't be used any more."""


SERVER_GONE = "the connection was lost: the server is gone or closed the session, as it does at once beyond 1024 sessions of a node"


def of_another_process(opened: int, used: int) -> ConnectionLost:
    """That a connection is used in a process that didn't open it."""
    return ConnectionLost(f"the connection was opened in process {opened}, and this is process {used}: each opens its own")


class TimedOut(StoreError, TimeoutError):
    """The time that the call was given is over."""


class ServerSilent(ConnectionLost, TimedOut):
    """The server didn't answer in the time that the call was given. The connection can't be used any more."""


class NotStarted(StoreError):
    """A server of one's own couldn't be started. There is no program, or it didn't come up; the text says why."""


class TooLong(StoreError):
    """What is to be got is longer than the limit that the call was given. Nothing of it was read."""


class ProtocolError(StoreError):
    """The server sent what is no reply to the command. The connection can't be used any more."""


class Refused(StoreError):
    """A command was refused; which refusal it is, its class and its number say."""

    number: ClassVar[int] = 0
    # what the refusal means to some commands, if that is more exact than the first line of the class
    meanings: ClassVar[Dict[str, str]] = {}

    def __init__(self, command: str = "", id: Optional[ObjectId] = None, job: int = 0, detail: str = "") -> None:
        super().__init__(command, id, job, detail)
        #: which command it was, in the words of a schedule: "create", "get", ..
        self.command = command
        #: the object that the command named, or None
        self.id = id
        #: the job that gave the command
        self.job = job
        #: lengths and limits, if these matter
        self.detail = detail

    def __str__(self) -> str:
        meaning = self.meanings.get(self.command) or (type(self).__doc__ or "").splitlines()[0]
        about = " ".join(filter(None, (self.command, self.id.text(self.job) if self.id else "")))
        said = ", ".join(filter(None, (about, self.detail)))
        return f"{self.number} {type(self).__name__}: {meaning}" + (f" ({said})" if said else "")


class NotAdmitted(Refused):
    """The job isn't live at this node, or the key isn't its own."""

    number = 1


class BadId(Refused):
    """An invalid id or job number."""

    number = 2


class Exists(Refused):
    """It is there already."""

    number = 3
    meanings = {
        "create": "A copy of it is there already.",
        "borrow": "The task borrows it already.",
        "grant": "It is granted to that job already.",
    }


class Absent(Refused):
    """There is no copy of it here."""

    number = 4
    meanings = {"get": "No node has it sealed.", "giveup": "There is no copy of it here, or the task doesn't borrow it."}


class LostAtRestart(Absent):
    """It was lost: the store was restarted since it was put.

    A call that was given the epoch in which the object was put raises this instead of `Absent` or `NotGranted`. The object isn't there, and
    nobody has put it again under its id.
    """

    meanings = {}


class NotSealed(Refused):
    """The copy is still being written or fetched."""

    number = 5


class AlreadySealed(Refused):
    """The copy isn't being written any more."""

    number = 6


class BadSize(Refused):
    """A length outside its range."""

    number = 7
    meanings = {"get": "Another node has it, and it is longer than this job's window here."}


class OutOfBounds(Refused):
    """Offset and count pass the object's end."""

    number = 8


class Full(Refused):
    """No room in the job's window, or no device bytes for what would be spilled."""

    number = 9
    meanings = {
        "get": "No room to bring it back into the job's window: what would make room for it is in use, or has no device bytes.",
    }


class Pending(Refused):
    """Not yet: ask again."""

    number = 10


class NotHeld(Refused):
    """This session has no hold on it."""

    number = 11
    meanings = {"unpin": "It isn't pinned any more."}


class Granted(Refused):
    """A granted object isn't deleted."""

    number = 12


class NotGranted(Refused):
    """Another job's object, which this job may not use so."""

    number = 13
    meanings = {
        "peek": "It isn't granted to this job, or is its own.",
        "withdraw": "This job hasn't granted it to that job.",
    }


class DeviceFailed(Refused):
    """A spill or a restore of this job failed."""

    number = 14


class Damaged(Refused):
    """What was restored or fetched isn't what was sealed."""

    number = 15


class Busy(Refused):
    """The job has 8 device works in flight."""

    number = 16


class TooMany(Refused):
    """A count of this job or copy is at its limit."""

    number = 17
    meanings = {
        "create": "The job has 1024 copies at this node.",
        "get": "The copy has 64 holds, or the job 1024 copies at this node.",
        "borrow": "The copy has 64 borrowers.",
        "grant": "The job has given 64 grants that stand, or this one would be handed on more than 3 deep.",
        "endtask": "The job has ended 1024 tasks at this node.",
    }


class Gone(Refused):
    """The task has ended here."""

    number = 18


class NoMemory(Refused):
    """The server is out of memory."""

    number = 19


class Malformed(Refused):
    """No command that the server has."""

    number = 20


class NoRoom(Refused):
    """No place for a window in the node's memory."""

    number = 21


class NotOwner(Refused):
    """The task isn't the owner, or the copy isn't a primary."""

    number = 22


class NotResident(Refused):
    """The copy isn't a primary that lies sealed in memory."""

    number = 23


class Stale(Refused):
    """No such work, job or entry."""

    number = 24


BY_NUMBER: Dict[int, Type[Refused]] = {refusal.number: refusal for refusal in Refused.__subclasses__()}
