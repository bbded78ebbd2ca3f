"""A client of the object store: sessions over the Unix socket of a node.

    import store_client

    with store_client.local() as store:
        one = store.put(b"Hello")
        with store.get(one) as view:
            print(bytes(view))

`local` starts a server of its own; `connect` is for one that is there already.
What a command does is said in docs/rules/commands.md, and what a frame is in docs/rules/frames.md.
"""

from .calls import Calls, JobTask
from .connection import Connection, connect
from .embedded import LocalStore, local
from .held import Held
from .ids import ObjectId, Task
from .items import GrantedItem, Kind, OwnItem, Placed, State, Usage
from .pool import Pool
from .refusals import (
    Absent,
    AlreadySealed,
    BadId,
    BadSize,
    Busy,
    ConnectionLost,
    Damaged,
    DeviceFailed,
    Exists,
    Full,
    Gone,
    Granted,
    LostAtRestart,
    Malformed,
    NoMemory,
    NoRoom,
    NotAdmitted,
    NotGranted,
    NotHeld,
    NotOwner,
    NotResident,
    NotSealed,
    NotStarted,
    OutOfBounds,
    Pending,
    ProtocolError,
    Refused,
    ServerSilent,
    Stale,
    StoreError,
    TimedOut,
    TooLong,
    TooMany,
)

__version__ = "0.7.2"

__all__ = [
    "Absent",
    "AlreadySealed",
    "BadId",
    "BadSize",
    "Busy",
    "Calls",
    "Connection",
    "ConnectionLost",
    "Damaged",
    "DeviceFailed",
    "Exists",
    "Full",
    "Gone",
    "Granted",
    "GrantedItem",
    "Held",
    "JobTask",
    "Kind",
    "LocalStore",
    "LostAtRestart",
    "Malformed",
    "NoMemory",
    "NoRoom",
    "NotAdmitted",
    "NotGranted",
    "NotHeld",
    "NotOwner",
    "NotResident",
    "NotSealed",
    "NotStarted",
    "ObjectId",
    "OutOfBounds",
    "OwnItem",
    "Pending",
    "Placed",
    "Pool",
    "ProtocolError",
    "Refused",
    "ServerSilent",
    "Stale",
    "State",
    "StoreError",
    "Task",
    "TimedOut",
    "TooLong",
    "TooMany",
    "Usage",
    "connect",
    "local",
]
