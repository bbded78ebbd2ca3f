"""What loading a value may raise beside the refusals of a store, which are raised as they are."""

from __future__ import annotations

from ..refusals import StoreError


class ValueLost(StoreError):
    """Nobody has the value any more: its host is gone, or its store, or the value was removed there.

    A store that is away is waited for: `attach` says how long. If it is there again, without the value, and its epoch says that it was
    restarted since the put, `at_restart` is true.

    A task that depends on the value's key doesn't meet it: the scheduler computes the key again, and then the task. It is raised in a
    task that was given the reference in another way, and in all tasks once the value was removed by `release`.
    """

    def __init__(self, host: str, about: str, why: str, at_restart: bool = False) -> None:
        super().__init__(host, about, why, at_restart)
        #: the host on which the value was put
        self.host = host
        #: what the value was
        self.about = about
        #: what was met when it was asked for
        self.why = why
        #: whether it is known that a restart of the host's store lost it
        self.at_restart = at_restart

    def __str__(self) -> str:
        return f"{self.about} of host {self.host} is lost: {self.why}"


class StoreAway(StoreError):
    """The store of the value's host is away, and nobody else has the value. A load waits then."""

    def __init__(self, host: str, about: str, why: str) -> None:
        super().__init__(host, about, why)
        self.host = host
        self.about = about
        self.why = why


class HostUnknown(StoreError):
    """The value is on a host of which this scheduler never had a worker with a store."""

    def __init__(self, host: str, about: str) -> None:
        super().__init__(host, about)
        #: the host that the reference names
        self.host = host
        #: what the value is
        self.about = about

    def __str__(self) -> str:
        return f"{self.about} is on host {self.host}, and no worker of this scheduler ever was there with a store"


class KeyReleased(StoreError):
    """Nobody waits for what the task puts: its key was released while it ran. Nothing was put."""
