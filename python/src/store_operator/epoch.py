"""The file beside the sockets by which clients tell one run of the server from the next: what the one had the next doesn't have."""

from __future__ import annotations

import secrets
from pathlib import Path
from typing import Optional

from . import sockets
from .ready import write_new
from .sockets import SocketFault

_BYTES = 16


class EpochFile:
    """It has a number that was drawn by lot for this run, as 32 hexadecimal digits."""

    def __init__(self, path: Path, socket_mode: int, group: Optional[int]) -> None:
        """Who may connect to the sockets may read it."""
        self._path = path
        self._mode = 0o600 | socket_mode & 0o444
        self._group = group
        self._own: Optional[sockets.Identity] = None

    def renew(self) -> None:
        """Another run begins. This comes before sessions find its sockets, so none of them reads the number of an earlier one."""
        try:
            write_new(self._path, f"{secrets.token_hex(_BYTES)}\n", self._mode, self._group)
        except OSError as error:
            raise SocketFault(f"epoch {self._path}: {error.strerror}") from error
        self._own = sockets.identity(self._path)

    def remove(self) -> None:
        """The run has ended. What another one has made there stays."""
        sockets.remove_own(self._path, self._own)
        self._own = None
