"""What the service manager is told, if it started the daemon and listens (sd_notify)."""

from __future__ import annotations

import contextlib
import os
import socket

# what the manager gives the daemon alone
MANAGERS = ("NOTIFY_SOCKET", "WATCHDOG_USEC", "WATCHDOG_PID")


def tell_manager(*states: str) -> None:
    """Sends states like READY=1 to the socket that NOTIFY_SOCKET names. That nobody hears them changes nothing."""
    path = os.environ.get("NOTIFY_SOCKET", "")
    if path[:1] not in ("/", "@"):
        return
    # a name that is no path begins with a zero byte
    address = "\0" + path[1:] if path[0] == "@" else path
    with contextlib.suppress(OSError), socket.socket(socket.AF_UNIX, socket.SOCK_DGRAM) as manager:
        manager.sendto("\n".join(states).encode(), address)
