"""Descriptors: how many a server needs, and that the process is allowed to have them."""

from __future__ import annotations

import resource
from typing import Optional

# sessions that a node takes, at most; one descriptor each
SESSIONS = 1024
# of each node beside its sessions: what it listens on, what its worker waits on, its spill folder, a spilled file, and a stream that is
# turned away
_OF_NODE = 5
# standard streams, the spill folder's lock, the control socket, and some that connections to it and libraries open for a moment
_OF_PROCESS = 24


def needed_descriptors(nodes: int) -> int:
    """With all sessions open, and each node's device at work."""
    return (SESSIONS + _OF_NODE) * nodes + _OF_PROCESS


def raise_limit(nodes: int) -> Optional[str]:
    """Raises the process's limit for the server that it starts. What is to be said if that isn't allowed."""
    needed = needed_descriptors(nodes)
    soft, hard = resource.getrlimit(resource.RLIMIT_NOFILE)
    if soft == resource.RLIM_INFINITY or soft >= needed:
        return None
    allowed = needed if hard == resource.RLIM_INFINITY else min(needed, hard)
    resource.setrlimit(resource.RLIMIT_NOFILE, (allowed, hard))
    if allowed >= needed:
        return None
    return (
        f"limit of {allowed} descriptors: {needed} are needed for {SESSIONS} sessions at each of {nodes} nodes; once they are used "
        "up, spills and restores of all jobs fail"
    )
