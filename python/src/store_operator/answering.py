"""Whether the server's nodes answer: each is asked for a session of job 0, which no store ever has, and refuses it.

No journal has an entry of that, and no job's session is told of it.
"""

from __future__ import annotations

import asyncio
import contextlib
import socket
from pathlib import Path
from typing import Sequence

from store_client.requests import hello

from .counting import OwnHellos

_QUESTION = b"".join(bytes(part) for part in hello(0, bytes(32)).parts)
# between two tries to connect to a server whose queue is full, in seconds
_REST = 0.05


class Silent(Exception):
    """A node that didn't answer; the text says which and why."""


async def ask_all(paths: Sequence[Path], own: OwnHellos, patience: float) -> None:
    """Returns once the node at each of these sockets has answered. `Silent` if one hasn't after so many seconds."""
    asking = [asyncio.ensure_future(_ask_node(node, path, own, patience)) for node, path in enumerate(paths)]
    try:
        await asyncio.gather(*asking)
    finally:
        for one in asking:
            one.cancel()


async def _ask_node(node: int, path: Path, own: OwnHellos, patience: float) -> None:
    try:
        await asyncio.wait_for(_ask(node, path, own), patience)
    except asyncio.TimeoutError:
        raise Silent(f"node {node}: no answer for {patience:.3g} seconds") from None
    except OSError as error:
        raise Silent(f"node {node}: {error.strerror or error}") from error


async def _ask(node: int, path: Path, own: OwnHellos) -> None:
    """Returns at the first byte that comes, or if the node closes: it has no room for a session, and lives."""
    loop = asyncio.get_running_loop()
    with socket.socket(socket.AF_UNIX) as stream:
        stream.setblocking(False)
        await _connect(stream, path)
        # a node that closes at once may not read it
        with contextlib.suppress(ConnectionError):
            await loop.sock_sendall(stream, _QUESTION)
            own.sent(node)
            if await _is_answered(stream):
                return
            own.unread(node)


async def _is_answered(stream: socket.socket) -> bool:
    """Whether a byte comes before the end."""
    with contextlib.suppress(ConnectionError):
        return await asyncio.get_running_loop().sock_recv(stream, 1) != b""
    return False


async def _connect(stream: socket.socket, path: Path) -> None:
    while True:
        try:
            return stream.connect(str(path))
        except BlockingIOError:
            await asyncio.sleep(_REST)
