"""Dialogues played at a running server: the kit is the client, and compares each byte that is answered."""

from __future__ import annotations

import contextlib
import socket
import subprocess
import tempfile
from typing import Dict, Iterator, List

from store_testing import PATIENCE
from store_testing.frames import receive
from store_testing.server import Server

from .dialogue import Act, Dialogue, Fault, Job, Step, key_of

_MEMORY = 1 << 22


@contextlib.contextmanager
def served(words: List[str], jobs: List[Job]) -> Iterator[str]:
    """The socket of a server that has these jobs. At the end it has to say that its journal is right."""
    with tempfile.TemporaryDirectory() as folder:
        try:
            server = Server(words, folder, nodes=1, memory=_MEMORY, key_of=key_of)
        except OSError as error:
            raise Fault(f"the server can't be started: {error}") from None
        with server:
            try:
                server.await_ready()
                for job in sorted(jobs):
                    server.admit(0, job.number, job.window, job.device)
                yield server.path()
                server.close()
            except (AssertionError, subprocess.TimeoutExpired) as error:
                raise Fault(f"the server: {error}") from None


class _Sessions:
    """The sessions of a dialogue, each of which is opened by its first step."""

    def __init__(self, path: str) -> None:
        self._path = path
        self.open: Dict[int, socket.socket] = {}

    def stream(self, session: int) -> socket.socket:
        if session not in self.open:
            stream = socket.socket(socket.AF_UNIX)
            stream.settimeout(PATIENCE)
            stream.connect(self._path)
            self.open[session] = stream
        return self.open[session]

    def close(self) -> None:
        for stream in self.open.values():
            stream.close()


def play(dialogue: Dialogue, words: List[str]) -> None:
    """Plays the dialogue at a server that these words start. `Fault` if it answers otherwise."""
    with served(words, list(dialogue.jobs)) as path:
        sessions = _Sessions(path)
        try:
            for step in dialogue.steps:
                _play_step(dialogue, step, sessions.stream(step.session))
            for stream in sessions.open.values():
                _expect_no_more(dialogue, stream)
        except socket.timeout:
            raise Fault(f"{dialogue.name}: the server was silent for {PATIENCE} seconds") from None
        except OSError as error:
            raise Fault(f"{dialogue.name}: {error}") from None
        finally:
            sessions.close()


def _play_step(dialogue: Dialogue, step: Step, stream: socket.socket) -> None:
    if step.act is Act.SENDS:
        stream.sendall(step.data)
    elif step.act is Act.ANSWERS:
        came = receive(stream, len(step.data))
        if came != step.data:
            raise Fault(f"{dialogue.name}:{step.line}: the server answered {shown(came)}, and {shown(step.data)} is due")
    elif step.act is Act.HALF_CLOSES:
        stream.shutdown(socket.SHUT_WR)
    elif step.act is Act.CLOSES:
        came = _rest(stream)
        if came:
            raise Fault(f"{dialogue.name}:{step.line}: the server answered {shown(came)}, and the end is due")


def _expect_no_more(dialogue: Dialogue, stream: socket.socket) -> None:
    """The server has answered all that it was sent, and no more."""
    with contextlib.suppress(OSError):
        # it may have closed
        stream.shutdown(socket.SHUT_WR)
    came = _rest(stream)
    if came:
        raise Fault(f"{dialogue.name}: the server answered {shown(came)} at the end, and nothing is due")


def _rest(stream: socket.socket) -> bytes:
    """What comes before the end."""
    data = b""
    with contextlib.suppress(ConnectionResetError):
        while True:
            piece = stream.recv(1 << 16)
            if not piece:
                break
            data += piece
    return data


def shown(data: bytes) -> str:
    """Bytes for a message: as digits, and not too many."""
    return data.hex() if len(data) <= 100 else f"{data[:80].hex()}.. ({len(data)} bytes)"
