"""A server for a trial, with what the system tells of it, and processes that attack it."""

from __future__ import annotations

import contextlib
import multiprocessing
import shutil
import socket
import tempfile
import threading
import time
from pathlib import Path
from typing import Any, Callable, Iterator, List, NamedTuple, Sequence

import store_client
from store_operator.inspection import count_sessions, look_at
from store_testing.frames import key
from store_testing.server import Server

# the attackers have nothing of this process but what they are given
PROCESSES = multiprocessing.get_context("fork")
# seconds that an answer, an attacker's start or its end may take
PATIENCE = 60.0
# seconds that attackers may take until all have begun, and in which what clients left has to be given back
BEGINNING, SETTLING = 150.0, 20.0


class Figures(NamedTuple):
    """Of a server at a moment."""

    resident: int
    threads: int
    descriptors: int
    sessions: int
    files: int


class Host:
    """A server of its own in a folder of its own. `descriptors` limits how many it may have."""

    def __init__(self, words: Sequence[str], nodes: int, memory: int, descriptors: int = 0) -> None:
        self.nodes = nodes
        self.folder = tempfile.mkdtemp(prefix="hostile-")
        limited = ["prlimit", f"--nofile={descriptors}", *words] if descriptors else list(words)
        self._server = Server(limited, self.folder, nodes, memory, patience=PATIENCE)

    def path(self, node: int = 0) -> str:
        return self._server.path(node)

    def admit(self, job: int, window: int, device: int = 0) -> None:
        """At all nodes."""
        self._server.admit_everywhere(job, window, device)

    def end_job(self, job: int) -> None:
        for node in range(self.nodes):
            self._server.end_job(node, job)

    def session(self, job: int, node: int = 0) -> store_client.Connection:
        return store_client.connect(self.path(node), job, key(job), PATIENCE)

    def figures(self) -> Figures:
        process = look_at(self._server.pid)
        sessions = sum(count_sessions([Path(self.path(node)) for node in range(self.nodes)]))
        files = sum(1 for _ in Path(self.folder, "spill").glob("*/*"))
        return Figures(process.resident, process.threads, process.descriptors, sessions, files)

    def settled(self, holds: Callable[[Figures], bool]) -> Figures:
        """The figures once they are so, or after a while those that are."""
        end = time.monotonic() + SETTLING
        while not holds(found := self.figures()) and time.monotonic() < end:
            time.sleep(0.1)
        return found

    def lost(self) -> int:
        """How many messages between nodes were lost, as the report says, once the server has been closed."""
        return int(self._server.ending("close\n").out.split()[4])

    def remove(self) -> None:
        self._server.kill()
        shutil.rmtree(self.folder)


Attack = Callable[[Host, int, Callable[[], bool]], None]


@contextlib.contextmanager
def attacked(host: Host, attack: Attack, count: int) -> Iterator[None]:
    """So many processes attack meanwhile. An attack calls its last argument again and again, the first time when it has begun, and
    ends once that says so."""
    begun, over = PROCESSES.Semaphore(0), PROCESSES.Event()
    attackers = [PROCESSES.Process(target=_run, args=(host, attack, number, begun, over), daemon=True) for number in range(count)]
    try:
        for attacker in attackers:
            attacker.start()
        for _ in attackers:
            assert begun.acquire(timeout=BEGINNING), "an attacker didn't begin"
        yield
    finally:
        over.set()
        end = time.monotonic() + PATIENCE
        for attacker in attackers:
            attacker.join(max(0.1, end - time.monotonic()))
            # one whose answer never comes
            attacker.kill()
            attacker.join()


def _run(host: Host, attack: Attack, number: int, begun: Any, over: Any) -> None:
    told = threading.Event()

    def is_over() -> bool:
        if not told.is_set():
            told.set()
            begun.release()
        return bool(over.is_set())

    with contextlib.suppress(store_client.ConnectionLost):
        attack(host, number, is_over)


def raw_streams(path: str, count: int) -> "List[socket.socket]":
    """Connections that say nothing; fewer if no more are taken."""
    streams: List[socket.socket] = []
    for _ in range(count):
        stream = socket.socket(socket.AF_UNIX)
        stream.setblocking(False)
        streams.append(stream)
        try:
            stream.connect(path)
        except (BlockingIOError, ConnectionError):
            break
    return streams


def close_all(streams: "List[socket.socket]") -> None:
    for stream in streams:
        stream.close()
