"""What the tests share: a running server, a script that stands in for one, and the documents that they are held to."""

from __future__ import annotations

import contextlib
import ctypes
import os
import re
import resource
import shutil
import socket
import sys
import tempfile
import threading
import unittest
from pathlib import Path
from typing import Any, Iterator, Optional
from unittest import mock

import store_client
import store_testing.server
from store_client import ObjectId, Task, steps
from store_testing import ROOT as ROOT
from store_testing.frames import read_frame
from store_testing.program import program_or_end

FRAMES = ROOT / "docs/rules/frames.md"
VECTORS = ROOT / "docs/rules/frames.vectors"
REFUSALS = ROOT / "docs/rules/refusals.md"
# seconds that a process may take, on a machine that does much else
PATIENCE = int(os.environ.get("STORE_PATIENCE", "120"))
PROGRAM = program_or_end()
# for tests of silence: how long a server may be silent beyond a timeout. All others are patient with theirs
own_grace = mock.patch.object(steps, "GRACE", steps.GRACE)
steps.GRACE = PATIENCE


def key(job: int) -> bytes:
    return bytes([job]) * 32


class Server:
    """A running store: at each node job 1 with a window of 32 MiB, job 2 with one of 64 bytes, job 3 with a device too."""

    def __init__(self, nodes: int = 1, memory: int = 2**26) -> None:
        self.folder = tempfile.TemporaryDirectory()
        self.path = f"{self.folder.name}/store.0"
        self.nodes, self.memory = nodes, memory
        self.spill = Path(self.folder.name, "spill/0")
        self.complaints = tempfile.TemporaryFile("w+", encoding="utf-8")
        self.start("store")

    def start(self, name: str) -> None:
        """Its sockets have this name at first."""
        self.running = store_testing.server.Server(
            [PROGRAM], self.folder.name, self.nodes, self.memory, errors=self.complaints, name=name, key_of=key, patience=PATIENCE
        )
        self.program = self.running.process
        self.running.admit_everywhere(1, 2**25)
        self.running.admit_everywhere(2, 64)
        self.running.admit_everywhere(3, 144, 1024)

    def kill(self) -> None:
        """What it leaves is removed, as the daemon does it."""
        self.running.kill()
        for left in Path(self.folder.name).glob("store.*"):
            left.unlink()
        shutil.rmtree(self.spill.parent)

    def start_again(self, epoch: Optional[str]) -> None:
        """As the daemon does it after a crash: sessions find the sockets once the jobs are admitted, and the epoch is there before."""
        self.start("store.new")
        if epoch:
            self.write_epoch(epoch)
        for node in range(self.nodes):
            os.rename(f"{self.folder.name}/store.new.{node}", f"{self.folder.name}/store.{node}")

    def write_epoch(self, text: str) -> None:
        """That of the server that runs."""
        Path(self.folder.name, "store.epoch").write_text(f"{text}\n", encoding="ascii")

    def admit(self, node: int, job: int, window: int, device: int = 0) -> None:
        self.running.admit(node, job, window, device)

    def tell(self, line: str, node: int = 0) -> None:
        self.running.tell(line, f"n{node} op ok")

    def connect(self, job: int = 1, node: int = 0, timeout: Optional[float] = None) -> store_client.Connection:
        return store_client.connect(f"{self.folder.name}/store.{node}", job, key(job), timeout)

    @contextlib.contextmanager
    def without_more_memory(self) -> Iterator[None]:
        """The process may have as much memory for data as it has now, and no more."""
        status = Path(f"/proc/{self.program.pid}/status").read_text(encoding="ascii")
        found = re.search(r"^VmData:\s+(\d+) kB$", status, re.MULTILINE)
        assert found, status
        size = int(found[1]) * 1024
        limits = resource.prlimit(self.program.pid, resource.RLIMIT_DATA)
        resource.prlimit(self.program.pid, resource.RLIMIT_DATA, (size, limits[1]))
        try:
            yield
        finally:
            resource.prlimit(self.program.pid, resource.RLIMIT_DATA, limits)

    def close(self) -> None:
        try:
            self.running.ending()
        finally:
            self.running.kill()
            self.folder.cleanup()
            self.complaints.seek(0)
            # that it is ready is no complaint
            sys.stderr.write(self.complaints.read().replace("store: ready\n", ""))
            self.complaints.close()


# of Linux's ptrace: a thread is followed, stands still, and goes on by itself
_FOLLOW, _STOP, _LET_GO = 0x4206, 0x4207, 17
# waits for threads that aren't children, too
_ALL = 0x40000000


def _trace(request: int, thread: int) -> None:
    ptrace = ctypes.CDLL(None, use_errno=True).ptrace
    ptrace.argtypes = [ctypes.c_long, ctypes.c_long, ctypes.c_void_p, ctypes.c_void_p]
    ptrace.restype = ctypes.c_long
    if ptrace(request, thread, None, None) < 0:
        number = ctypes.get_errno()
        raise OSError(number, f"ptrace: {os.strerror(number)}")


@contextlib.contextmanager
def device_at_rest(server: Server) -> Iterator[None]:
    """The worker of a server of one node stands still meanwhile: it is the thread that is started first."""
    worker = sorted(int(name) for name in os.listdir(f"/proc/{server.program.pid}/task"))[1]
    _trace(_FOLLOW, worker)
    _trace(_STOP, worker)
    os.waitpid(worker, _ALL)
    try:
        yield
    finally:
        _trace(_LET_GO, worker)


class Script:
    """What stands in for a server: it takes one session, keeps what is sent, and answers with what it was told to."""

    def __init__(self, replies: list[bytes], hang: bool = False) -> None:
        self.folder = tempfile.TemporaryDirectory()
        self.path = f"{self.folder.name}/socket"
        self.sent: list[bytes] = []
        self.listener = socket.socket(socket.AF_UNIX)
        self.listener.settimeout(PATIENCE)
        self.listener.bind(self.path)
        self.listener.listen()
        # whether it keeps the session when it has nothing more to say
        self.hang = hang
        self.over = threading.Event()
        self.thread = threading.Thread(target=self.serve, args=(replies,))
        self.thread.start()

    def serve(self, replies: list[bytes]) -> None:
        with self.listener, self.listener.accept()[0] as stream:
            stream.settimeout(PATIENCE)
            for reply in replies:
                self.sent.append(read_frame(stream))
                stream.sendall(reply)
            if self.hang:
                self.over.wait(PATIENCE)

    def close(self) -> None:
        self.over.set()
        self.thread.join()
        self.folder.cleanup()


def documented_refusals() -> dict[int, tuple[str, str]]:
    """Of each number its name, and who may be told."""
    rows = re.findall(r"^\| (\d+) \| (\w+) \|.*\| ([^|]+) \|$", REFUSALS.read_text(encoding="ascii"), re.MULTILINE)
    return {int(number): (name, told) for number, name, told in rows}


def documented_answers() -> list[tuple[str, str, list[tuple[str, str]]]]:
    """Of each command its kind, its name, and the replies that may answer it, each with its kind and its name."""
    table = FRAMES.read_text(encoding="ascii").split("\n## Which reply answers which command\n")[1].split("\n## ")[0]
    rows = [line.strip("| ").split(" | ") for line in table.splitlines() if line.startswith("| `")]
    return [(kind.strip("`"), name, re.findall(r"`(\w+)` (\w+)", " ".join(replies))) for kind, name, *replies in rows]


def documented() -> tuple[list[tuple[bytes, str]], list[tuple[bytes, str]]]:
    """The documented frames, and what each says: commands and replies."""
    text = VECTORS.read_text(encoding="ascii")
    lines = [line.split(" ", 1) for line in text.splitlines() if line and not line.startswith("#")]
    vectors = [(bytes.fromhex(digits), said) for digits, said in lines]
    return [one for one in vectors if one[0][4] < 0x80], [one for one in vectors if one[0][4] >= 0x80]


def in_child(work: Any) -> str:
    """What the function gives, or the error, in a process that is forked off."""
    reading, writing = os.pipe()
    child = os.fork()
    if not child:
        try:
            told = str(work())
        except BaseException as error:
            told = f"{type(error).__name__}: {error}"
        os.write(writing, told.encode())
        os._exit(0)
    os.close(writing)
    with os.fdopen(reading, "rb") as file:
        told = file.read().decode()
    os.waitpid(child, 0)
    return told


@contextlib.contextmanager
def in_use(store: store_client.Connection) -> Iterator[None]:
    """Another thread has the connection meanwhile."""
    taken, over = threading.Event(), threading.Event()

    def use() -> None:
        with store._lock:
            taken.set()
            over.wait(PATIENCE)

    thread = threading.Thread(target=use)
    thread.start()
    try:
        taken.wait(PATIENCE)
        yield
    finally:
        over.set()
        thread.join()


class ServerOfAll(unittest.TestCase):
    """Tests that share a server of so many nodes. What a test connects is closed at its end."""

    nodes = 1
    server: Server

    @classmethod
    def setUpClass(cls) -> None:
        cls.server = Server(cls.nodes)
        cls.addClassCleanup(cls.server.close)

    def connect(self, job: int = 1, node: int = 0) -> store_client.Connection:
        store = self.server.connect(job, node)
        self.addCleanup(store.close)
        return store

    def connect_pool(self, job: int = 1) -> store_client.Pool:
        pool = store_client.Pool(self.server.path, job, key(job))
        self.addCleanup(pool.close)
        return pool


class WithServer(ServerOfAll):
    """Tests that share a server; each has a connection, and a task that no other has."""

    def setUp(self) -> None:
        self.store = self.connect()
        self.task = Task(os.urandom(20))

    def object_id(self, index: int = 1) -> ObjectId:
        return self.task.object(index, job=1)
