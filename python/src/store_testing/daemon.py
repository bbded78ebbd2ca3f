"""store-daemon, as tests start it: in a folder with settings, asked at its control socket, and ended."""

from __future__ import annotations

import datetime
import os
import signal
import socket
import subprocess
import sys
import tempfile
from pathlib import Path
from typing import Dict, List, Optional, Sequence

from . import PATIENCE, ROOT
from .program import program_or_end
from .server import Report, report_of
from .waiting import until

import store_client
from store_operator.asking import Daemon

DAEMON = str(ROOT / "operate/store-daemon")
# of each job: its key, its window and its device quota
KEY = "5b" * 32
QUOTAS = ("64K", "1M")
# before what the server complains of, in the daemon's log
_SAYS = " WARNING the server says: "


class Place:
    """A folder with settings of a few nodes and jobs. All that was started from it ends with it; it is removed unless it was given."""

    def __init__(self, nodes: int = 1, jobs: Sequence[int] = (1,), folder: Optional[Path] = None, **options: str) -> None:
        self._own = None if folder else tempfile.TemporaryDirectory(prefix="store-")
        self.path = folder or Path(self._own.name if self._own else "")
        self.key_file = self.path / "key"
        self.write_key(0o600)
        self.settings = self.path / "store.ini"
        self.write(nodes, jobs, **options)
        self.daemons: List[subprocess.Popen[str]] = []

    def write_key(self, mode: int, text: str = KEY) -> None:
        self.key_file.write_text(f"{text}\n")
        self.key_file.chmod(mode)

    def write(self, nodes: int, jobs: Sequence[int], **options: str) -> None:
        """Settings with these options of the store; a job's sections follow."""
        usual = {
            "program": options.get("program") or program_or_end(), "memory": "1M", "socket": "store", "control": "control", "spill": "spill",
            "grace": "0.5",
        }
        lines = ["[store]", f"nodes = {nodes}", *(f"{name} = {value}" for name, value in {**usual, **options}.items())]
        for job in jobs:
            lines += [f"[job {job}]", f"window = {QUOTAS[0]}", f"device = {QUOTAS[1]}", "key_file = key"]
        self.settings.write_text("\n".join(lines) + "\n")

    def start(self, before: Sequence[str] = (), names: Optional[Dict[str, str]] = None, more: Sequence[str] = ()) -> "subprocess.Popen[str]":
        """Starts a daemon, by a program that runs it if one is given, with more options and environment. It may end at once."""
        # both its streams go to files, so that no pipe fills up
        with open(self.path / "out", "w") as out, open(self.path / "log", "w") as log:
            daemon = subprocess.Popen(
                [*before, sys.executable, DAEMON, *more, str(self.settings)], stdin=subprocess.DEVNULL, stdout=out, stderr=log, text=True,
                env={**os.environ, **(names or {})}, umask=0o022,
            )
        self.daemons.append(daemon)
        return daemon

    def start_ready(self, before: Sequence[str] = (), names: Optional[Dict[str, str]] = None, more: Sequence[str] = ()) -> "subprocess.Popen[str]":
        daemon = self.start(before, names, more)
        until(lambda: self.said() or daemon.poll() is not None, "ready")
        assert daemon.poll() is None, self.log()
        return daemon

    def refused(self) -> str:
        """What a daemon that can't start says, with status 1."""
        daemon = self.start()
        status = daemon.wait(PATIENCE)
        assert status == 1, f"status {status}: {self.log()}"
        return self.log().splitlines()[-1]

    def said(self) -> List[str]:
        return (self.path / "out").read_text().splitlines()

    def log(self) -> str:
        return (self.path / "log").read_text()

    def socket(self, node: int = 0) -> Path:
        return self.path / f"store.{node}"

    def control(self) -> Daemon:
        return Daemon(str(self.path / "control"))

    def ask(self, line: str) -> str:
        with self.control() as daemon:
            return daemon.ask(line)

    def session(self, job: int = 1, node: int = 0) -> store_client.Connection:
        return store_client.connect(str(self.socket(node)), job, bytes.fromhex(KEY))

    def spilled(self, node: int = 0) -> List[str]:
        return sorted(path.name for path in (self.path / f"spill/{node}").iterdir())

    def server(self) -> int:
        """The process of the server that runs."""
        with self.control() as daemon:
            process = daemon.status()["process"]
        assert isinstance(process, int)
        return process

    def end(self, daemon: "subprocess.Popen[str]", number: int = signal.SIGTERM) -> int:
        daemon.send_signal(number)
        return daemon.wait(PATIENCE)

    def __enter__(self) -> Place:
        return self

    def __exit__(self, *_: object) -> None:
        for daemon in self.daemons:
            if daemon.poll() is None:
                self.end(daemon)
        if self._own:
            self._own.cleanup()


class Supervised:
    """A program under store-daemon in a folder, told by the control socket: what a `Server` is that is started by hand."""

    def __init__(self, words: Sequence[str], folder: str, nodes: int, memory: int, grace: float = PATIENCE) -> None:
        if len(words) != 1:
            raise ValueError("store-daemon takes a program of one word")
        self._place = Place(nodes, (), Path(folder), program=os.path.abspath(words[0]), memory=str(memory), grace=str(grace))
        self._daemon = self._place.start_ready()
        self._control = self._place.control()
        # the server's process
        self.pid = self._place.server()
        # what the server said on standard error, once it was closed, and at which seconds
        self.complaints: List[str] = []
        self.times: List[float] = []

    def say(self, line: str) -> str:
        """The answer to a line of the operator's."""
        return self._control.ask(line)

    def report(self) -> Report:
        """The first server is closed. It ends with a right report, and leaves nothing."""
        status = self._control.status()
        assert (status["restarts"], status["process"]) == (0, self.pid), f"{status}"
        report = report_of(self._control.end_store(False))
        assert self._daemon.wait(PATIENCE) == 0, f"status {self._daemon.returncode}"
        folder = self._place.path
        left = [str(path) for path in (*folder.glob("spill/[0-9]/*"), *folder.glob("store.[0-9]"))]
        assert not left, f"left: {left[:3]}"
        said = [line.partition(_SAYS) for line in self._place.log().splitlines() if _SAYS in line]
        self.complaints = [line for _, _, line in said]
        self.times = [datetime.datetime.strptime(when, "%Y-%m-%dT%H:%M:%S.%fZ").timestamp() for when, _, _ in said]
        return report

    def kill(self) -> None:
        """The daemon ends its server, and then itself, unless it has ended."""
        if self._daemon.poll() is None:
            self._place.end(self._daemon)


def is_running(process: int) -> bool:
    """Whether a process is there, and has not ended."""
    try:
        return Path(f"/proc/{process}/stat").read_text().rpartition(")")[2].split()[0] != "Z"
    except OSError:
        return False


def fill(session: store_client.Connection, count: int = 4) -> "List[store_client.ObjectId]":
    """Objects that together are larger than the window, so that the first ones are spilled."""
    return [session.put(bytes([number]) * 20_000) for number in range(count)]


def listens(path: Path) -> bool:
    with socket.socket(socket.AF_UNIX) as looking:
        looking.settimeout(PATIENCE)
        return looking.connect_ex(str(path)) == 0
