"""Asks a daemon over its control socket, and reads its answers."""

from __future__ import annotations

import contextlib
import errno
import json
import socket
from typing import Dict, List, NamedTuple, Optional, Tuple, Union

from .counts import Counts, read_counts

# seconds: longer than the daemon itself waits for its server, and more than the grace period that a close may take
_PATIENCE, _END = 90.0, 30.0
_NO_DAEMON = (errno.ENOENT, errno.ECONNREFUSED)

# in the answer to a line whose first word isn't known
_UNKNOWN = ": the orders are "

Mark = Union[str, int, float, List[int]]


class AskFault(Exception):
    """No daemon, or an answer that says that an order wasn't carried out; the text says which."""


class JobRow(NamedTuple):
    """A job that lives at a node, with its quotas in bytes."""

    node: int
    job: int
    window: int
    device: int


class UsageRow(NamedTuple):
    """What a job uses of its quotas, in bytes; its copies, and its device works in flight."""

    node: int
    job: int
    window: int
    window_used: int
    device: int
    device_used: int
    copies: int
    works: int


class SessionRow(NamedTuple):
    """An open session whose Hello was taken: whole seconds since its stream was opened, and the commands that were taken from it."""

    node: int
    session: int
    job: int
    seconds: int
    commands: int


class Daemon:
    """A connection to the control socket of this path."""

    def __init__(self, path: str, timeout: Optional[float] = None) -> None:
        """With a timeout each answer has to come in so many seconds; otherwise the daemon has time to give up first."""
        self._path = path
        self._timeout = timeout
        self._socket = socket.socket(socket.AF_UNIX)
        self._socket.settimeout(timeout or _PATIENCE)
        try:
            self._socket.connect(path)
        except OSError as error:
            self._socket.close()
            hint = ": does store-daemon run, and is this its control socket?" if error.errno in _NO_DAEMON else ""
            raise AskFault(f"{path}: {self._why(error)}{hint}") from error
        self._answers = self._socket.makefile("r", encoding="utf-8", newline="\n")

    def close(self) -> None:
        self._answers.close()
        self._socket.close()

    def __enter__(self) -> Daemon:
        return self

    def __exit__(self, *_: object) -> None:
        self.close()

    def ask(self, line: str) -> str:
        """The answer to a line."""
        try:
            self._socket.sendall(f"{line}\n".encode())
            answer = self._answers.readline()
        except OSError as error:
            raise AskFault(f"{self._path}: {self._why(error)}") from error
        if not answer.endswith("\n"):
            raise AskFault(f"{self._path}: the daemon ended before it answered")
        return answer[:-1]

    def end_store(self, at_once: bool) -> str:
        """The server's report, or why there is none. The daemon ends it after the grace period at the latest."""
        if self._timeout is None:
            self._socket.settimeout(float(str(self.status()["grace"])) + _END)
        return self.ask("close now" if at_once else "close")

    def ping(self) -> Tuple[int, float]:
        """How many nodes there are, and the milliseconds in which all answered."""
        marks = self._marks("ping", "pong")
        return int(marks["nodes"]), float(marks["milliseconds"])

    def status(self) -> Dict[str, Mark]:
        """Each mark by its name: a text, a number, or a number for each node."""
        return {name: _mark(name, value) for name, value in self._marks("status", "status").items()}

    def jobs(self, node: int) -> List[JobRow]:
        rows = self._told(f"jobs {node}", f"n{node} op jobs")
        return [JobRow(node, *_whole(row.split(":"), 3)) for row in rows]

    def usage(self, node: int, job: int) -> Optional[UsageRow]:
        """None if the job doesn't live there any more."""
        return read_usage(self.ask(f"usage {node} {job}"), node, job)

    def metrics(self) -> str:
        """The counters in Prometheus' text format."""
        word, _, text = self.ask("metrics").partition(" ")
        if word != "metrics":
            raise AskFault(f"{word} {text}")
        return str(json.loads(text))

    def usages(self) -> List[UsageRow]:
        """Of all jobs at all nodes, at most a second old."""
        return [UsageRow(*_whole(row.split(":"), 8)) for row in self._told("usages", "usages")]

    def counts(self) -> Counts:
        """The server's own, of all nodes and of all jobs at them, at most a second old."""
        answer = self._ask_newer("counts")
        word, _, text = answer.partition(" ")
        if word != "counts":
            raise AskFault(answer)
        return read_counts(json.loads(text))

    def sessions(self, node: int) -> int:
        return _whole(self._told(f"sessions {node}", f"n{node} op sessions"), 1)[0]

    def streams(self, node: int) -> List[SessionRow]:
        """By job and number."""
        start = f"n{node} op streams"
        rows = [SessionRow(node, *_whole(row.split(":"), 4)) for row in _after(self._ask_newer(f"streams {node}"), start)]
        return sorted(rows, key=lambda row: (row.job, row.session))

    def kick(self, node: int, job: int, session: int) -> str:
        """The server's answer."""
        return self._ask_newer(f"kick {node} {job} {session}")

    def _ask_newer(self, line: str) -> str:
        """The answer to a line that an older server, or an older daemon, doesn't have: a fault then says so."""
        answer = self.ask(line)
        word = line.split(" ")[0]
        if answer.startswith(f"not done: this server has no line {word}"):
            raise AskFault(f"this server has no line {word}: its program is older than that")
        if _UNKNOWN in answer:
            raise AskFault(f"this daemon has no line {word}: it is older than that, and is started again after an upgrade")
        return answer

    def _marks(self, line: str, start: str) -> Dict[str, str]:
        fields = (field.partition("=") for field in self._told(line, start))
        return {name: value for name, _, value in fields}

    def _told(self, line: str, start: str) -> List[str]:
        return _after(self.ask(line), start)

    def _why(self, error: OSError) -> str:
        if isinstance(error, socket.timeout):
            return f"no answer for {self._socket.gettimeout():.3g} seconds"
        return error.strerror or str(error)


def read_usage(answer: str, node: int, job: int) -> Optional[UsageRow]:
    """What the daemon or its server answers to `usage NODE JOB`: None if the job doesn't live there. `AskFault` for anything else."""
    if answer == f"n{node} op refused 1 NotAdmitted":
        return None
    return UsageRow(node, job, *_whole(_after(answer, f"n{node} op usage"), 6))


def _after(answer: str, start: str) -> List[str]:
    """The words of an answer after its start."""
    if answer != start and not answer.startswith(f"{start} "):
        raise AskFault(answer)
    return answer[len(start) :].split()


def _whole(words: List[str], count: int) -> List[int]:
    try:
        numbers = [int(word) for word in words]
    except ValueError:
        numbers = []
    if len(numbers) != count:
        raise AskFault(f"{count} numbers were expected, and came: {' '.join(words)}")
    return numbers


def _mark(name: str, value: str) -> Mark:
    """By the mark's name, as one node's list looks like a number."""
    if name in ("jobs", "sessions"):
        return [int(count) for count in value.split(",")]
    if name == "state":
        return value.replace("_", " ")
    if value.isdigit():
        return int(value)
    with contextlib.suppress(ValueError):
        return float(value)
    return value
