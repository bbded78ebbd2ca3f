"""The control socket: lines of the operator's from many connections, each of which is answered by one line, in order."""

from __future__ import annotations

import asyncio
import contextlib
import json
import logging
import time
from typing import Dict, Optional, Set

from . import sockets
from .counts import counts_text
from .limits import needed_descriptors
from .looking import Looks, rows_text
from .metrics import Metrics
from .orders import (
    LONGEST_LINE, Admit, AskCounts, Close, End, Jobs, Kick, NotAnOrder, Order, Ping, Prometheus, Quota, Sessions, Streams, Usage, Usages,
    read_order,
)
from .relaying import Unanswered
from .supervisor import NotDone, Supervisor
from .watching import moment

_MOST_CONNECTIONS = 200
# seconds in which the last answers are still sent
_LAST_ANSWERS = 1.0
# seconds for which no line of the log tells of a wrong line, after one that did
_TOLD_PAUSE = 1.0


class WrongLines:
    """Tells the log of wrong lines: of one a second at most, with how many had none before it."""

    def __init__(self, log: logging.Logger) -> None:
        self._log = log
        self._told: Optional[float] = None
        self._untold = 0

    def tell(self, number: int, fault: NotAnOrder) -> None:
        now = time.monotonic()
        if self._told is not None and now - self._told < _TOLD_PAUSE:
            self._untold += 1
            return
        more = f" (and {self._untold} more since the last line)" if self._untold else ""
        self._log.info("line %d: not an order: %s%s", number, fault, more)
        self._told, self._untold = now, 0


class Control:
    """Takes orders for a supervisor, until it is closed. If as many connections are open as may be, the one that has been idle for longest
    makes room for a new one: each line that came from its client is answered, and nothing has come for longest."""

    def __init__(self, supervisor: Supervisor, looks: Looks, metrics: Metrics, log: logging.Logger) -> None:
        self._supervisor = supervisor
        self._looks = looks
        self._metrics = metrics
        self._wrong = WrongLines(log)
        self._path = supervisor.settings.control
        self._server: Optional[asyncio.AbstractServer] = None
        self._own: Optional[sockets.Identity] = None
        self._connections: Set["asyncio.Task[None]"] = set()
        # those that are idle, by when they became so
        self._idle: Dict["asyncio.Task[None]", None] = {}

    async def open(self) -> None:
        """Listens, for the owner alone. `SocketFault` if another daemon does."""
        sockets.look_at_folder(self._path, self._supervisor.settings.socket_group)
        listening = sockets.listen(self._path)
        self._own = sockets.identity(self._path)
        self._server = await asyncio.start_unix_server(self._connect, sock=listening, limit=LONGEST_LINE)

    async def close(self) -> None:
        """No line is taken any more; what was answered is sent."""
        if self._server is None:
            return
        self._server.close()
        sockets.remove_own(self._path, self._own)
        if self._connections:
            await asyncio.wait(self._connections, timeout=_LAST_ANSWERS)
        for connection in self._connections:
            connection.cancel()

    async def _connect(self, reader: asyncio.StreamReader, writer: asyncio.StreamWriter) -> None:
        task = asyncio.current_task()
        assert task is not None
        is_placed = self._make_room()
        self._connections.add(task)
        try:
            if not is_placed:
                writer.write(f"not done: {_MOST_CONNECTIONS} connections are open\n".encode())
                return
            await self._serve(task, reader, writer)
        except (ConnectionError, asyncio.CancelledError):
            # the end of a connection is only its end, also of one that is cut off at the daemon's
            pass
        finally:
            self._connections.discard(task)
            self._idle.pop(task, None)
            writer.close()

    def _make_room(self) -> bool:
        """Whether there is a place for one connection more, once the one that has been idle for longest has made room."""
        if len(self._connections) < _MOST_CONNECTIONS:
            return True
        longest = next(iter(self._idle), None)
        if longest is None:
            return False
        del self._idle[longest]
        self._connections.discard(longest)
        longest.cancel()
        return True

    async def _serve(self, task: "asyncio.Task[None]", reader: asyncio.StreamReader, writer: asyncio.StreamWriter) -> None:
        number = 0
        while not self._supervisor.ended.is_set():
            self._idle[task] = None
            line = await _read_line(reader)
            self._idle.pop(task, None)
            if line is None:
                return
            number += 1
            if line == "\n" or line.startswith("#"):
                continue
            writer.write(f"{await self._answer(number, line)}\n".encode("utf-8", "replace"))
            await writer.drain()

    async def _answer(self, number: int, line: str) -> str:
        try:
            if not line.endswith("\n"):
                raise NotAnOrder(f"no line feed at its end, or longer than {LONGEST_LINE} bytes")
            return await self._carry_out(read_order(line[:-1], self._supervisor.settings.nodes))
        except NotAnOrder as fault:
            self._wrong.tell(number, fault)
            return f"line {number}: not an order: {fault}"
        except NotDone as fault:
            return f"not done: {fault}"

    async def _carry_out(self, order: Order) -> str:
        if isinstance(order, (Admit, Quota, End)):
            return await self._supervisor.carry_out(order)
        if isinstance(order, Kick):
            return await self._supervisor.kick(f"kick {order.node} {order.job} {order.session}")
        if isinstance(order, Close):
            self._supervisor.stop(order.at_once)
            await self._supervisor.ended.wait()
            return self._supervisor.end
        return await self._look_at(order)

    async def _look_at(self, order: Order) -> str:
        """The answer to an order that changes nothing."""
        if isinstance(order, Jobs):
            jobs = (f" {job.job}:{job.window}:{job.device}" for job in self._supervisor.jobs.at(order.node))
            return f"n{order.node} op jobs{''.join(jobs)}"
        if isinstance(order, Sessions):
            return f"n{order.node} op sessions {self._looks.sessions()[order.node]}"
        if isinstance(order, Streams):
            return await self._supervisor.relay(f"streams {order.node}")
        if isinstance(order, Usage):
            return await self._usage(order)
        if isinstance(order, Usages):
            return rows_text(await self._looks.usages())
        if isinstance(order, AskCounts):
            return await self._counts()
        if isinstance(order, Ping):
            seconds = await self._looks.ping()
            return f"pong nodes={self._supervisor.settings.nodes} milliseconds={1000 * seconds:.1f}"
        if isinstance(order, Prometheus):
            return f"metrics {json.dumps(await self._metrics.text())}"
        return await self._status()

    async def _usage(self, order: Usage) -> str:
        """The server's answer, of a job that the daemon knows."""
        if self._supervisor.jobs.get(order.node, order.job) is None:
            return f"n{order.node} op refused 1 NotAdmitted"
        return await self._supervisor.relay(f"usage {order.node} {order.job}")

    async def _counts(self) -> str:
        try:
            return f"counts {counts_text(await self._looks.counts())}"
        except Unanswered as why:
            raise NotDone(str(why)) from why

    async def _status(self) -> str:
        supervisor = self._supervisor
        settings, server = supervisor.settings, supervisor.server
        process = self._looks.process()
        with_jobs = (str(len(supervisor.jobs.at(node))) for node in range(settings.nodes))
        spilled = await self._looks.spilled()
        since = supervisor.watcher.silent_since
        marks = {
            "state": supervisor.state.value if since is None else f"not_answering_since_{moment(since)}",
            "process": server.process_id if server else 0,
            "seconds": int(time.monotonic() - supervisor.started) if server else 0,
            "restarts": supervisor.restarts,
            "nodes": settings.nodes,
            "jobs": ",".join(with_jobs),
            "sessions": ",".join(map(str, self._looks.sessions())),
            "threads": process.threads,
            "descriptors": process.descriptors,
            "descriptors_needed": needed_descriptors(settings.nodes),
            "resident": process.resident,
            "processor_seconds": f"{process.processor:.2f}",
            "spilled_files": sum(each.files for each in spilled),
            "spilled_bytes": sum(each.bytes for each in spilled),
            "spill_free": min((each.free for each in spilled), default=0),
            "grace": f"{settings.grace:g}",
        }
        return " ".join(["status", *(f"{name}={value}" for name, value in marks.items())])


async def _read_line(reader: asyncio.StreamReader) -> Optional[str]:
    """The next line with its line feed; without it if the stream ends there, or if it is too long and was cut. None at the end."""
    is_cut = False
    while True:
        try:
            line = (await reader.readuntil(b"\n")).decode("latin-1")
            return line.rstrip("\n") if is_cut else line
        except asyncio.IncompleteReadError as end:
            return end.partial.decode("latin-1") or ("" if is_cut else None)
        except asyncio.LimitOverrunError as longer:
            is_cut = True
            with contextlib.suppress(asyncio.IncompleteReadError):
                await reader.readexactly(longer.consumed)
