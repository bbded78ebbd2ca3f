"""The supervisor: it starts the server and admits the jobs, starts it again after a crash, and ends it when it is told to."""

from __future__ import annotations

import asyncio
import contextlib
import enum
import logging
import signal
import time
from pathlib import Path
from typing import Any, Dict, List, Optional

from . import sockets
from .counters import Counters
from .counting import OwnHellos
from .epoch import EpochFile
from .inspection import count_sessions
from .jobs import LiveJobs, Over
from .limits import raise_limit
from .notify import tell_manager
from .orders import End, ServerOrder, server_line, told
from .ready import write_new
from .refusals import explained
from .relaying import TooLate, Unanswered, relay
from .server import Server, ServerEnded
from .settings import Settings
from .sizes import many
from .sockets import SocketFault
from .spill import SpillFault, SpillFolders
from .tidying import Tidying
from .watching import Watcher, moment

# seconds that the server may take for an answer, and until it listens
_PATIENCE = 60.0
# seconds from a crash to the next start: at first, and at most; after a run of so many seconds it is the first again
_FIRST_PAUSE, _LONGEST_PAUSE, _GOOD_RUN = 0.5, 60.0, 60.0
# seconds in which sessions that wait are still answered if the server is closed at once
_LEAST_GRACE = 0.5
_OK = " op ok"
# what a server says once all its sockets listen, and no complaint
_LISTENS = "store: ready"


class State(enum.Enum):
    STARTING = "starting"
    RUNNING = "running"
    PAUSED = "paused"
    CLOSING = "closing"
    ENDED = "ended"


class StartFault(Exception):
    """The server didn't come up; the text says why."""


class NotDone(Exception):
    """An order that wasn't given to the server, or to which no answer came; the text says which."""


class Supervisor:
    """One server at a time. `end` is the report of the last one, or why there is none, once `ended` is set."""

    def __init__(self, settings: Settings, log: logging.Logger) -> None:
        self.settings = settings
        self.state = State.STARTING
        self.server: Optional[Server] = None
        self.jobs = LiveJobs(settings.jobs)
        self.spill = SpillFolders(settings.spill, settings.folders())
        self.restarts = 0
        self.started = time.monotonic()
        self.ended = asyncio.Event()
        self.end = "no server was running"
        self._log = log
        self._tidying = Tidying(self.spill, self._over, log)
        self.own_hellos = OwnHellos()
        self.watcher = Watcher(settings, self.own_hellos, log)
        self.counters = Counters()
        self._own: Dict[Path, Optional[sockets.Identity]] = {}
        self._epoch = EpochFile(settings.epoch(), settings.socket_mode, settings.socket_group)
        self._complaint = ""
        self._lock = -1
        self._pause = _FIRST_PAUSE
        self._has_served = False
        self._stop = asyncio.Event()
        self._hurry = asyncio.Event()

    # ---- what others ask of it

    def stop(self, at_once: bool) -> None:
        """The server is closed; open sessions may go on for the grace period, or not. The second time it is at once."""
        if at_once or self._stop.is_set():
            self._hurry.set()
        self._stop.set()

    async def carry_out(self, order: ServerOrder) -> str:
        """The server's answer to an order."""
        return await self._give(self.running(), order)

    async def relay(self, line: str, if_late: str = "") -> str:
        """The answer of the server's own control socket. If none comes in time, what is to be said besides is added."""
        self.running()
        try:
            return await relay(self.settings.server_control(), line, _PATIENCE)
        except TooLate as why:
            raise NotDone(f"{why}{if_late}") from why
        except Unanswered as why:
            raise NotDone(str(why)) from why

    async def kick(self, line: str) -> str:
        """The same of a line that ends a session: the log tells of it."""
        answer = await self.relay(line, "; it may still be carried out")
        self._log.info("%s: %s", line, answer)
        return answer

    def running(self) -> Server:
        """The server, if it serves and answered the last look. `NotDone` otherwise, at once."""
        server = self.serving()
        if self.watcher.silent_since is not None:
            raise NotDone(f"the server has not answered since {moment(self.watcher.silent_since)}")
        return server

    def serving(self) -> Server:
        """The server, if it serves, whether it answers or not."""
        if self.state is not State.RUNNING or self.server is None:
            raise NotDone(f"the server is {self.state.value}")
        return self.server

    # ---- its run

    def take(self) -> None:
        """Takes the spill folder, or `SpillFault`. It comes before `run`."""
        self._lock = self.spill.take()

    async def run(self) -> None:
        """From the first start to the end. A fault of `StartFault`, `SpillFault` or `SocketFault` if the first start fails."""
        try:
            sockets.look_at_folder(self.settings.sockets()[0], self.settings.socket_group)
            for path in self._all_sockets():
                sockets.clear(path)
            too_few = raise_limit(self.settings.nodes)
            if too_few:
                self._log.warning(too_few)
            while not self._stop.is_set():
                await self._run_server()
                if not self._stop.is_set():
                    await self._rest()
        finally:
            self.spill.give_up()
            self.state = State.ENDED
            self.ended.set()

    async def _run_server(self) -> None:
        """One run of the server, of which nothing stays. Once it has served, a failed start is a crash like others."""
        self.state = State.STARTING
        self.started = time.monotonic()
        self.jobs.begin()
        self.own_hellos.begin()
        tidying = asyncio.ensure_future(self._tidying.run())
        try:
            self._tell_removed(self.spill.sweep())
            self.server = await Server.start(self.settings, self._lock, self._heard)
            self._log.info("started the server: process %d", self.server.process_id)
            await self._bring_up(self.server)
            await self._watch(self.server)
        except (StartFault, SpillFault, SocketFault, OSError) as fault:
            if not self._has_served:
                raise StartFault(str(fault)) from fault
            self._log.error("the server can't be started: %s", fault)
        finally:
            tidying.cancel()
            await self._end_server()
            self._clean_up()

    async def _bring_up(self, server: Server) -> None:
        """Waits until the sockets listen, admits the jobs, and says that it is ready. A stop cuts it short."""
        listening = asyncio.ensure_future(sockets.await_all(self.settings.starting_sockets()))
        try:
            await self._until(listening, server.ended, timeout=_PATIENCE)
            if self._stop.is_set():
                return
            if not listening.done():
                raise StartFault(self._complaint or "the server doesn't listen")
            listening.result()
        finally:
            listening.cancel()
        await self._admit_jobs(server)
        if not self._stop.is_set():
            self._open(server)

    async def _watch(self, server: Server) -> None:
        """Until it ends, or is to be started again since it is stuck, or a stop comes."""
        watching = asyncio.ensure_future(self.watcher.run())
        try:
            await self._until(server.ended, watching)
        finally:
            watching.cancel()
            self.watcher.silent_since = None

    async def _admit_jobs(self, server: Server) -> None:
        """The jobs of the settings, or after a crash those that lived."""
        for job in self.jobs.in_order():
            try:
                answer = await self._give(server, job)
            except NotDone as fault:
                raise StartFault(f"{told(job)}: {fault}") from fault
            if answer.endswith(_OK):
                continue
            if not self._has_served:
                raise StartFault(f"{told(job)}: {explained(answer)}")
            self._log.error("not admitted again: %s: %s", told(job), explained(answer))
            self.jobs.forget(job)

    def _open(self, server: Server) -> None:
        """Sessions may come: no job is refused that a restart didn't admit yet."""
        settings = self.settings
        self._epoch.renew()
        sockets.move(settings.starting_sockets(), settings.sockets(), settings.socket_group)
        self._own = {path: sockets.identity(path) for path in settings.sockets()}
        if settings.ready:
            write_new(settings.ready, f"{server.process_id}\n")
        self.state = State.RUNNING
        self._has_served = True
        self._log.info("ready: %s, %s", many(settings.nodes, "node"), many(len(self.jobs.in_order()), "admission"))
        tell_manager("READY=1", f"STATUS=serves {many(settings.nodes, 'node')}")
        # that nobody reads it any more doesn't end the service
        with contextlib.suppress(OSError):
            print("store-daemon: ready", flush=True)

    async def _give(self, server: Server, order: ServerOrder) -> str:
        answer = server.ask(server_line(order))
        # also if it comes after the patience of who asked
        answer.add_done_callback(lambda done: self._note(order, done))
        try:
            return await asyncio.wait_for(asyncio.shield(answer), _PATIENCE)
        except ServerEnded:
            raise NotDone("the server ended before it answered") from None
        except asyncio.TimeoutError:
            raise NotDone(f"no answer for {_PATIENCE:.0f} seconds; it may still be carried out") from None

    def _note(self, order: ServerOrder, done: "asyncio.Future[str]") -> None:
        if done.cancelled() or done.exception() is not None:
            return
        self._log.info("%s: %s", told(order), done.result())
        self.counters.answered(order, done.result())
        if done.result().endswith(_OK):
            self.jobs.carried_out(order)
            if isinstance(order, End):
                self._tidying.job_ended()

    def _all_sockets(self) -> List[Path]:
        return [*self.settings.sockets(), *self._made_by_server()]

    def _made_by_server(self) -> List[Path]:
        return [*self.settings.starting_sockets(), self.settings.server_control()]

    def _over(self) -> List[Over]:
        return [self.jobs.over(node) for node in range(self.settings.nodes)]

    def _heard(self, line: str) -> None:
        if line == _LISTENS:
            self._log.info("the server says: %s", line)
            return
        self._complaint = line
        self.counters.heard(line)
        self._log.warning("the server says: %s", line)

    async def _until(self, *events: "asyncio.Future[Any]", timeout: Optional[float] = None) -> None:
        """Waits for one of them, for a stop, or for so many seconds."""
        stop = asyncio.ensure_future(self._stop.wait())
        await asyncio.wait({stop, *events}, timeout=timeout, return_when=asyncio.FIRST_COMPLETED)
        stop.cancel()

    # ---- its ends

    async def _end_server(self) -> None:
        """It has ended by itself, or is closed after a stop, or couldn't be brought up."""
        server = self.server
        if server is None:
            return
        if not server.ended.done():
            await (self._close(server) if self._stop.is_set() else server.terminate())
        elif self._has_served:
            self._log.error("the server ended by itself: %s", _end_text(server.ended.result()))
        self.server = None

    async def _close(self, server: Server) -> None:
        self.state = State.CLOSING
        tell_manager("STOPPING=1")
        report = server.close()
        self._remove_own()
        await self._grace(server)
        if not server.ended.done():
            self._log.warning("%d sessions are still open, and are cut off", sum(count_sessions(self.settings.starting_sockets())))
            await server.terminate()
        await asyncio.wait({report})
        self.end = "terminated" if report.exception() else report.result()
        self._log.info("the server has ended: %s", self.end)

    async def _grace(self, server: Server) -> None:
        """Gives open sessions their time, which a hurry ends."""
        if not self._hurry.is_set():
            self._log.info("closing: open sessions may go on for %g seconds", self.settings.grace)
            hurry = asyncio.ensure_future(self._hurry.wait())
            await asyncio.wait({server.ended, hurry}, timeout=self.settings.grace, return_when=asyncio.FIRST_COMPLETED)
            hurry.cancel()
        await asyncio.wait({server.ended}, timeout=_LEAST_GRACE)

    async def _rest(self) -> None:
        """The pause before the next start."""
        self.state = State.PAUSED
        self.restarts += 1
        if time.monotonic() - self.started >= _GOOD_RUN:
            self._pause = _FIRST_PAUSE
        self._log.warning("it is started again in %g seconds", self._pause)
        tell_manager(f"STATUS=the server ended by itself, and is started again in {self._pause:g} seconds")
        await self._until(timeout=self._pause)
        self._pause = min(2 * self._pause, _LONGEST_PAUSE)

    def _tell_removed(self, count: int) -> None:
        if count:
            self._log.info("removed %d spilled files", count)

    def _remove_own(self) -> None:
        """No session finds the server any more. What another one has made there stays."""
        for path, own in self._own.items():
            sockets.remove_own(path, own)
        self._own = {}

    def _clean_up(self) -> None:
        """The server has ended: its sockets and its spilled objects go."""
        self._remove_own()
        self._epoch.remove()
        sockets.remove(self._made_by_server())
        try:
            if self.settings.ready:
                self.settings.ready.unlink(missing_ok=True)
            self._tell_removed(self.spill.clear())
        except (SpillFault, OSError) as fault:
            self._log.warning("%s", fault)


def _end_text(status: int) -> str:
    return f"status {status}" if status >= 0 else signal.Signals(-status).name
