"""What the daemon sees of its server: the nodes' answers, what jobs use, what was spilled, and the server's process.

The server's own control socket tells what jobs use. No session is opened for that, no journal has an entry of it, and a node is locked for
each job no longer than it takes to read six numbers.
"""

from __future__ import annotations

import asyncio
import time
from typing import List, NamedTuple, Tuple

from .answering import Silent, ask_all
from .asking import AskFault, UsageRow, read_usage
from .counting import look_at_counts
from .counts import Counts
from .fresh import Fresh
from .inspection import NO_PROCESS, Process, count_sessions, look_at
from .relaying import Unanswered, relay_all
from .spill import SpillFault, Spilled
from .supervisor import NotDone, Supervisor
from .tidying import aside

# seconds that a look at all jobs or at the nodes may take, that one at the disk may, and for which what was seen is told again
_LONGEST_LOOK, _LOOK_AT_DISK, _FRESH = 4.0, 2.0, 1.0


class Look(NamedTuple):
    """The rows of all jobs by node and number, why some are missing, and the seconds that it took."""

    rows: Tuple[UsageRow, ...]
    faults: Tuple[str, ...]
    seconds: float


NO_LOOK = Look((), (), 0.0)


class Looks:
    """At one server after another. Of whatever many ask for at once there is one look."""

    def __init__(self, supervisor: Supervisor) -> None:
        self.supervisor = supervisor
        self._all = Fresh(self._look_at_all, _FRESH)
        self._counts = Fresh(self._look_at_counts, _FRESH)
        self._disk = Fresh(lambda: aside(supervisor.spill.spilled), 0.0)
        self._nodes = Fresh(self.ping, _FRESH)

    async def usages(self) -> Look:
        """`NotDone` if the server doesn't serve."""
        self.supervisor.running()
        return await self._all.get()

    async def counts(self) -> Counts:
        """The server's own. `NotDone` if it doesn't serve, and `Unanswered` if it doesn't tell them."""
        self.supervisor.running()
        return await self._counts.get()

    async def ping(self) -> float:
        """The seconds in which all nodes answered, asked now, also if they didn't a moment ago. `NotDone` if one took longer than a look."""
        begun = time.monotonic()
        self.supervisor.serving()
        try:
            await ask_all(self.supervisor.settings.sockets(), self.supervisor.own_hellos, _LONGEST_LOOK)
        except Silent as why:
            raise NotDone(str(why)) from why
        return time.monotonic() - begun

    async def health(self) -> float:
        """The same, at most a second old."""
        return await self._nodes.get()

    async def spilled(self) -> Tuple[Spilled, ...]:
        """By node. What can't be looked at is nothing; no look begins before the last one has ended."""
        try:
            return await asyncio.wait_for(self._disk.get(), _LOOK_AT_DISK)
        except (asyncio.TimeoutError, SpillFault, OSError):
            return ()

    def process(self) -> Process:
        server = self.supervisor.server
        return look_at(server.process_id) if server else NO_PROCESS

    def sessions(self) -> List[int]:
        """How many are open, by node."""
        return count_sessions(self.supervisor.settings.starting_sockets())

    async def _look_at_counts(self) -> Counts:
        settings = self.supervisor.settings
        jobs = sorted((job.node, job.job) for job in self.supervisor.jobs.in_order())
        return await look_at_counts(settings.server_control(), settings.nodes, jobs, self.supervisor.own_hellos, _LONGEST_LOOK)

    async def _look_at_all(self) -> Look:
        begun = time.monotonic()
        nodes = range(self.supervisor.settings.nodes)
        found = await asyncio.gather(*(self._look_at_node(node, begun + _LONGEST_LOOK) for node in nodes))
        rows = tuple(row for rows, _ in found for row in rows)
        faults = tuple(fault for _, fault in found if fault)
        return Look(rows, faults, time.monotonic() - begun)

    async def _look_at_node(self, node: int, end: float) -> Tuple[List[UsageRow], str]:
        """All jobs there over one connection; one that has ended meanwhile is left out."""
        jobs = [job.job for job in self.supervisor.jobs.at(node)]
        control, patience = self.supervisor.settings.server_control(), max(0.0, end - time.monotonic())
        try:
            answers = await relay_all(control, [f"usage {node} {job}" for job in jobs], patience) if jobs else []
            rows = [read_usage(answer, node, job) for answer, job in zip(answers, jobs)]
        except (Unanswered, AskFault) as why:
            return [], f"node {node}: {why}"
        return [row for row in rows if row], ""


def rows_text(look: Look) -> str:
    """`NotDone` if a row is missing."""
    if look.faults:
        raise NotDone(look.faults[0])
    return "usages" + "".join(f" {':'.join(map(str, row))}" for row in look.rows)
