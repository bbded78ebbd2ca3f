"""The jobs that live at the server's nodes, as its answers to the operator's lines say, and that a new one has to be given."""

from __future__ import annotations

from dataclasses import replace
from typing import Dict, FrozenSet, Iterable, List, NamedTuple, Optional, Tuple

from .orders import Admit, End, ServerOrder


class Over(NamedTuple):
    """Which jobs will never live at a node again in this run of the server: numbers rise, so all up to the last that was admitted
    there, but for those that live."""

    last: int
    live: FrozenSet[int]

    def has(self, job: int) -> bool:
        return job <= self.last and job not in self.live


class LiveJobs:
    """Each job with its last quotas and its key; first those of the settings, which aren't admitted yet."""

    def __init__(self, jobs: Iterable[Admit]) -> None:
        self._jobs: Dict[Tuple[int, int], Admit] = {(job.node, job.job): job for job in jobs}
        # by node, as this run of the server answered
        self._last: Dict[int, int] = {}

    def begin(self) -> None:
        """A server is started, to which no number was given yet."""
        self._last.clear()

    def carried_out(self, order: ServerOrder) -> None:
        """The server answered ok."""
        place = (order.node, order.job)
        if isinstance(order, Admit):
            self._jobs[place] = order
            self._last[order.node] = order.job
        elif isinstance(order, End):
            self._jobs.pop(place, None)
        elif place in self._jobs:
            self._jobs[place] = replace(self._jobs[place], window=order.window, device=order.device)

    def forget(self, job: Admit) -> None:
        """It wasn't admitted again."""
        self._jobs.pop((job.node, job.job), None)

    def get(self, node: int, job: int) -> Optional[Admit]:
        return self._jobs.get((node, job))

    def at(self, node: int) -> List[Admit]:
        """By number."""
        return [job for job in self.in_order() if job.node == node]

    def over(self, node: int) -> Over:
        return Over(self._last.get(node, 0), frozenset(job for at, job in self._jobs if at == node))

    def in_order(self) -> List[Admit]:
        """As they have to be admitted: a number is greater than all that its node had before."""
        return sorted(self._jobs.values(), key=lambda job: (job.job, job.node))
