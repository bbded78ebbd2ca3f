"""Asks the server for its own counts, all over one connection, and leaves out what it counts of the daemon's own looks."""

from __future__ import annotations

import time
from collections import Counter
from pathlib import Path
from typing import Sequence, Tuple

from .counts import Counts, CountsFault, NodeCounts, read_job, read_node
from .relaying import Unanswered, relay_all


class OwnHellos:
    """Of one run of the server, by node: the daemon's own Hellos, which ask whether it answers. It refuses them."""

    def __init__(self) -> None:
        self._sent: Counter[int] = Counter()
        # how many of others were refused, as it was told last
        self._others: Counter[int] = Counter()

    def begin(self) -> None:
        """Another run begins."""
        self._sent.clear()
        self._others.clear()

    def sent(self, node: int) -> None:
        self._sent[node] += 1

    def unread(self, node: int) -> None:
        """The node closed the stream, and has refused nothing."""
        self._sent[node] -= 1

    def left_out(self, counts: NodeCounts) -> NodeCounts:
        """The refused ones of others alone. They never fall, though one of the daemon's own may be on its way."""
        others = max(self._others[counts.node], counts.hellos_refused - self._sent[counts.node])
        self._others[counts.node] = others
        return counts._replace(hellos_refused=others)


async def look_at_counts(control: Path, nodes: int, jobs: Sequence[Tuple[int, int]], own: OwnHellos, patience: float) -> Counts:
    """Of so many nodes, and of these jobs, each by its node and number. `Unanswered`; a job that has ended is left out."""
    lines = [*(f"counts {node}" for node in range(nodes)), *(f"counts {node} {job}" for node, job in jobs)]
    answers = await relay_all(control, lines, patience)
    try:
        of_nodes = [own.left_out(read_node(answer, node)) for node, answer in enumerate(answers[:nodes])]
        of_jobs = [read_job(answer, node, job) for answer, (node, job) in zip(answers[nodes:], jobs)]
    except CountsFault as fault:
        raise Unanswered(f"the server's control socket: {fault}") from fault
    return Counts(time.monotonic(), tuple(of_nodes), tuple(row for row in of_jobs if row))
