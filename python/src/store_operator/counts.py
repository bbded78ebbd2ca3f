"""The server's own counts, as its control socket tells them: of each node, and of each job at a node. They rise as long as it runs."""

from __future__ import annotations

import json
from typing import Any, Dict, NamedTuple, Optional, Tuple

from store_client.refusals import BY_NUMBER

# the commands that are counted, by the server's names for them
COMMANDS = (
    "create", "write", "seal", "get", "read", "release", "unpin", "borrow", "giveup", "delete", "endtask", "grant", "withdraw", "peek",
    "list", "usage", "leave", "get-wait", "create-wait",
)
# by the server's name for their count, the number and the name of each refusal
REFUSALS = {f"refused.{number}": (number, refusal.__name__) for number, refusal in BY_NUMBER.items()}


class CountsFault(Exception):
    """An answer that tells no counts; the text has it."""


class NodeCounts(NamedTuple):
    """Hellos that were taken and refused, sessions that ended since what they sent was no frame, how often a thread found the node
    locked, how often it slept until it wasn't, and jobs that ended, whose journal was folded then."""

    node: int
    hellos: int
    hellos_refused: int
    malformed: int
    lock_waits: int
    lock_sleeps: int
    end_folds: int


class JobCounts(NamedTuple):
    """Each count of a job at a node that isn't 0, by the server's name for it."""

    node: int
    job: int
    counts: Dict[str, int]

    @property
    def commands(self) -> int:
        """Of all kinds together."""
        return sum(self.counts.get(name, 0) for name in COMMANDS)


class Counts(NamedTuple):
    """One look, at this moment by the daemon's clock that nobody sets."""

    moment: float
    nodes: Tuple[NodeCounts, ...]
    jobs: Tuple[JobCounts, ...]


def read_node(answer: str, node: int) -> NodeCounts:
    """`CountsFault` if one of them is missing."""
    told = _told(answer, f"n{node} op counts")
    try:
        return NodeCounts(node, *(told[name.replace("_", "-")] for name in NodeCounts._fields[1:]))
    except KeyError:
        raise CountsFault(f"{answer!r} isn't the counts of a node") from None


def read_job(answer: str, node: int, job: int) -> Optional[JobCounts]:
    """None if the job doesn't live there any more."""
    if answer == f"n{node} op refused 1 NotAdmitted":
        return None
    return JobCounts(node, job, _told(answer, f"n{node} op counts {job}"))


def _told(answer: str, start: str) -> Dict[str, int]:
    if answer != start and not answer.startswith(f"{start} "):
        raise CountsFault(f"{answer!r} doesn't begin with {start!r}")
    pairs = (word.rpartition(":") for word in answer[len(start) :].split())
    try:
        return {name: int(number) for name, _, number in pairs}
    except ValueError:
        raise CountsFault(f"{answer!r} has a count that is no number") from None


def counts_text(counts: Counts) -> str:
    """For a line of the daemon's control socket."""
    nodes, jobs = [row._asdict() for row in counts.nodes], [row._asdict() for row in counts.jobs]
    return json.dumps({"moment": round(counts.moment, 3), "nodes": nodes, "jobs": jobs})


def read_counts(told: Dict[str, Any]) -> Counts:
    """What `counts_text` says, parsed."""
    return Counts(told["moment"], tuple(NodeCounts(**row) for row in told["nodes"]), tuple(JobCounts(**row) for row in told["jobs"]))
