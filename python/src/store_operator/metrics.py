"""The daemon's account of its server in Prometheus' text format."""

from __future__ import annotations

import asyncio
import time
from typing import Any, Counter, Dict, Iterable, List, NamedTuple, Sequence, Tuple

from .asking import UsageRow
from .counters import Counters
from .counts import COMMANDS, REFUSALS, Counts, JobCounts
from .fresh import Fresh
from .inspection import Process
from .limits import needed_descriptors
from .looking import NO_LOOK, Look, Looks
from .relaying import NoSuchLine, Unanswered
from .spill import Spilled
from .supervisor import NotDone

Labels = Dict[str, object]
Sample = Tuple[Labels, float]
_FRESH = 1.0
_OF_JOB = (
    ("window_bytes", "The job's window at the node."), ("window_used_bytes", "What is used of it."),
    ("device_bytes", "The job's device quota at the node."), ("device_used_bytes", "What is used of it."),
    ("copies", "Copies that the job has at the node."), ("works", "Device works of the job in flight."),
)
_OF_JOB_COUNTS = (
    ("commands_total", "Commands that were taken from a job's sessions, refused ones too."),
    ("refusals_total", "Refusals that a job's sessions were answered."),
    ("session_bytes_total", "Bytes of a job's Writes, and of what its Reads and Peeks were answered."),
    ("device_calls_total", "Device calls for a job's spills and restores."),
    ("pulls_total", "How often a job's node asked another one for chunks of an object."),
    ("arrivals_total", "Messages of other nodes and the directory that arrived for a job."),
    ("fetches_total", "How often a job's node asked the directory for copies, had one fetched whole, or asked a node that has none."),
    ("served_total", "What a job's node sent others that asked it for chunks."),
    ("evictions_total", "Secondaries of a job that were removed to make room."),
    ("removals_total", "Sealed copies that a job let go of."),
)
# by the server's name for a count of a job's: the family, and the labels in it
_PLACES: Dict[str, Tuple[str, Labels]] = {
    **{name: ("commands_total", {"command": name}) for name in COMMANDS},
    **{name: ("refusals_total", {"number": number, "name": refusal}) for name, (number, refusal) in REFUSALS.items()},
    "bytes-in": ("session_bytes_total", {"direction": "in"}),
    "bytes-out": ("session_bytes_total", {"direction": "out"}),
    "spills": ("device_calls_total", {"call": "spill", "result": "done"}),
    "spills-failed": ("device_calls_total", {"call": "spill", "result": "failed"}),
    "restores": ("device_calls_total", {"call": "restore", "result": "done"}),
    "restores-failed": ("device_calls_total", {"call": "restore", "result": "failed"}),
    "pulls": ("pulls_total", {}),
    "arrivals": ("arrivals_total", {}),
    "locates": ("fetches_total", {"stage": "directory"}),
    "fetched": ("fetches_total", {"stage": "whole"}),
    "sources-gone": ("fetches_total", {"stage": "absent"}),
    "chunks-sent": ("served_total", {"answer": "chunk"}),
    "not-here": ("served_total", {"answer": "absent"}),
    "evictions": ("evictions_total", {}),
    "removals": ("removals_total", {}),
}


class Family(NamedTuple):
    """Samples of one name; a counter only rises, until its process starts again."""

    name: str
    is_counter: bool
    help: str
    samples: Sequence[Sample]


class Metrics:
    """One look for all who ask within a second."""

    def __init__(self, looks: Looks) -> None:
        self._looks = looks
        self._text = Fresh(self._look, _FRESH)

    async def text(self) -> str:
        return await self._text.get()

    async def _look(self) -> str:
        begun = time.monotonic()
        supervisor = self._looks.supervisor
        (look, up), counted, spilled = await asyncio.gather(self._usages(), self._counts(), self._looks.spilled())
        seconds = time.monotonic() - supervisor.started if supervisor.server else 0.0
        families = [
            _one("up", "1 if the server serves and answered the last look.", up),
            _one("uptime_seconds", "Seconds since the server was started.", round(seconds, 3)),
            _one("restarts_total", "How often the server was started again.", supervisor.restarts, True),
            _one("nodes", "The server's nodes.", supervisor.settings.nodes),
            _by_node("sessions", "Sessions that are open.", self._looks.sessions()),
            *_of_process(self._looks.process(), supervisor.settings.nodes),
            *_of_disk(spilled),
            *_of_jobs(look),
            *counted,
            *_of_orders(supervisor.counters),
            _one("look_seconds", "Seconds that this look took.", round(time.monotonic() - begun, 6)),
        ]
        return "".join(map(_written, families))

    async def _usages(self) -> Tuple[Look, int]:
        """And whether the server serves and answers."""
        try:
            return await self._looks.usages(), 1
        except NotDone:
            return NO_LOOK, 0

    async def _counts(self) -> List[Family]:
        """None of a server that doesn't serve, or that counts nothing."""
        try:
            return [*_of_counts(await self._looks.counts()), _counts_faults(0)]
        except (NotDone, NoSuchLine):
            return []
        except Unanswered:
            return [_counts_faults(1)]


def _written(family: Family) -> str:
    kind = "counter" if family.is_counter else "gauge"
    lines = [f"# HELP store_{family.name} {family.help}", f"# TYPE store_{family.name} {kind}"]
    lines += [f"store_{family.name}{_labels(labels)} {value}" for labels, value in family.samples]
    return "\n".join(lines) + "\n"


def _labels(labels: Labels) -> str:
    """None of their values needs an escape: they are numbers and words."""
    return "{" + ",".join(f'{name}="{value}"' for name, value in labels.items()) + "}" if labels else ""


def _one(name: str, help: str, value: float, is_counter: bool = False) -> Family:
    return Family(name, is_counter, help, [({}, value)])


def _by_node(name: str, help: str, values: Iterable[float]) -> Family:
    return Family(name, False, help, [({"node": node}, value) for node, value in enumerate(values)])


def _of_process(process: Process, nodes: int) -> List[Family]:
    return [
        _one("resident_bytes", "Resident memory of the server's process.", process.resident),
        _one("processor_seconds_total", "Processor seconds of the server's process.", process.processor, True),
        _one("threads", "Threads of the server's process.", process.threads),
        _one("descriptors", "Descriptors that the server's process has open.", process.descriptors),
        _one("descriptors_needed", "Descriptors that it needs with all sessions open.", needed_descriptors(nodes)),
    ]


def _of_disk(spilled: Sequence[Spilled]) -> List[Family]:
    return [
        _by_node("spilled_files", "Files of spilled objects in the node's folder.", (each.files for each in spilled)),
        _by_node("spilled_bytes", "Bytes of these files.", (each.bytes for each in spilled)),
        _by_node("spill_free_bytes", "Bytes that are free on the disk of the node's folder.", (each.free for each in spilled)),
    ]


def _of_jobs(look: Look) -> List[Family]:
    def samples(index: int) -> List[Sample]:
        return [({"node": row.node, "job": row.job}, row[index]) for row in look.rows]

    first = UsageRow._fields.index("window")
    found = [Family(name, False, help, samples(first + index)) for index, (name, help) in enumerate(_OF_JOB)]
    return [*found, _one("usage_faults", "Nodes whose jobs weren't all asked in the last look.", len(look.faults))]


def _of_counts(counts: Counts) -> List[Family]:
    hellos: List[Sample] = []
    for row in counts.nodes:
        hellos += [({"node": row.node, "result": "taken"}, row.hellos), ({"node": row.node, "result": "refused"}, row.hellos_refused)]
    return [
        *_of_job_counts(counts.jobs),
        Family("hellos_total", True, "Hellos of clients.", hellos),
        _of_nodes("malformed_sessions_total", "Sessions that ended by what is no frame.", (row.malformed for row in counts.nodes)),
        _of_nodes("lock_waits_total", "How often a thread found the node locked.", (row.lock_waits for row in counts.nodes)),
        _of_nodes("lock_sleeps_total", "How often a thread slept until the node wasn't locked.", (row.lock_sleeps for row in counts.nodes)),
        _of_nodes("end_folds_total", "Jobs that ended, and whose journal was folded then.", (row.end_folds for row in counts.nodes)),
    ]


def _of_job_counts(jobs: Sequence[JobCounts]) -> List[Family]:
    samples: Dict[str, List[Sample]] = {family: [] for family, _ in _OF_JOB_COUNTS}
    for row, name, count in ((row, name, count) for row in jobs for name, count in row.counts.items() if name in _PLACES):
        family, labels = _PLACES[name]
        samples[family].append(({"node": row.node, "job": row.job, **labels}, count))
    return [Family(family, True, help, samples[family]) for family, help in _OF_JOB_COUNTS]


def _of_nodes(name: str, help: str, values: Iterable[int]) -> Family:
    return _by_node(name, help, values)._replace(is_counter=True)


def _counts_faults(count: int) -> Family:
    return _one("counts_faults", "1 if the server didn't tell its counts at the last look.", count)


def _counted(names: Sequence[str], counts: "Counter[Any]") -> List[Sample]:
    """With labels of these names, whose values are the keys."""
    return [(dict(zip(names, key)), count) for key, count in sorted(counts.items())]


def _of_orders(counters: Counters) -> List[Family]:
    refusals = _counted(("order", "number", "name"), counters.refusals)
    failed = _counted(("node", "job", "call"), counters.failed_calls)
    orders: List[Sample] = [({"order": word}, counters.orders[word]) for word in ("admit", "quota", "end")]
    return [
        Family("orders_total", True, "Orders that the server answered; after a crash jobs are admitted again.", orders),
        Family("order_refusals_total", True, "Those of them that were refused.", refusals),
        _one("admissions_total", "Jobs admitted at a node.", counters.done["admit"], True),
        _one("quota_changes_total", "Quotas changed.", counters.done["quota"], True),
        _one("jobs_ended_total", "Jobs ended at a node.", counters.done["end"], True),
        Family("device_call_failures_total", True, "Device calls that failed, of those that have a line in the log.", failed),
        _one("device_call_failures_unlisted_total", "Those of which a line only says how many there were.", counters.failed_unlisted, True),
    ]
