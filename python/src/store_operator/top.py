"""What `storectl top` shows: the server in two lines, and a line for each job and node with what changed since the last look."""

from __future__ import annotations

import contextlib
import time
from typing import Callable, Dict, List, NamedTuple, Optional, Sequence, Tuple

from .asking import AskFault, Daemon, Mark, UsageRow
from .counts import Counts
from .sizes import many, size_text
from .tables import table

_BAR = 20
_RUNS = "running"
_HEAD = ("NODE", "JOB", "WINDOW", "", "USED", "OF", "DEVICE", "OF", "COPIES", "WORKS", "+USED", "+DEVICE", "+COPIES")
# one column more if the server counts commands; it stands after those of the window, as a terminal of 80 columns cuts off the last ones
_COMMANDS, _BEFORE_COMMANDS = "COMMANDS/S", 6


class Seen(NamedTuple):
    """One look: by the clock that nobody sets, with the daemon's marks and a row for each job and node; and the server's own counts, if it
    has any."""

    moment: float
    status: Dict[str, Mark]
    rows: Tuple[UsageRow, ...]
    counts: Optional[Counts] = None


def see(daemon: Daemon, nodes: Sequence[int], job: Optional[int], counted: bool) -> Seen:
    """Of a server that doesn't answer there are no rows. Counts are asked for if they are wanted."""
    status = daemon.status()
    rows: List[UsageRow] = []
    counts: Optional[Counts] = None
    if status["state"] == _RUNS:
        try:
            rows = [row for row in daemon.usages() if row.node in nodes and job in (None, row.job)]
            counts = _counts(daemon) if counted else None
        except AskFault as fault:
            status["state"] = str(fault)
    return Seen(time.monotonic(), status, tuple(rows), counts)


def _counts(daemon: Daemon) -> Optional[Counts]:
    """None of a server that doesn't tell them."""
    with contextlib.suppress(AskFault):
        return daemon.counts()
    return None


def top_text(seen: Seen, last: Optional[Seen]) -> str:
    before = {(row.node, row.job): row for row in last.rows} if last else {}
    rows = [_cells(row, before.get((row.node, row.job))) for row in seen.rows]
    if seen.counts is None:
        return "\n".join([*_header(seen, last), table(_HEAD, rows)])
    rates = _rates(seen.counts, last.counts if last and _is_same(last, seen) else None)
    counted = [_with_commands(cells, rates.get((row.node, row.job), "")) for row, cells in zip(seen.rows, rows)]
    return "\n".join([*_header(seen, last), table(_with_commands(_HEAD, _COMMANDS), counted)])


def _with_commands(cells: Sequence[str], commands: str) -> Sequence[str]:
    return (*cells[:_BEFORE_COMMANDS], commands, *cells[_BEFORE_COMMANDS:])


def _rates(counts: Counts, before: Optional[Counts]) -> Dict[Tuple[int, int], str]:
    """The commands of each job in a second, by node and job, of those that were there before."""
    seconds = counts.moment - before.moment if before else 0.0
    if before is None or seconds <= 0:
        return {}
    first = {(row.node, row.job): row.commands for row in before.jobs}
    changes = {(row.node, row.job): row.commands - first[row.node, row.job] for row in counts.jobs if (row.node, row.job) in first}
    return {place: f"{change / seconds:.0f}" for place, change in changes.items()}


def _is_same(last: Seen, seen: Seen) -> bool:
    """Whether both looks are at one process."""
    return last.status["process"] == seen.status["process"]


def _header(seen: Seen, last: Optional[Seen]) -> List[str]:
    status = seen.status
    sessions = status["sessions"]
    count = sum(sessions) if isinstance(sessions, list) else 0
    sizes = {name: size_text(_whole(status, name)) for name in ("resident", "spilled_bytes", "spill_free")}
    return [
        f"store: {status['state']}, up {_time_text(_whole(status, 'seconds'))}, {many(_whole(status, 'nodes'), 'node')}, "
        f"{many(count, 'session')}, {many(_whole(status, 'restarts'), 'restart')}",
        f"memory {sizes['resident']}, processor {_processor(seen, last)}, {many(_whole(status, 'threads'), 'thread')}, "
        f"{status['descriptors']} of {status['descriptors_needed']} descriptors, {many(_whole(status, 'spilled_files'), 'file')} "
        f"with {sizes['spilled_bytes']} spilled, {sizes['spill_free']} free",
        "",
    ]


def _whole(status: Dict[str, Mark], name: str) -> int:
    mark = status[name]
    return mark if isinstance(mark, int) else 0


def _time_text(seconds: int) -> str:
    """The two largest units."""
    for unit, below, size in (("d", "h", 86_400), ("h", "m", 3_600), ("m", "s", 60)):
        if seconds >= size:
            return f"{seconds // size} {unit} {seconds % size * (24 if size == 86_400 else 60) // size} {below}"
    return f"{seconds} s"


def _processor(seen: Seen, last: Optional[Seen]) -> str:
    """In percent of one since the last look at the same process; otherwise the seconds that it took."""
    used = float(str(seen.status["processor_seconds"]))
    if last is None or not _is_same(last, seen) or seen.moment <= last.moment:
        return f"{used:.1f} s"
    return f"{100 * (used - float(str(last.status['processor_seconds']))) / (seen.moment - last.moment):.0f} %"


def _cells(row: UsageRow, before: Optional[UsageRow]) -> Sequence[str]:
    # of one that wasn't there before nothing is told
    before = before or row
    changes = (
        _change(row.window_used - before.window_used, size_text), _change(row.device_used - before.device_used, size_text),
        _change(row.copies - before.copies, str),
    )
    sizes = (size_text(size) for size in (row.window_used, row.window, row.device_used, row.device))
    part = row.window_used / row.window if row.window else 0.0
    return (str(row.node), str(row.job), _bar(part), f"{part:.0%}", *sizes, str(row.copies), str(row.works), *changes)


def _bar(part: float) -> str:
    full = round(_BAR * part)
    return f"[{'#' * full}{'.' * (_BAR - full)}]"


def _change(change: int, text: Callable[[int], str]) -> str:
    """Nothing if it is none."""
    return f"{'+' if change > 0 else '-'}{text(abs(change))}" if change else ""
