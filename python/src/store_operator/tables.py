"""Tables for people: a head, and rows whose numbers stand below each other."""

from __future__ import annotations

from typing import Dict, Iterable, List, Sequence

from .asking import JobRow, Mark, SessionRow, UsageRow
from .counts import REFUSALS, JobCounts, NodeCounts
from .sizes import size_text

_GAP = "  "
# of an age, in seconds
_UNITS = (("d", 86_400), ("h", 3_600), ("m", 60))
# of a status, in bytes
_SIZES = ("resident", "spilled_bytes", "spill_free")


def table(head: Sequence[str], rows: Iterable[Sequence[str]]) -> str:
    """Columns that are as wide as their widest cell, aligned to the right."""
    lines: List[Sequence[str]] = [head, *rows]
    widths = [max(map(len, column)) for column in zip(*lines)]
    return "\n".join(_GAP.join(cell.rjust(width) for cell, width in zip(line, widths)) for line in lines)


def jobs_table(jobs: Iterable[JobRow]) -> str:
    rows = ((str(row.node), str(row.job), size_text(row.window), size_text(row.device)) for row in jobs)
    return table(("NODE", "JOB", "WINDOW", "DEVICE"), rows)


def usage_table(usages: Iterable[UsageRow]) -> str:
    head = ("NODE", "JOB", "WINDOW", "USED", "DEVICE", "USED", "COPIES", "WORKS")
    return table(head, (_usage_cells(row) for row in usages))


def sessions_table(sessions: Iterable[SessionRow]) -> str:
    rows = ((str(row.node), str(row.session), str(row.job), age_text(row.seconds), str(row.commands)) for row in sessions)
    return table(("NODE", "SESSION", "JOB", "AGE", "COMMANDS"), rows)


def node_counts_table(rows: Iterable[NodeCounts]) -> str:
    head = ("NODE", "HELLOS", "REFUSED", "MALFORMED", "LOCK WAITS", "LOCK SLEEPS", "END FOLDS")
    return table(head, (tuple(map(str, row)) for row in rows))


def job_counts_table(rows: Iterable[JobCounts]) -> str:
    """A line for each count."""
    cells = ((str(row.node), str(row.job), _count_name(name), str(count)) for row in rows for name, count in row.counts.items())
    return table(("NODE", "JOB", "COUNT", "NUMBER"), cells)


def _count_name(name: str) -> str:
    """A refusal's with what it is called."""
    return "refused {} {}".format(*REFUSALS[name]) if name in REFUSALS else name


def age_text(seconds: int) -> str:
    """In the greatest unit of which it is at least two, without what is left over."""
    for letter, unit in _UNITS:
        if seconds >= 2 * unit:
            return f"{seconds // unit}{letter}"
    return f"{seconds}s"


def _usage_cells(row: UsageRow) -> Sequence[str]:
    sizes = (size_text(size) for size in (row.window, row.window_used, row.device, row.device_used))
    return (str(row.node), str(row.job), *sizes, str(row.copies), str(row.works))


def status_text(status: Dict[str, Mark]) -> str:
    """A line for each mark."""
    width = max(map(len, status))
    return "\n".join(f"{name.replace('_', ' ').ljust(width)}{_GAP}{_shown(name, mark)}" for name, mark in status.items())


def _shown(name: str, mark: Mark) -> str:
    if isinstance(mark, list):
        return ", ".join(f"{count} at node {node}" for node, count in enumerate(mark))
    return size_text(mark) if isinstance(mark, int) and name in _SIZES else str(mark)
