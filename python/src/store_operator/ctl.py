"""The command line of `storectl`."""

from __future__ import annotations

import argparse
import contextlib
import json
import os
import shutil
import sys
import time
from pathlib import Path
from typing import Any, Callable, Dict, List, Optional, Sequence

from . import __version__
from .asking import AskFault, Daemon, Mark, SessionRow
from .counts import JobCounts
from .keys import KeyFault, read_key
from .refusals import explained
from .sizes import many, parse_size
from .tables import job_counts_table, jobs_table, node_counts_table, sessions_table, status_text, table, usage_table
from .top import see, top_text

_USUAL_CONTROL = "/run/store/control"
# seconds that a command which only looks waits for each answer; for others the daemon has to give up
_USUAL_TIMEOUT = 5.0
# clears a terminal
_CLEAR = "\033[H\033[J"

Words = argparse.Namespace


def _nodes(daemon: Daemon, words: Words) -> Sequence[int]:
    """Those that were asked for, all otherwise."""
    count = daemon.status()["nodes"]
    assert isinstance(count, int)
    for node in words.node or ():
        if node >= count:
            raise AskFault(f"there is no node {node}: the server has 0 to {count - 1}")
    return sorted(set(words.node or range(count)))


def _homes(daemon: Daemon, words: Words) -> Sequence[int]:
    """Of these the nodes at which the job lives; if it lives nowhere all, which say so."""
    nodes = _nodes(daemon, words)
    return [node for node in nodes if words.job in (job.job for job in daemon.jobs(node))] or nodes


def _print_json(what: Any) -> None:
    print(json.dumps(what), flush=True)


def _ping(daemon: Daemon, words: Words) -> int:
    nodes, milliseconds = daemon.ping()
    if words.json:
        _print_json({"nodes": nodes, "milliseconds": milliseconds})
    else:
        print(f"pong: {many(nodes, 'node')}, {milliseconds} ms")
    return 0


def _metrics(daemon: Daemon, words: Words) -> int:
    text = daemon.metrics()
    if words.json:
        _print_json({"metrics": text})
    else:
        print(text, end="")
    return 0


def _sessions(daemon: Daemon, words: Words) -> int:
    """Which they are is shown beside their number, if the server says it."""
    counts = {node: daemon.sessions(node) for node in _nodes(daemon, words)}
    rows: Optional[List[SessionRow]] = None
    try:
        rows = [row for node in counts for row in daemon.streams(node)]
    except AskFault as fault:
        print(f"storectl: {fault}; so only their number is known", file=sys.stderr)
    if words.json:
        _print_json([{"node": node, "sessions": count, "streams": _json_rows(rows, node)} for node, count in counts.items()])
    else:
        print(table(("NODE", "SESSIONS"), ((str(node), str(count)) for node, count in counts.items())))
        if rows is not None:
            print(f"\n{sessions_table(rows)}")
    return 0


def _json_rows(rows: Optional[List[SessionRow]], node: int) -> Optional[List[Dict[str, int]]]:
    if rows is None:
        return None
    return [{name: value for name, value in row._asdict().items() if name != "node"} for row in rows if row.node == node]


def _counts(daemon: Daemon, words: Words) -> int:
    told, nodes = daemon.counts(), _nodes(daemon, words)
    of_nodes = tuple(row for row in told.nodes if row.node in nodes)
    of_jobs = tuple(row for row in told.jobs if row.node in nodes and words.job in (None, row.job))
    if words.json:
        _print_json([{**row._asdict(), "jobs": _json_counts(of_jobs, row.node)} for row in of_nodes])
    else:
        print(f"{node_counts_table(of_nodes)}\n\n{job_counts_table(of_jobs)}")
    return 0


def _json_counts(rows: Sequence[JobCounts], node: int) -> List[Dict[str, Any]]:
    return [{"job": row.job, "counts": row.counts} for row in rows if row.node == node]


def _status(daemon: Daemon, words: Words) -> int:
    status = daemon.status()
    if words.json:
        _print_json(status)
    else:
        print(status_text(status))
    return 0


def _jobs(daemon: Daemon, words: Words) -> int:
    jobs = [job for node in _nodes(daemon, words) for job in daemon.jobs(node)]
    if words.json:
        _print_json([job._asdict() for job in jobs])
    else:
        print(jobs_table(jobs))
    return 0


def _usage(daemon: Daemon, words: Words) -> int:
    nodes = _nodes(daemon, words)
    rows = [row for row in daemon.usages() if row.node in nodes and words.job in (None, row.job)]
    if words.json:
        _print_json([row._asdict() for row in rows])
    else:
        print(usage_table(rows))
    return 0


def _watch(daemon: Daemon, words: Words) -> int:
    """Again and again, until it is interrupted or the daemon ends."""
    last: Optional[str] = None
    while True:
        shown = _watched(daemon, words)
        if shown != last:
            print(f"{_CLEAR}{shown}" if sys.stdout.isatty() else shown, flush=True)
            last = shown
        time.sleep(words.every)


def _watched(daemon: Daemon, words: Words) -> str:
    seen = see(daemon, _nodes(daemon, words), words.job, counted=False)
    if words.json:
        return json.dumps({"status": seen.status, "usage": [row._asdict() for row in seen.rows]})
    return f"{_one_line(seen.status)}\n{usage_table(seen.rows)}"


def _top(daemon: Daemon, words: Words) -> int:
    """Again and again, until it is interrupted or the daemon ends; or once."""
    nodes, last = _nodes(daemon, words), None
    while True:
        seen = see(daemon, nodes, words.job, counted=True)
        text = top_text(seen, last)
        print(f"{_CLEAR}{_fitting(text)}" if sys.stdout.isatty() and not words.once else text, flush=True)
        if words.once:
            return 0
        last = seen
        time.sleep(words.interval)


def _fitting(text: str) -> str:
    """What a terminal has room for, so that its first line stays where it is."""
    size = shutil.get_terminal_size()
    # of a terminal that doesn't say, older Pythons give 0
    columns, room = size.columns or 80, size.lines or 24
    lines = [line[:columns] for line in text.splitlines()]
    if len(lines) < room:
        return "\n".join(lines)
    return "\n".join([*lines[: room - 2], f"and {len(lines) - room + 2} more"])


def _one_line(status: Dict[str, Mark]) -> str:
    sessions = status["sessions"]
    count = sum(sessions) if isinstance(sessions, list) else sessions
    return f"{status['state']}, {count} sessions, {status['spilled_files']} spilled files, {status['restarts']} restarts"


def _order(daemon: Daemon, words: Words, nodes: Sequence[int], line: Callable[[int], str]) -> int:
    """An order for each node. 1 if one of them wasn't carried out."""
    answers = {node: daemon.ask(line(node)) for node in nodes}
    if words.json:
        _print_json([{"node": node, "answer": answer} for node, answer in answers.items()])
    else:
        print("\n".join(explained(answer) for answer in answers.values()))
    return 0 if all(answer.endswith(" op ok") for answer in answers.values()) else 1


def _admit(daemon: Daemon, words: Words) -> int:
    key = read_key(words.key_file)
    nodes = _nodes(daemon, words)
    return _order(daemon, words, nodes, lambda node: f"admit {node} {words.job} {words.window} {words.device} {key}")


def _quota(daemon: Daemon, words: Words) -> int:
    nodes = _homes(daemon, words)
    return _order(daemon, words, nodes, lambda node: f"quota {node} {words.job} {words.window} {words.device}")


def _end(daemon: Daemon, words: Words) -> int:
    nodes = _homes(daemon, words)
    return _order(daemon, words, nodes, lambda node: f"end {node} {words.job}")


def _kick(daemon: Daemon, words: Words) -> int:
    """1 if there is no such session."""
    node = _nodes(daemon, words)[0]
    answer = daemon.kick(node, words.job, words.session)
    if words.json:
        _print_json({"answer": answer})
    else:
        print(answer)
    return 0 if answer.startswith(f"n{node} op kicked ") else 1


def _close(daemon: Daemon, words: Words) -> int:
    answer = daemon.end_store(words.now)
    if words.json:
        _print_json({"answer": answer})
    else:
        print(answer)
    return 0


def _size(text: str) -> int:
    try:
        return parse_size(text)
    except ValueError as error:
        raise argparse.ArgumentTypeError(str(error)) from error


def _number(text: str) -> int:
    """A job's or a node's number: the daemon says which there are."""
    if not (text.isascii() and text.isdigit()):
        raise argparse.ArgumentTypeError(f"{text!r} is no number")
    return int(text)


def _one_node(text: str) -> List[int]:
    """As a list of those that were asked for."""
    return [_number(text)]


def _seconds(text: str) -> float:
    with contextlib.suppress(ValueError):
        if 0.1 <= float(text) <= 86_400:
            return float(text)
    raise argparse.ArgumentTypeError(f"{text!r} isn't a number of seconds from 0.1 to 86400")


def arguments() -> argparse.ArgumentParser:
    parser = argparse.ArgumentParser(prog="storectl", description="Gives orders to a store-daemon, and shows what it serves.")
    parser.add_argument(
        "--control", default=os.environ.get("STORE_CONTROL", _USUAL_CONTROL), metavar="PATH",
        help="the daemon's control socket; otherwise STORE_CONTROL, or %(default)s",
    )
    parser.add_argument(
        "--timeout", type=_seconds, metavar="SECONDS",
        help=f"how long it waits for each answer; otherwise {_USUAL_TIMEOUT:g}, and for what changes something until the daemon gives up",
    )
    parser.add_argument("--json", action="store_true", help="answers for programs")
    parser.add_argument("--version", action="version", version=f"storectl {__version__}")
    at_nodes = argparse.ArgumentParser(add_help=False)
    at_nodes.add_argument(
        "--node", type=_number, action="append", metavar="N",
        help="at this node, and may be repeated; otherwise at all, or at those where the job lives",
    )
    of_job = argparse.ArgumentParser(add_help=False)
    of_job.add_argument("--job", type=_number, metavar="JOB", help="this job; all otherwise")
    quotas = argparse.ArgumentParser(add_help=False)
    quotas.add_argument("job", type=_number, metavar="JOB")
    quotas.add_argument("--window", type=_size, required=True, metavar="SIZE", help="the memory of the job at a node, like 64M")
    quotas.add_argument("--device", type=_size, required=True, metavar="SIZE", help="what it may spill, like 1G; 0 spills nothing")
    parser.set_defaults(usual=None)
    commands = parser.add_subparsers(required=True, metavar="COMMAND")

    _add_looks(commands, at_nodes, of_job)
    command = commands.add_parser("admit", parents=[quotas, at_nodes], help="admits a job")
    command.add_argument("--key-file", type=Path, required=True, metavar="FILE", help="64 lower-case hexadecimal digits")
    command.set_defaults(run=_admit)
    commands.add_parser("quota", parents=[quotas, at_nodes], help="changes a job's quotas").set_defaults(run=_quota)
    command = commands.add_parser("end", parents=[at_nodes], help="ends a job, and removes all it has there")
    command.add_argument("job", type=_number, metavar="JOB")
    command.set_defaults(run=_end)
    command = commands.add_parser("kick", help="ends one session, as if its client had gone")
    command.add_argument("node", type=_one_node, metavar="NODE")
    command.add_argument("job", type=_number, metavar="JOB")
    command.add_argument("session", type=_number, metavar="SESSION", help="the number that `sessions` shows")
    command.set_defaults(run=_kick)
    command = commands.add_parser("close", help="ends the server and the daemon")
    command.add_argument("--now", action="store_true", help="cuts off sessions that are open")
    command.set_defaults(run=_close)
    return parser


def _add_looks(commands: Any, at_nodes: argparse.ArgumentParser, of_job: argparse.ArgumentParser) -> None:
    """The commands that change nothing."""
    looks = {"usual": _USUAL_TIMEOUT}
    commands.add_parser("ping", help="asks all nodes whether they answer").set_defaults(run=_ping, **looks)
    commands.add_parser("status", help="shows the server's state").set_defaults(run=_status, **looks)
    commands.add_parser("sessions", parents=[at_nodes], help="shows how many sessions are open, and which").set_defaults(run=_sessions, **looks)
    commands.add_parser("jobs", parents=[at_nodes], help="shows the jobs and their quotas").set_defaults(run=_jobs, **looks)
    commands.add_parser("usage", parents=[at_nodes, of_job], help="shows what they use").set_defaults(run=_usage, **looks)
    command = commands.add_parser("counts", help="shows the server's own counts")
    command.add_argument("node", type=_one_node, nargs="?", metavar="NODE", help="of this node; otherwise of all")
    command.add_argument("job", type=_number, nargs="?", metavar="JOB", help="and of this job; otherwise of all there")
    command.set_defaults(run=_counts, **looks)
    commands.add_parser("metrics", help="shows the counters in Prometheus' text format").set_defaults(run=_metrics, **looks)
    command = commands.add_parser("watch", parents=[at_nodes, of_job], help="shows it whenever it has changed")
    command.add_argument("--every", type=_seconds, default=1.0, metavar="SECONDS", help="how often it looks")
    command.set_defaults(run=_watch, **looks)
    command = commands.add_parser("top", parents=[at_nodes, of_job], help="shows it as a table with bars, again and again")
    command.add_argument("--interval", type=_seconds, default=1.0, metavar="SECONDS", help="how often it looks")
    command.add_argument("--once", action="store_true", help="looks once, and ends")
    command.set_defaults(run=_top, **looks)


def main(given: Optional[Sequence[str]] = None) -> int:
    words = arguments().parse_args(given)
    try:
        with Daemon(words.control, words.timeout or words.usual) as daemon:
            status: int = words.run(daemon, words)
            return status
    except (AskFault, KeyFault) as fault:
        print(f"storectl: {fault}", file=sys.stderr)
        return 1
    except KeyboardInterrupt:
        return 130
    except BrokenPipeError:
        # who read the tables has seen enough
        os.dup2(os.open(os.devnull, os.O_WRONLY), sys.stdout.fileno())
        return 1
