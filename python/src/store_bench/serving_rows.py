"""Rows of bench/serve by a native load (load.c), for which Python is too slow: the sides of each ratio are measured in the same rounds.

- put and get of 64 KiB and 1 MiB: four connections at one node, to one connection, or to four at four nodes. A put is Create, Writes, Seal
  and Delete, a get is Get, Reads and Release, in pieces of 64 KiB.
- get of 1 MiB by one connection, to the floor: a server of load.c's that answers the same trips from memory.
- 16 commands, of Usage, Get and Release in turn, sent in one write, to the same sent one by one; and the write calls that the server makes
  for them at once, counted by strace, if it is there.
- neighbours: how long Get, Read and Release of another job's 1 KiB take, one such get after the other, while four sessions, of a job each, do
  nothing but seal objects of 16 MiB, restore them, create and delete them, or spill them; to the same beside four that only read. What they
  need is made before it is timed: what goes when another is restored lies on the device already, and what is spilled has been sealed. Each
  session spills eight objects, and once one of them has, the gets end.

A figure is the median of the rounds, the longest get that of all of them. The ratio is that of the two figures. Goals are for a machine
that does nothing else; each row says whether its goal is met.
"""

import argparse
import contextlib
import shutil
import statistics
import subprocess
import tempfile
import time
from pathlib import Path
from typing import Callable, Dict, Iterator, List, NamedTuple, Optional, Sequence, Tuple

from store_testing import ROOT
from store_testing.daemon import listens
from store_testing.frames import key
from store_testing.server import Server
from store_testing.waiting import until

from .drawing import bytes_text

SOURCES = (ROOT / "bench/load.c", ROOT / "clients/c/store_client.c")
ROUNDS = 5
# seconds: that the rounds may take, if nobody says how many there are; that anything may take beside its time; and of strace's longer run
LIMIT = 170
PATIENCE = 60
TRACED_SECONDS = 0.2
KIB, MIB = 1 << 10, 1 << 20
LARGEST = 16 * MIB
# commands of a burst, as load.c has them
AT_ONCE = 16
NODES = CONNECTIONS = 4
# jobs with a window for one of the largest objects, and those with one for the eight that they spill; the job beside them
NARROW, WIDE = range(1, 1 + CONNECTIONS), range(5, 5 + CONNECTIONS)
VICTIM = 9
WINDOWS = {**dict.fromkeys(NARROW, LARGEST), **dict.fromkeys(WIDE, 8 * LARGEST), VICTIM: 64 * KIB}
# what neighbours do, by load.c's words
NEIGHBOURS = {"seals": "seal", "restores": "restore", "creates": "create and delete", "spills": "spill"}
CALLS = "write,writev,sendto,sendmsg,sendmmsg"


class Admitted(NamedTuple):
    node: int
    job: int
    window: int
    device: int = 0


class Side(NamedTuple):
    """What load.c is asked to do: its word, the length of an object, and who asks."""

    word: str
    size: int
    connections: int = 1
    nodes: int = 1
    at_floor: bool = False


class Told(NamedTuple):
    """By load.c: how often it was done, and in how many seconds; if there are neighbours, milliseconds of a get beside them."""

    times: float
    seconds: float
    median: float = 0
    percentile_99: float = 0
    longest: float = 0


Figure = Callable[[Sequence[Told]], float]


class Goal(NamedTuple):
    text: str
    is_met: Callable[[float, Optional[float]], bool]


class Row(NamedTuple):
    """A figure of one side, and of another that it is compared with."""

    name: str
    figure: Figure
    side: Side
    other: Side
    goal: Optional[Goal] = None


# ---- servers


@contextlib.contextmanager
def serving(words: Sequence[str], folder: str, nodes: int, admitted: Sequence[Admitted]) -> Iterator[None]:
    """A cluster where these are admitted. Its report has to be right."""
    memory = max(sum(one.window for one in admitted if one.node == node) for node in range(nodes))
    with Server(words, folder, nodes, memory, patience=PATIENCE) as server:
        try:
            for one in admitted:
                server.admit(*one)
            yield
            server.close()
        finally:
            # after a fault, which is told already, nothing is said of the report
            if server.process.poll() is None:
                with contextlib.suppress(OSError, ValueError, subprocess.TimeoutExpired):
                    server.ending("close\n")


@contextlib.contextmanager
def floor(load: str, folder: str) -> Iterator[None]:
    """The server that load.c is."""
    server = subprocess.Popen([load, "floor", f"{folder}/floor"], stdin=subprocess.DEVNULL, stdout=subprocess.PIPE, text=True)
    try:
        assert server.stdout
        if server.stdout.readline() != "ready\n":
            raise ValueError("the floor doesn't serve")
        yield
    finally:
        server.kill()
        server.communicate()


@contextlib.contextmanager
def redis(program: str, folder: str, count: int) -> Iterator[None]:
    """So many servers, which write no files."""
    servers: List[subprocess.Popen[bytes]] = []
    try:
        for node in range(count):
            words = ["--port", "0", "--unixsocket", f"{folder}/redis.{node}", "--save", "", "--appendonly", "no", "--dir", folder]
            servers.append(subprocess.Popen([program, *words], stdin=subprocess.DEVNULL, stdout=subprocess.DEVNULL))
        until(lambda: all(listens(Path(folder, f"redis.{node}")) for node in range(count)), "Redis listens", PATIENCE)
        yield
    finally:
        for server in servers:
            server.terminate()
            server.wait()


def compiled(compiler: str, folder: str) -> str:
    load = f"{folder}/load"
    words = ["-O2", "-std=c11", "-Wall", "-Wextra", "-pthread", f"-I{SOURCES[1].parent}", "-o", load, *map(str, SOURCES)]
    subprocess.run([compiler, *words], check=True, timeout=PATIENCE)
    return load


# ---- what is measured


def clients_of(side: Side) -> List[Tuple[int, int]]:
    """Jobs of the side's connections, and their nodes."""
    if side.word in (*NEIGHBOURS, "reads"):
        return [(VICTIM, 0), *((job, 0) for job in (WIDE if side.word == "spills" else NARROW))]
    return [(job, client % side.nodes) for client, job in enumerate(NARROW[: side.connections])]


def told_by(load: str, side: Side, seconds: float, folder: str) -> Told:
    """What load.c says of a run. Its faults end all."""
    clients = [(f"{folder}/floor" if side.at_floor else f"{folder}/store.{node}", job) for job, node in clients_of(side)]
    return told_of(load, side.word, side.size, clients, seconds)


def told_of(
    load: str, word: str, size: int, clients: Sequence[Tuple[str, int]], seconds: float, key_of: Callable[[int], bytes] = key
) -> Told:
    """The same of clients, each with its socket and its job."""
    words = [word, str(size), f"{seconds:g}"]
    for path, job in clients:
        words += [path, str(job), key_of(job).hex()]
    done = subprocess.run([load, *words], capture_output=True, text=True, check=False, timeout=seconds + 2 * PATIENCE)
    if done.returncode:
        said = done.stderr.strip() or f"load.c ended with {done.returncode}"
        raise ValueError(f"{word} of {bytes_text(size)}, {len(clients)} connections: {said}")
    return Told(*map(float, done.stdout.split()))


def measure(load: str, sides: Sequence[Side], folder: str, asked: argparse.Namespace) -> Dict[Side, List[Told]]:
    """What each side told in each round. The sides take turns, so that whatever else the machine does meets all of them."""
    told: Dict[Side, List[Told]] = {side: [] for side in sides}
    began = time.monotonic()
    for done in range(asked.rounds or ROUNDS):
        passed = time.monotonic() - began
        if done and not asked.rounds and passed * (done + 1) / done > LIMIT:
            break
        for side in sides:
            # a get beside neighbours may be a long one
            seconds = asked.seconds * (2 if VICTIM in dict(clients_of(side)) else 1)
            told[side].append(told_by(load, side, seconds, folder))
    return told


def write_calls(load: str, strace: str, program: str) -> Optional[float]:
    """Those of the server for commands at once: by how many calls two runs of different lengths differ. None if strace can't trace."""
    counts: List[float] = []
    calls: List[int] = []
    for seconds in (0, TRACED_SECONDS):
        with tempfile.TemporaryDirectory() as folder:
            log = Path(folder, "calls")
            words = [strace, "-f", "-qq", "-o", str(log), "-e", f"trace={CALLS}"]
            if subprocess.run([*words, "true"], capture_output=True, check=False, timeout=PATIENCE).returncode:
                return None
            with serving([*words, program], folder, 1, [Admitted(0, NARROW[0], MIB)]):
                counts.append(told_by(load, Side("together", KIB), seconds, folder).times)
            # what another call interrupts has a second line, of its end
            calls.append(sum("resumed>" not in line and "(" in line for line in log.read_text().splitlines()))
    return (calls[1] - calls[0]) / (counts[1] - counts[0]) if counts[1] > counts[0] else None


# ---- the rows


def speed(told: Sequence[Told]) -> float:
    """How often a second."""
    return statistics.median(one.times / one.seconds for one in told)


def megabytes(size: int) -> Figure:
    return lambda told: speed(told) * size / 1e6


def at_least(bound: float) -> Goal:
    return Goal(f"at least {bound:g}", lambda _, ratio: ratio is not None and ratio >= bound)


def at_most(bound: float) -> Goal:
    return Goal(f"at most {bound:g}", lambda _, ratio: ratio is not None and ratio <= bound)


def figure_at_most(bound: float, unit: str) -> Goal:
    return Goal(f"at most {bound:g} {unit}", lambda figure, _: figure <= bound)


def rows_of_objects() -> Iterator[Row]:
    for size in (64 * KIB, MIB):
        sides = Side("put", size, CONNECTIONS), Side("put", size)
        yield Row(f"put {bytes_text(size)}, one node: four connections to one, MB/s", megabytes(size), *sides, at_least(2.5))
    for size in (64 * KIB, MIB):
        sides = Side("get", size, CONNECTIONS), Side("get", size, CONNECTIONS, NODES)
        yield Row(f"get {bytes_text(size)}, four connections: one node to four, MB/s", megabytes(size), *sides, at_least(0.85))
    sides = Side("get", MIB), Side("get", MIB, at_floor=True)
    yield Row("get 1 MiB, one connection: to the floor, MB/s", megabytes(MIB), *sides, at_least(0.9))


def row_of_bursts() -> Row:
    def commands(told: Sequence[Told]) -> float:
        return speed(told) * AT_ONCE

    return Row(f"{AT_ONCE} commands: at once to one by one, a second", commands, Side("together", KIB), Side("apart", KIB), at_least(3))


def rows_of_neighbours() -> Iterator[Row]:
    """Of each trouble the gets beside it, to those beside reads."""
    figures: Tuple[Tuple[str, Figure, Optional[Goal]], ...] = (
        ("p50", lambda told: statistics.median(one.median for one in told), None),
        ("p99", lambda told: statistics.median(one.percentile_99 for one in told), at_most(3)),
        ("longest", lambda told: max(one.longest for one in told), figure_at_most(15, "ms")),
    )
    for word, text in NEIGHBOURS.items():
        for name, figure, goal in figures:
            yield Row(f"1 KiB beside four that {text}, to four that read: {name}, ms", figure, Side(word, LARGEST), Side("reads", LARGEST), goal)


def print_row(name: str, figure: float, other: Optional[float], goal: Optional[Goal]) -> None:
    ratio = figure / other if other else None
    met = f"{goal.text}: {'met' if goal.is_met(figure, ratio) else 'missed'}" if goal else "-"
    cells = [name, number_text(figure), "-" if other is None else number_text(other), "-" if ratio is None else f"{ratio:.2f}", met]
    print(f"| {' | '.join(cells)} |", flush=True)


def number_text(number: float) -> str:
    """With three digits at least, and no more than tell something."""
    return f"{number:,.0f}" if number >= 1000 else f"{number:.1f}" if number >= 10 else f"{number:.3f}"


def run_rows(compiler: str, asked: argparse.Namespace) -> List[str]:
    """Measures all rows and prints them. What was left out is given."""
    program, strace = str(asked.program.resolve()), shutil.which("strace")
    rows = [*rows_of_objects(), row_of_bursts(), *rows_of_neighbours()]
    sides = list(dict.fromkeys(side for row in rows for side in (row.side, row.other)))
    admitted = [Admitted(node, job, LARGEST, 4 * LARGEST) for node in range(1, NODES) for job in NARROW]
    # twice what is spilled at most, since nothing is said of when a key is erased
    admitted += [Admitted(0, job, window, 16 * LARGEST) for job, window in sorted(WINDOWS.items())]
    with tempfile.TemporaryDirectory() as folder:
        load = compiled(compiler, folder)
        with floor(load, folder), serving([program], folder, NODES, admitted):
            told = measure(load, sides, folder, asked)
        calls = write_calls(load, strace, program) if strace else None
    rounds = len(told[sides[0]])
    print(f"| By a native load, {rounds} {'round' if rounds == 1 else 'rounds'} | Figure | Compared with | Ratio | Goal |")
    print("|---|---|---|---|---|")
    for row in rows:
        print_row(row.name, row.figure(told[row.side]), row.figure(told[row.other]), row.goal)
        if row.side.word == "together" and calls is not None:
            print_row(f"{AT_ONCE} commands at once: write calls of the server", calls, None, figure_at_most(2, "calls"))
    return [] if calls is not None else ["write calls, since strace isn't there or can't trace"]
