"""Measures what a scrape costs a job that works meanwhile: the gets of one session alone, and beside what asks for the counters.

One node has 64 jobs. A connection of load.c, in C, gets, reads and releases 1 KiB of the first job again and again, and each round trip is
timed. Beside it is nothing; or the daemon is asked for its metrics every 100 milliseconds, as `storectl metrics` asks, which looks at the
server once a second; or the lines of a whole look are sent straight to the server's own control socket, every 100 milliseconds, or one
look after the other without a pause. All take turns, in rounds. A figure is the median of the rounds, with the least and the greatest; a
ratio is that of a figure to the same one alone in the round. Then it is told how often a thread found the node locked, and how often one
slept until it wasn't, of a thousand gets. At last looks are made with nothing beside them, and it is told what one takes of the server's
processor: its own work, and all with the kernel's.

What else the machine does is in the times of gets: the longest one is mostly a wait for a processor then, alone too.
"""

from __future__ import annotations

import argparse
import contextlib
import os
import shutil
import socket
import statistics
import sys
import tempfile
import threading
import time
from pathlib import Path
from typing import Callable, Dict, Iterator, List, NamedTuple, Optional, Sequence, Tuple

from store_operator.counts import NodeCounts, read_node
from store_testing.daemon import KEY, Place

from .serving_rows import KIB, Told, compiled, told_of

JOBS = range(1, 65)
VICTIM = 1
EVERY = 0.1
# a line of its own for the node, and two for each job
LOOK = "".join(["counts 0\n", *(f"usage 0 {job}\ncounts 0 {job}\n" for job in JOBS)]).encode()
LINES = 1 + 2 * len(JOBS)
# of what is received at once
MOST = 1 << 16


class Beside(NamedTuple):
    """What asks for counters while the gets are timed: an asking of it, and the seconds from the one to the next."""

    name: str
    ask: Optional[Callable[[], None]] = None
    every: float = 0


class Measured(NamedTuple):
    """Of a run: what load.c told, how often it was asked meanwhile, the longest asking in milliseconds, and what the node counted."""

    told: Told
    asked: int
    slowest: float
    waits: int
    sleeps: int


class Asking(threading.Thread):
    """Asks again and again, until it is ended. It fails if an asking does."""

    def __init__(self, beside: Beside) -> None:
        super().__init__(daemon=True)
        self._beside, self._end = beside, threading.Event()
        self.times: List[float] = []
        self.fault: Optional[Exception] = None

    def run(self) -> None:
        ask = self._beside.ask
        try:
            while ask and not self._end.is_set():
                began = time.monotonic()
                ask()
                self.times.append(time.monotonic() - began)
                self._end.wait(max(0.0, self._beside.every - self.times[-1]))
        except Exception as fault:  # it is told by the thread that measures
            self.fault = fault

    def end(self) -> None:
        self._end.set()
        self.join()
        if self.fault:
            raise self.fault


class Lines:
    """A connection to the server's own control socket."""

    def __init__(self, path: str) -> None:
        self._socket = socket.socket(socket.AF_UNIX)
        self._socket.connect(path)

    def answers(self, lines: bytes, count: int) -> List[str]:
        """One to each of so many lines, all of which are sent at once."""
        self._socket.sendall(lines)
        came = b""
        while came.count(b"\n") < count:
            more = self._socket.recv(MOST)
            if not more:
                raise ConnectionError("the server closed its control connection")
            came += more
        return came.decode().splitlines()

    def look(self) -> None:
        for answer in self.answers(LOOK, LINES):
            if not answer.startswith(("n0 op counts", "n0 op usage")):
                raise ValueError(f"the server answered a line of a look {answer!r}")

    def counts(self) -> NodeCounts:
        return read_node(self.answers(b"counts 0\n", 1)[0], 0)


def measured(load: str, place: Place, beside: Beside, lines: Lines, seconds: float) -> Measured:
    asking, before = Asking(beside), lines.counts()
    asking.start()
    try:
        told = told_of(load, "reads", KIB, [(str(place.socket()), VICTIM)], seconds, key_of=lambda _: bytes.fromhex(KEY))
    finally:
        asking.end()
    after = lines.counts()
    return Measured(
        told, len(asking.times), 1e3 * max(asking.times, default=0), after.lock_waits - before.lock_waits, after.lock_sleeps - before.lock_sleeps
    )


def processor(process: int) -> Tuple[float, float]:
    """Seconds that the process has taken of it: by its own work, and by the kernel's for it."""
    own, kernel = Path(f"/proc/{process}/stat").read_text(encoding="latin-1").rpartition(")")[2].split()[11:13]
    return int(own) / os.sysconf("SC_CLK_TCK"), int(kernel) / os.sysconf("SC_CLK_TCK")


def looks_alone(place: Place, lines: Lines, seconds: float) -> str:
    process, count, began = place.server(), 0, time.monotonic()
    before = processor(process)
    while time.monotonic() < began + seconds:
        lines.look()
        count += 1
    own, kernel = (after - earlier for after, earlier in zip(processor(process), before))
    each = 1e6 / count
    return f"{count} looks alone, of {LINES} lines: of the server's processor {own * each:.0f} us each, and {kernel * each:.0f} us of the kernel's"


@contextlib.contextmanager
def served() -> Iterator[Place]:
    with Place(1, JOBS, memory="16M") as place:
        # what is asked is asked from here alone
        place.write(1, JOBS, memory="16M", watch="0")
        place.start_ready()
        yield place


def with_bounds(figures: Sequence[float], form: str) -> str:
    return f"{statistics.median(figures):{form}} ({min(figures):{form}} to {max(figures):{form}})"


def row(name: str, runs: Sequence[Measured], alone: Sequence[Measured]) -> str:
    told = [run.told for run in runs]
    ratios = [one.median / other.told.median for one, other in zip(told, alone)]
    gets = sum(one.times for one in told)
    cells = [
        name,
        with_bounds([run.asked / run.told.seconds for run in runs], ".1f"),
        with_bounds([1e3 * one.median for one in told], ".0f"),
        with_bounds(ratios, ".2f"),
        with_bounds([1e3 * one.percentile_99 for one in told], ".0f"),
        with_bounds([one.longest for one in told], ".1f"),
        f"{1e3 * sum(run.waits for run in runs) / gets:.2f}, {1e3 * sum(run.sleeps for run in runs) / gets:.2f}",
    ]
    return "| " + " | ".join(cells) + " |"


def measure(rounds: int, seconds: float, compiler: str) -> Tuple[Dict[str, List[Measured]], str]:
    """Of each row its runs, and what is told of looks alone."""
    with tempfile.TemporaryDirectory() as folder, served() as place, place.control() as daemon:
        load = compiled(compiler, folder)
        # its own connection counts, and what looks has another
        lines, looking = Lines(f"{place.path}/store.new.c"), Lines(f"{place.path}/store.new.c")

        def metrics() -> None:
            daemon.metrics()

        besides = [
            Beside("nothing"),
            Beside("the daemon's metrics, 10 a second", metrics, EVERY),
            Beside("a look, 10 a second", looking.look, EVERY),
            Beside("look after look", looking.look),
        ]
        runs: Dict[str, List[Measured]] = {beside.name: [] for beside in besides}
        for _ in range(rounds):
            for beside in besides:
                runs[beside.name].append(measured(load, place, beside, lines, seconds))
        return runs, looks_alone(place, looking, rounds * seconds)


def main(given: Optional[List[str]] = None) -> int:
    options = argparse.ArgumentParser(description=__doc__, formatter_class=argparse.RawDescriptionHelpFormatter)
    options.add_argument("--rounds", type=int, default=5, help="otherwise 5")
    options.add_argument("--seconds", type=float, default=3, help="of each run; otherwise 3")
    words = options.parse_args(given)
    compiler = shutil.which("cc")
    if not compiler:
        print("scrape: load.c wants cc", file=sys.stderr)
        return 1
    runs, alone_said = measure(words.rounds, words.seconds, compiler)
    print(f"{words.rounds} rounds of {words.seconds:g} s, {len(JOBS)} jobs, load {os.getloadavg()[0]:.1f} at {os.cpu_count()} processors")
    print("| Beside the gets | Askings a second | p50, us | Ratio | p99, us | Longest, ms | Waits and sleeps at the lock, of 1,000 gets |")
    print("|---|---|---|---|---|---|---|")
    alone = runs["nothing"]
    for name, each in runs.items():
        print(row(name, each, alone))
    print(alone_said)
    return 0


if __name__ == "__main__":
    sys.exit(main())
