"""Measures how soon a wait of the Python client hears of a put by another process of its host, and what waits cost that hear of nothing.

A process waits for one object after the other, and this one puts each 2 to 200 milliseconds after the wait has begun, or as --latest says. Told is
the time from the end of the put to the moment at which the other process has the object: the median, with the 90th percentile and the longest.
Of those that were heard of late it is told how often a thread of the waiting process, of the server or of a keeper was ready meanwhile and was given
no processor, for at least half of the delay: these are the machine's delays, and neither the store's nor the client's. Then so many threads of a process, each with a connection, wait for objects that nobody puts, and so does a process
of one thread. Told is what each process takes of a processor, for each of its threads, in so many seconds after the first 34, and what the server
takes in all of this time.
"""

from __future__ import annotations

import argparse
import contextlib
import multiprocessing
import os
import random
import statistics
import sys
import tempfile
import threading
import time
from multiprocessing.connection import Connection as Pipe
from pathlib import Path
from typing import Dict, Iterable, List, NamedTuple, Optional

import store_client
from store_client import ObjectId, Task
from store_testing.frames import key
from store_testing.program import program_or_end
from store_testing.server import Server

JOB = 1
WINDOW = 1 << 20
TASK = Task.numbered(1)
# seconds from the beginning of a wait to the put, at least, and at most unless that is given
SOON, LATE = 0.002, 0.2
# seconds after which a wait asks as seldom as it ever does
SETTLED = 34.0
# seconds that waits go on after that
ENDING = 4.0
# seconds from which on a put is heard of late
BELATED = 0.01
# longer than a put is waited for here, in seconds
ENOUGH = 600.0


def object_id(index: int) -> ObjectId:
    return ObjectId(TASK, JOB, index)


def connected(path: str) -> store_client.Connection:
    return store_client.connect(path, JOB, key(JOB))


def waits(path: str, count: int, pipe: Pipe) -> None:
    """Waits for so many objects, and tells when each wait begins and when it has ended."""
    with connected(path) as store:
        for index in range(1, count + 1):
            pipe.send(0.0)
            with store.get(object_id(index), timeout=ENOUGH):
                pipe.send(time.monotonic())


def unserved(processes: Iterable[int]) -> Dict[str, float]:
    """Of each thread of the processes, how many seconds it has been ready and had no processor; nothing where the system doesn't count that."""
    found = {}
    for process in processes:
        for file in Path(f"/proc/{process}/task").glob("*/schedstat"):
            # a thread may end meanwhile
            with contextlib.suppress(OSError):
                found[str(file)] = int(file.read_text(encoding="ascii").split()[1]) / 1e9
    return found


def keepers(path: str) -> List[int]:
    """The processes that keep the job at this socket."""
    found = []
    for file in Path("/proc").glob("[0-9]*/cmdline"):
        with contextlib.suppress(OSError):
            words = file.read_bytes().split(b"\0")
            if os.fsencode(os.path.realpath(path)) in words and any(word.endswith(b"/keeper.py") for word in words):
                found.append(int(file.parent.name))
    return found


class Delay(NamedTuple):
    """How late a put was heard of, and how long a thread of those that have to do with it had no processor meanwhile, in seconds."""

    seconds: float
    unserved: float


def delays(path: str, server: int, count: int, latest: float) -> List[Delay]:
    """From the end of each put to the end of the wait for it."""
    ours, theirs = multiprocessing.Pipe()
    process = multiprocessing.Process(target=waits, args=(path, count, theirs))
    process.start()
    assert process.pid
    found = []
    with connected(path) as store:
        store.put(b"a page", object_id(count + 1))
        processes = [process.pid, server, *keepers(path)]
        for index in range(1, count + 1):
            ours.recv()
            time.sleep(random.uniform(SOON, latest))
            before = unserved(processes)
            store.put(b"a page", object_id(index))
            ended = time.monotonic()
            delay = max(0.0, ours.recv() - ended)
            after = unserved(processes)
            found.append(Delay(delay, max((after[thread] - before.get(thread, 0.0) for thread in after), default=0.0)))
            store.delete(object_id(index))
    process.join()
    return found


def told(delays: List[Delay]) -> str:
    """The median of the delays, and what explains the longest."""
    found = sorted(1e3 * delay.seconds for delay in delays)
    belated = [delay for delay in delays if delay.seconds >= BELATED]
    starved = [delay for delay in belated if delay.unserved >= delay.seconds / 2]
    return (
        f"{len(found)} puts were heard of after {statistics.median(found):.1f} ms in the median, {found[int(0.9 * len(found))]:.1f} at the 90th"
        f" percentile, {found[-1]:.1f} at most;\n{len(belated)} after more than {1e3 * BELATED:.0f} ms, of which in {len(starved)} a thread had no processor"
    )


def idle(path: str, threads: int, seconds: float, pipe: Pipe) -> None:
    """So many threads wait for what nobody puts; tells what the process takes of a processor in these seconds, once all of them wait."""
    def wait_for(index: int) -> None:
        with connected(path) as store:
            try:
                store.get(object_id(index), timeout=seconds + SETTLED + ENDING)
            except store_client.Absent:
                pass

    waiting = [threading.Thread(target=wait_for, args=(os.getpid() * 1000 + number,)) for number in range(threads)]
    for thread in waiting:
        thread.start()
    time.sleep(SETTLED)
    began = time.process_time()
    time.sleep(seconds)
    pipe.send(time.process_time() - began)
    for thread in waiting:
        thread.join()


def processor_of(process: int) -> float:
    """Seconds that the process has taken of a processor."""
    fields = Path(f"/proc/{process}/stat").read_text(encoding="latin-1").rpartition(")")[2].split()
    return (int(fields[11]) + int(fields[12])) / os.sysconf("SC_CLK_TCK")


def idle_shares(path: str, numbers: List[int], seconds: float) -> List[float]:
    """Of processes of so many waiting threads each, at the same time, what they take of a processor for each of these, in percent."""
    pipes, processes = [], []
    for threads in numbers:
        ours, theirs = multiprocessing.Pipe()
        pipes.append(ours)
        processes.append(multiprocessing.Process(target=idle, args=(path, threads, seconds, theirs)))
        processes[-1].start()
    taken = [pipe.recv() for pipe in pipes]
    for process in processes:
        process.join()
    return [100 * one / seconds / threads for one, threads in zip(taken, numbers)]


def main(given: Optional[List[str]] = None) -> int:
    options = argparse.ArgumentParser(description=__doc__, formatter_class=argparse.RawDescriptionHelpFormatter)
    options.add_argument("--puts", type=int, default=300, help="otherwise 300")
    options.add_argument("--latest", type=float, default=LATE, help="seconds from the beginning of a wait to the put at most, otherwise 0.2")
    options.add_argument("--threads", type=int, default=50, help="otherwise 50")
    options.add_argument("--seconds", type=float, default=20, help="that threads wait in vain, otherwise 20")
    asked = options.parse_args(given)
    program = program_or_end()
    with tempfile.TemporaryDirectory() as folder, Server([program], folder, nodes=1, memory=4 * WINDOW) as server:
        server.admit(0, JOB, WINDOW)
        path = server.path()
        load = os.getloadavg()[0]
        print(told(delays(path, server.pid, asked.puts, asked.latest)))
        before = processor_of(server.pid)
        began = time.monotonic()
        many, one = idle_shares(path, [asked.threads, 1], asked.seconds)
        part = 100 * (processor_of(server.pid) - before) / (time.monotonic() - began)
        print(f"waits that hear of nothing take {many:.3f} % of a processor each if {asked.threads} are of one process, and {one:.3f} % if one is alone;")
        print(f"the server takes {part:.1f} % for all. The load was {load:.1f} at first, and {os.getloadavg()[0]:.1f} at the end")
        server.report()
    return 0


if __name__ == "__main__":
    sys.exit(main())
