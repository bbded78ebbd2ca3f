"""Lets a program of three nodes serve sessions for an hour, and looks at each answer and at its memory.

The sessions put, get, delete, grant, hand on, withdraw and end tasks as they are drawn by lot, while the operator changes
quotas, ends jobs and admits new ones. Of four sessions one has a job for itself, at one node and in a window of some hundred
bytes: each reply there has to be that of the plain model (store_model) of its job. The other three share a job and are at a node
each, where they spill most of what they have and fetch what the other two put: there the bytes that are read or peeked
at have to be those that were written, lengths and usage have to be right, and only such refusals may come as the rules
allow. No command may be without an answer for longer than two minutes.

A job can wait for itself: its windows are full of fetches that are on their way, and what they ask for is on devices, from which it
isn't read back while those windows are full. So a session deletes a fetch that it asks for no more, and one whose call has waited for a
minute gives up, as its client may: it connects again, and what it waited for must not be there then.

At the end each session has ended, the report has to say that each entry has a receipt, that nothing disagrees, that no message
was lost and no key left; and the memory may never have been more than what is bounded: the sizes of the windows, what a
connection takes with the receipts that it gathers, and what the journals keep, which are at most 8,192 lines of a live job at a
node; of an ended one little is left. The seed is printed. It takes the program that operate/program finds; or give
the words that start another one.

With --daemon store-daemon runs the program, and the operator is at its control socket; at the end nothing may be left. With --disk,
which only root may say, the program spills to a small disk in memory that is full now and then: sessions that share a job are told so
then, and the operator by lines of which there is at most one a second, and nothing else may come of it. Jobs of one session don't spill
then, since no model knows when a disk is full.
"""

import argparse
import itertools
import os
import random
import subprocess
import sys
import tempfile
import threading
import time
from collections import Counter
from pathlib import Path
from typing import List, NamedTuple, Optional, Sequence

from store_model.drawing import Tally
from store_client import DeviceFailed
from store_testing.daemon import Supervised
from store_testing.disk import Disk
from store_testing.processes import memory_of
from store_testing.program import program_or_end
from store_testing.server import FAILED_CALL, Report, Server

from .soaking.alone import Private
from .soaking.shared import FIRST_JOB, MEMORY, NODES, Lane, Program, Soak
from .soaking.together import WINDOWS, Crew, Member

# seconds that an answer may take
PATIENCE = 120
# by how many seconds the daemon may be late to write down what the program says
LATE = 3


def seconds_of(pid: int) -> float:
    """The seconds of a processor that a process has had."""
    with open(f"/proc/{pid}/stat", encoding="ascii") as lines:
        fields = lines.read().rpartition(")")[2].split()
    return (int(fields[11]) + int(fields[12])) / os.sysconf("SC_CLK_TCK")


def lanes_of(soak: Soak, sessions: int, minutes: float) -> List[Lane]:
    """Of four sessions three share a job, as long as there are so many."""
    lanes: List[Lane] = []
    lives = minutes * 60 / 5, minutes * 60 / 2
    for _ in range(sessions // 4):
        crew = Crew(soak)
        soak.window_bytes += NODES * WINDOWS[-1]
        lanes += [Member(soak, len(lanes) + node, crew, node, lives) for node in range(NODES)]
    lanes += [Private(soak, number) for number in range(len(lanes), sessions)]
    return lanes


class Memory(NamedTuple):
    """The bytes of memory that the program had at each quarter of the time, and the most that it had."""

    quarters: List[int]
    most: int


class Spent(NamedTuple):
    """The minutes of a run, and the seconds of a processor that the program and the sessions have had."""

    minutes: float
    program: float
    sessions: float


def watch(soak: Soak, program: Program, lanes: Sequence[Lane], minutes: float) -> Memory:
    """Until the time is over or something is wrong."""
    began, most = time.monotonic(), 0
    marks: List[int] = []
    while len(marks) < 4 and not soak.faults:
        time.sleep(0.5)
        now = time.monotonic()
        memory, bound = memory_of(program.pid), soak.bound(len(lanes))
        most = max(most, memory)
        if memory > bound:
            soak.faults.append(f"{memory:,} bytes of memory, more than {bound:,}")
        for lane in lanes:
            lane.give_up()
        late = [lane.number for lane in lanes if lane.moved is not None and now - lane.moved > PATIENCE]
        if late:
            soak.faults.append(f"no answer for {PATIENCE} s to sessions {late}")
        if now - began >= minutes * 60 * (len(marks) + 1) / 4:
            marks.append(memory)
            commands = sum(soak.commands.values())
            text = f"{(now - began) / 60:.1f} min: {commands:,} commands, {memory:,} bytes of memory of {bound:,}"
            print(text, flush=True)
    # told at once, since the program may not end then
    for fault in soak.faults:
        print(f"fault: {fault}", flush=True)
    return Memory(marks, most)


def finish(soak: Soak, program: Program, lanes: Sequence[Lane]) -> Report:
    """The sessions end, and so does the program. Its report."""
    soak.over.set()
    end = time.monotonic() + PATIENCE
    while any(lane.is_alive() for lane in lanes) and time.monotonic() < end:
        for lane in lanes:
            lane.give_up()
        time.sleep(0.1)
    for lane in lanes:
        assert not lane.is_alive(), f"session {lane.number} doesn't end"
    # what a session asked for without waiting may still be on its way
    time.sleep(2)
    return program.report()


def run_on_a_disk(options: argparse.Namespace, folder: str) -> List[str]:
    """The faults of a run whose disk fills up."""
    disk = Disk(Path(folder, "spill"), options.disk)
    try:
        return run(options, folder, disk)
    finally:
        disk.remove()


def run(options: argparse.Namespace, folder: str, disk: Optional[Disk] = None) -> List[str]:
    """The faults."""
    what = options.program, folder, NODES, MEMORY
    program: Program = Supervised(*what) if options.daemon else Server(*what)
    soak = Soak(program, folder, options)
    filling = threading.Thread(target=disk.fill_and_empty, args=(soak.over, random.Random(options.seed))) if disk else None
    try:
        if filling:
            filling.start()
        began = time.monotonic()
        lanes = lanes_of(soak, options.sessions, options.minutes)
        for lane in lanes:
            lane.start()
        memory = watch(soak, program, lanes, options.minutes)
        if not soak.faults:
            spent = Spent((time.monotonic() - began) / 60, seconds_of(program.pid), time.process_time())
            came = finish(soak, program, lanes)
            assert came.lost == 0, f"{came.lost} messages lost"
            report(soak, lanes, came.entries, memory, spent)
            look_at_complaints(program, disk, lanes)
    except (AssertionError, OSError, ValueError, subprocess.TimeoutExpired) as fault:
        soak.faults.append(repr(fault))
    finally:
        soak.over.set()
        if filling:
            filling.join()
        program.kill()
    return soak.faults


def look_at_complaints(program: Program, disk: Optional[Disk], lanes: Sequence[Lane]) -> None:
    """Device calls failed if the disk was full, and otherwise none."""
    told = told_calls(program.complaints, program.times)
    if program.complaints:
        print(f"{len(program.complaints):,} lines of device calls that failed, as: {program.complaints[-1]}")
    if disk:
        tell_of(disk, lanes, told)
    else:
        assert not told, f"a device call failed: {program.complaints[0]}"


def told_calls(complaints: Sequence[str], times: Sequence[float]) -> int:
    """How many device calls failed, as the program's lines say, of which there is at most one a second. Who reads them may be late."""
    found = [call for call in map(FAILED_CALL.fullmatch, complaints) if call]
    assert len(found) == len(complaints), f"said {complaints}"
    for first, last in itertools.combinations(range(len(times)), 2):
        seconds = times[last] - times[first]
        assert seconds >= last - first - LATE, f"{last - first + 1} lines in {seconds:.3f} seconds: {complaints[first : last + 1]}"
    return sum(1 + int(call.group(6) or 0) for call in found)


def tell_of(disk: Disk, lanes: Sequence[Lane], calls: int) -> None:
    """That it was full, and that sessions and the operator were told so."""
    told = sum(count for lane in lanes for (_, said), count in lane.tally.items() if said == f"{DeviceFailed.number} DeviceFailed")
    print(f"the disk was full {disk.times} times, {told:,} commands were told so, and {calls:,} device calls that failed were told of")
    assert disk.times and told and calls, "the disk was never full for a session, or nobody was told"


def report(soak: Soak, lanes: Sequence[Lane], entries: int, memory: Memory, spent: Spent) -> None:
    commands, jobs = sum(soak.commands.values()), soak.operator.last_job - FIRST_JOB
    print(f"{commands:,} commands in {spent.minutes:.1f} min, {commands / spent.minutes / 60:,.0f} a second; {jobs:,} jobs")
    print(f"{entries:,} entries, each with a receipt; 0 disagreeing, 0 lost, 0 keys left")
    quarters = ", ".join(f"{mark / 2**20:.1f}" for mark in memory.quarters)
    print(f"memory at the quarters: {quarters} MiB; at most {memory.most / 2**20:.1f} MiB")
    print(f"processor: {spent.program:.0f} s the program, {spent.sessions:.0f} s the sessions")
    tally: Tally = sum((lane.tally for lane in lanes), Counter())
    for word in sorted({word for word, _ in tally}):
        told = sorted((said, count) for (its, said), count in tally.items() if its == word)
        print(f"  {word}: {', '.join(f'{count:,} {said}' for said, count in told)}")
    answers = sorted(soak.operator.tally.items())
    print(f"  operator: {', '.join(f'{count:,} {word} {said}' for (word, said), count in answers)}")


def main() -> int:
    parser = argparse.ArgumentParser(description=__doc__, formatter_class=argparse.RawDescriptionHelpFormatter)
    parser.add_argument("--seed", type=int, default=int(time.time()), help="what is drawn by lot follows from it")
    parser.add_argument("--minutes", type=float, default=60, help="how long it takes (60)")
    parser.add_argument("--sessions", type=int, default=8, help="how many sessions there are at a time (8)")
    parser.add_argument("--pause", type=float, default=0.015, help="seconds of rest after a session's command, on average (0.015)")
    parser.add_argument("--daemon", action="store_true", help="store-daemon runs the program, which is one word then")
    parser.add_argument("--disk", type=int, default=0, metavar="MIB", help="a disk of so many MiB that is full now and then; 12 will do")
    parser.add_argument("--slack", type=int, default=0, metavar="MIB", help="memory that a build without optimisation may have besides")
    parser.add_argument("program", nargs="*", help="the words that start another program")
    options = parser.parse_args()
    if options.minutes <= 0 or options.sessions < 1:
        parser.error("there is nothing to do")
    options.program = options.program or [program_or_end()]
    print(f"seed {options.seed}", flush=True)
    with tempfile.TemporaryDirectory() as folder:
        faults = run_on_a_disk(options, folder) if options.disk else run(options, folder)
    for fault in faults:
        print(f"FAILED: {fault}")
    return 1 if faults else 0


if __name__ == "__main__":
    sys.exit(main())
