"""Measures how the program's work grows with its load.

Makes schedules, runs the program on them from file to file and prints lines a second, each the best of
several runs, and its ratio to the first measured row of its table. A row's time is that of its whole schedule
less that of the schedule's preparing part alone. The lines of the first table's rows are of the same lengths.
Each table is measured twice: with the memory's pages as they come, and with huge pages, as far as the machine
has them. With --svg each table is drawn too. With --instructions there are no times: valgrind counts the program's
instructions, which are the same from run to run, and each row's are told for a line. It takes the program that operate/program finds.
"""

import argparse
import math
import os
import re
import subprocess
import sys
import tempfile
import time
from pathlib import Path
from typing import Callable, Dict, Iterator, List, Mapping, NamedTuple, Optional, Sequence, Tuple

from store_testing.program import program_or_end

from .drawing import Bar, Drawing, draw_bars

NODES = 8
MEMORY = 1 << 30
PIECE = 1 << 16
EXTENT = 16
# one less than a job may have, since a new copy is counted before another goes
MOST = 1023
LARGEST_WINDOW = 256 << 20
RUNS = 15
# of a node, and of a job
JOBS = 64
WORKS = 8
# of a job's tasks, those that are remembered once they ended
ENDED = 1024
# numbers of the same number of digits, whatever the row
FIRST_JOB = 11
FIRST_INDEX = 1001
FIRST_NEW = 10001
NOISE = 0.05
LOST = "not measured: lost in the noise"
PAGES: List[Tuple[str, Dict[str, str]]] = [("pages as they come", {}), ("huge pages", {"GLIBC_TUNABLES": "glibc.malloc.hugetlb=1"})]


class Schedule(NamedTuple):
    """The lines that prepare, and those that are timed."""

    before: List[str]
    timed: List[str]


class Row(NamedTuple):
    """A row of a table."""

    name: str
    schedule: Schedule


def admit(job: int, window: int, device: int = 0, node: int = 0) -> str:
    return f"admit {node} {job} {window} {device}"


def cmd(job: int, text: str, node: int = 0) -> str:
    return f"cmd {node} {job} 1 {text}"


def copies(job: int, count: int, word: str = "copy") -> Iterator[str]:
    """The job's copies, sealed; a copy may be evicted, and what was created may not, since it isn't on the device."""
    for index in range(FIRST_INDEX, FIRST_INDEX + count):
        yield cmd(job, f"{word} t1.{index} {EXTENT}")
        yield cmd(job, f"seal t1.{index}")


def write_schedule(path: Path, lines: Sequence[str]) -> Path:
    path.write_text("".join(line + "\n" for line in lines))
    return path


def run(program: str, schedule: Path, setting: Mapping[str, str]) -> Tuple[float, int]:
    """The time of a schedule in seconds, and how many answers were refusals."""
    answers = schedule.with_suffix(".out")
    with open(schedule, "rb") as reader, open(answers, "wb") as writer:
        start = time.perf_counter()
        done = subprocess.run([program, "run", "--nodes", str(NODES), "--memory", str(MEMORY)], stdin=reader,
                              stdout=writer, stderr=subprocess.PIPE, env=os.environ | setting)
        spent = time.perf_counter() - start
    if done.returncode != 0:
        sys.exit(f"growth: status {done.returncode}: {done.stderr.decode().strip()}")
    return spent, answers.read_bytes().count(b" refused ")


def count_instructions(program: str, schedule: Path) -> int:
    """The instructions of a run of the schedule."""
    with open(schedule, "rb") as reader:
        done = subprocess.run(["valgrind", "--tool=cachegrind", "--cache-sim=no", "--cachegrind-out-file=/dev/null", program,
                               "run", "--nodes", str(NODES), "--memory", str(MEMORY)], stdin=reader,
                              stdout=subprocess.DEVNULL, stderr=subprocess.PIPE)
    counted = re.search(r"I +refs: +([\d,]+)", done.stderr.decode())
    if done.returncode != 0 or counted is None:
        sys.exit(f"growth: status {done.returncode}: {done.stderr.decode().strip()}")
    return int(counted[1].replace(",", ""))


def print_instructions(program: str, title: str, rows: Sequence[Row]) -> None:
    """A line for each row: the instructions of a line of its timed part, and their ratio to the first row's."""
    print(f"{title}: instructions a line, and the ratio to the first row", flush=True)
    first: Optional[float] = None
    with tempfile.TemporaryDirectory() as folder:
        schedule = Path(folder) / "schedule"
        for name, (before, timed) in rows:
            alone = count_instructions(program, write_schedule(schedule, before))
            count = (count_instructions(program, write_schedule(schedule, before + timed)) - alone) / len(timed)
            first = count if first is None else first
            print(f"  {name:32} {count:12,.0f} {count / first:8.2f}", flush=True)


class Timed:
    """The schedules of a row, written into a folder, and the best times of their runs: of the preparing part alone, and of both."""

    def __init__(self, folder: Path, number: int, row: Row) -> None:
        before, timed = row.schedule
        self._alone = write_schedule(folder / f"{number}.before", before)
        self._both = write_schedule(folder / f"{number}.both", before + timed)
        self._lines = len(timed)
        self._best = (math.inf, math.inf)

    def run(self, program: str, setting: Mapping[str, str]) -> bool:
        """Runs both. Whether an answer in the timed part was a refusal."""
        alone, refused_alone = run(program, self._alone, setting)
        both, refused = run(program, self._both, setting)
        self._best = (min(alone, self._best[0]), min(both, self._best[1]))
        return refused != refused_alone

    def speed(self) -> Optional[float]:
        """Lines a second, or None if that is lost in the noise."""
        alone, both = self._best
        return self._lines / (both - alone) if both - alone > NOISE * both else None


def measure(
    program: str, rows: Sequence[Row], setting: Mapping[str, str], folder: Path, runs: int
) -> Tuple[List[Optional[float]], bool]:
    """Of each row its speed, and whether an answer in a timed part was a refusal. The rows take turns, so that whatever else the machine
    does meets all of them."""
    all_timed = [Timed(folder, number, row) for number, row in enumerate(rows)]
    refused = [timed.run(program, setting) for _ in range(runs) for timed in all_timed]
    return [timed.speed() for timed in all_timed], any(refused)


def lookups(jobs: int, count: int, lines: int) -> Schedule:
    """Gets and releases, spread over the jobs and their copies."""
    before = []
    for job in range(FIRST_JOB, FIRST_JOB + jobs):
        before.append(admit(job, count * EXTENT))
        before.extend(copies(job, count))
    timed = []
    for turn in range(lines // 2):
        job = turn % jobs + FIRST_JOB
        index = turn * 7 % count + FIRST_INDEX
        timed += [cmd(job, f"get t1.{index}"), cmd(job, f"release t1.{index}")]
    return Schedule(before, timed)


def evictions(count: int, lines: int) -> Schedule:
    """Copies made in a full window: each evicts the least recently used one."""
    before = [admit(1, count * EXTENT), *copies(1, count)]
    timed = []
    for index in range(FIRST_NEW, FIRST_NEW + lines // 2):
        timed += [cmd(1, f"copy t1.{index} {EXTENT}"), cmd(1, f"seal t1.{index}")]
    return Schedule(before, timed)


def pieces(word: str, lines: int) -> Schedule:
    """Writes or reads of 64 KiB."""
    before = [admit(1, PIECE), cmd(1, f"create t1.1 {PIECE}")]
    if word == "write":
        return Schedule(before, [cmd(1, f"write t1.1 0 {'5a' * PIECE}")] * lines)
    before += [cmd(1, "seal t1.1"), cmd(1, "get t1.1")]
    return Schedule(before, [cmd(1, f"read t1.1 0 {PIECE}")] * lines)


def crowd(jobs: int, count: int) -> Iterator[str]:
    """Jobs with so many evictable copies, and room for one more."""
    for job in range(FIRST_JOB, FIRST_JOB + jobs):
        yield admit(job, (count + 1) * EXTENT)
        yield from copies(job, count)


def deletions(jobs: int, count: int, lines: int) -> Schedule:
    """Objects made and deleted by the first of the jobs, among its copies."""
    timed = [cmd(FIRST_JOB, f"create t2.{FIRST_NEW} {EXTENT}"), cmd(FIRST_JOB, f"delete t2.{FIRST_NEW}")]
    return Schedule([*crowd(jobs, count)], timed * (lines // 2))


def holes(count: int) -> Tuple[List[str], int]:
    """A job with so many extents, each of which has a hole after it, and room after the last one. Where a job may have no more copies
    the ones that lie between are deleted, and the next ones are longer, so that they don't fit the holes. Gives the longest hole too."""
    before, index, length, there = [], FIRST_INDEX, 0, 0
    while there < count:
        length, pairs = length + EXTENT, min((MOST + 1 - there) // 2, count - there)
        between = [f"t2.{number}" for number in range(index, index + pairs)]
        for number, name in enumerate(between, index):
            before += [cmd(FIRST_JOB, f"create t1.{number} {length}"), cmd(FIRST_JOB, f"create {name} {length}")]
        before += [cmd(FIRST_JOB, f"delete {name}") for name in between]
        index, there = index + pairs, there + pairs
    return [admit(FIRST_JOB, 1 << 18), *before], length


def deletions_among_holes(count: int, is_last: bool, lines: int) -> Schedule:
    """Objects made and deleted in the first of so many holes, or after all of them, since they are too long for each."""
    before, longest = holes(count)
    length = longest + EXTENT if is_last else EXTENT
    timed = [cmd(FIRST_JOB, f"create t3.{FIRST_NEW} {length}"), cmd(FIRST_JOB, f"delete t3.{FIRST_NEW}")]
    return Schedule(before, timed * (lines // 2))


def full_windows() -> List[str]:
    """Jobs with as many evictable copies as there may be beside a new one, and no room."""
    before = []
    for job in range(FIRST_JOB, FIRST_JOB + JOBS):
        before += [admit(job, MOST * EXTENT), *copies(job, MOST)]
    return before


def crowded_windows(word: str) -> List[str]:
    """The same, but only one copy of each job may be evicted: the others are held, or were created."""
    before = []
    for job in range(FIRST_JOB, FIRST_JOB + JOBS):
        before += [admit(job, MOST * EXTENT), *copies(job, MOST - 1, word)]
        if word == "copy":
            before += [cmd(job, f"get t1.{index}") for index in range(FIRST_INDEX, FIRST_INDEX + MOST - 1)]
        before += [cmd(job, f"copy t3.1 {EXTENT}"), cmd(job, "seal t3.1")]
    return before


def single_evictions(before: List[str], turns: int) -> Schedule:
    """Copies made in full windows, so often: each evicts one."""
    timed = []
    for index in range(FIRST_NEW, FIRST_NEW + turns):
        for job in range(FIRST_JOB, FIRST_JOB + JOBS):
            timed += [cmd(job, f"copy t2.{index} {EXTENT}"), cmd(job, f"seal t2.{index}")]
    return Schedule(before, timed)


def refusals(count: int, lines: int) -> Schedule:
    """Copies that find no room, since every other one of so many is held: no two that lie beside each other may be evicted."""
    before = []
    for job in range(FIRST_JOB, FIRST_JOB + JOBS):
        before += [admit(job, count * EXTENT), *copies(job, count)]
        before += [cmd(job, f"get t1.{index}") for index in range(FIRST_INDEX, FIRST_INDEX + count, 2)]
    timed = []
    for _ in range(lines // JOBS):
        timed += [cmd(job, f"copy t2.1 {2 * EXTENT}") for job in range(FIRST_JOB, FIRST_JOB + JOBS)]
    return Schedule(before, timed)


def evictions_of_half() -> Schedule:
    """A copy in each full window, which evicts half of what is there."""
    length = (MOST + 1) // 2 * EXTENT
    return Schedule(full_windows(), [cmd(job, f"copy t2.{FIRST_NEW} {length}") for job in range(FIRST_JOB, FIRST_JOB + JOBS)])


def admissions(window: int, turns: int) -> Schedule:
    """Jobs that are admitted with such a window, one after another, and end before they use it."""
    timed = []
    for job in range(FIRST_JOB, FIRST_JOB + turns):
        timed += [admit(job, window), f"end 0 {job}"]
    return Schedule([], timed)


def ends_of_tasks(count: int) -> Schedule:
    """Each job's tasks end, one after another, with an object each."""
    timed = []
    for task in range(FIRST_NEW, FIRST_NEW + ENDED):
        for job in range(FIRST_JOB, FIRST_JOB + JOBS):
            timed += [cmd(job, f"create t{task}.1 {EXTENT}"), cmd(job, f"endtask t{task}")]
    return Schedule([*crowd(JOBS, count)], timed)


def usages(count: int, lines: int) -> Schedule:
    """What a job uses that has so many copies."""
    return Schedule([*crowd(1, count)], [cmd(FIRST_JOB, "usage")] * lines)


def lookups_beside_works(works: bool, lines: int) -> Schedule:
    """Gets and releases of one job, while so many works of each other job are in flight."""
    before = [admit(FIRST_JOB, EXTENT), *copies(FIRST_JOB, 1)]
    for job in range(FIRST_JOB + 1, FIRST_JOB + JOBS):
        before.append(admit(job, WORKS * EXTENT, WORKS * EXTENT))
        for index in range(WORKS):
            before += [cmd(job, f"create t1.{FIRST_INDEX + index} {EXTENT}"), cmd(job, f"seal t1.{FIRST_INDEX + index}")]
        if works:
            before.append(cmd(job, f"create t2.1 {WORKS * EXTENT}"))
    timed = [cmd(FIRST_JOB, f"get t1.{FIRST_INDEX}"), cmd(FIRST_JOB, f"release t1.{FIRST_INDEX}")]
    return Schedule(before, timed * (lines // 2))


def deliveries(sent: int, among: int, lines: int) -> Schedule:
    """Messages to the directory, handed over out of the first ones of so many that a job sent from each node."""
    before = [admit(FIRST_JOB, EXTENT, node=node) for node in range(NODES)]
    for _ in range(sent):
        before += [cmd(FIRST_JOB, "get t1.1", node=node) for node in range(NODES)]
    return Schedule(before, [f"deliver {FIRST_JOB} {turn % NODES} d {turn * 7919 % among + 1}" for turn in range(lines)])


# each table's title, and what makes its rows
TABLES: List[Tuple[str, Callable[[], List[Row]]]] = [
    ("get and release", lambda: [
        Row("1 job with 16 copies", lookups(1, 16, 1000000)),
        Row("64 jobs with 1,024 copies each", lookups(64, 1024, 1000000)),
    ]),
    ("create and seal under eviction", lambda: [
        Row(f"{count:,} copies", evictions(count, 100000)) for count in (16, 256, MOST)
    ]),
    ("create and delete", lambda: [
        Row("16 copies", deletions(1, 16, 200000)),
        Row(f"{MOST:,} copies", deletions(1, MOST, 200000)),
        Row(f"{MOST:,} copies, beside 63 jobs", deletions(JOBS, MOST, 200000)),
    ]),
    ("create and delete in the first hole", lambda: [
        Row(f"{count:,} extents", deletions_among_holes(count, False, 200000)) for count in (16, 256, MOST)
    ]),
    ("create and delete after all holes", lambda: [
        Row(f"{count:,} extents", deletions_among_holes(count, True, 200000)) for count in (16, 256, MOST)
    ]),
    ("create that evicts", lambda: [
        Row(f"one of {MOST:,} copies, and a seal", single_evictions(full_windows(), 400)),
        Row("the same, all others held", single_evictions(crowded_windows("copy"), 400)),
        Row("the same, all others unbacked", single_evictions(crowded_windows("create"), 400)),
        Row(f"{(MOST + 1) // 2} of {MOST:,} copies", evictions_of_half()),
    ]),
    ("create that is refused", lambda: [
        Row(f"{count:,} copies, half of which may be evicted", refusals(count, 200000)) for count in (16, 256, MOST - 1)
    ]),
    ("admit and end", lambda: [
        Row(f"a window of {EXTENT} bytes", admissions(EXTENT, 50000)),
        Row(f"a window of {LARGEST_WINDOW >> 20} MiB", admissions(LARGEST_WINDOW, 50)),
    ]),
    ("create and end of the task", lambda: [
        Row(f"{count:,} copies", ends_of_tasks(count)) for count in (16, 256, MOST)
    ]),
    ("usage", lambda: [Row(f"{count:,} copies", usages(count, 500000)) for count in (16, 256, MOST)]),
    ("get and release beside works", lambda: [
        Row("no works", lookups_beside_works(False, 500000)),
        Row(f"{(JOBS - 1) * WORKS} works of other jobs", lookups_beside_works(True, 500000)),
    ]),
    ("deliver", lambda: [
        Row(f"{sent * NODES:,} messages sent", deliveries(sent, sent, 500000)) for sent in (125, 12500, 125000)
    ] + [Row("1,000 out of 1,000,000 sent", deliveries(125000, 125, 500000))]),
    ("64 KiB at a time", lambda: [Row(word, pieces(word, 200)) for word in ("write", "read")]),
]


def print_table(title: str, rows: Sequence[Row], setting: Mapping[str, str], asked: argparse.Namespace) -> bool:
    """A line for each row; whether an answer was a refusal."""
    print(f"{title}: lines a second, and the ratio to the first row")
    with tempfile.TemporaryDirectory() as folder:
        speeds, any_refused = measure(asked.store, rows, setting, Path(folder), asked.runs)
    names = [name for name, _ in rows]
    for name, speed in zip(names, speeds):
        if speed is None or speeds[0] is None:
            print(f"  {name:32}  {LOST}")
        else:
            print(f"  {name:32} {speed:12,.0f} {speed / speeds[0]:8.2f}")
    if asked.svg:
        asked.svg.mkdir(parents=True, exist_ok=True)
        draw_table(title, names, speeds).save(asked.svg / f"{title.replace(', ', ' ').replace(' ', '-')}.svg")
    return any_refused


def draw_table(title: str, names: Sequence[str], speeds: Sequence[Optional[float]]) -> Drawing:
    """A bar for each row."""
    bars, first = [], speeds[0]
    for name, speed in zip(names, speeds):
        if speed is None or first is None:
            bars.append(Bar(name, 0, LOST))
        else:
            bars.append(Bar(name, speed, f"{speed:,.0f}, {speed / first:.2f}"))
    return draw_bars(f"{title}: lines a second, and the ratio to the first row", "lines a second", bars)


def main() -> None:
    options = argparse.ArgumentParser(description=__doc__, formatter_class=argparse.RawDescriptionHelpFormatter)
    options.add_argument("--runs", type=int, default=RUNS, help=f"runs of each schedule (default {RUNS})")
    options.add_argument("--store", help="the program (default: the one that operate/program finds)")
    options.add_argument("--table", choices=[title for title, _ in TABLES], help="one table alone")
    options.add_argument("--instructions", action="store_true", help="count instructions by valgrind, and take no times")
    options.add_argument("--svg", type=Path, metavar="FOLDER", help="draw each table as bars into this folder")
    asked = options.parse_args()
    asked.store = asked.store or program_or_end()
    any_refused = False
    if asked.instructions:
        for title, rows in TABLES:
            if asked.table in (None, title):
                print_instructions(asked.store, title, rows())
        return
    for pages, setting in PAGES:
        for title, rows in TABLES:
            if asked.table in (None, title):
                any_refused |= print_table(f"{title}, {pages}", rows(), setting, asked)
    if any_refused:
        print("Steps were refused: these numbers mean nothing.")


if __name__ == "__main__":
    main()
