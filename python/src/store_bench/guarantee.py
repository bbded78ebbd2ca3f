"""Shows the guarantee to each job on one schedule, or at a program that serves.

The program runs it twice: as it is, and without the lines that are about another job. The job's replies have to be the same
bytes. What one job grants to another is an input of the second one's: in a schedule in which the other job does so they may differ.

With --served the program serves, twice: to a session of job 1 alone, and to the same session while four sessions of job 2 put, get, list
and delete, and fill their window. Between two commands of job 1 at least 20 of job 2 are answered. All reply frames to job 1 have to be
the same bytes.

The status is 1 if they differ, and 2 if nothing could be shown.
The program is the one that operate/program finds.
"""

from __future__ import annotations

import argparse
import subprocess
import sys
from pathlib import Path
from typing import List, NamedTuple, Sequence

from store_testing import ROOT
from store_testing.program import program_or_end

from .served_guarantee import JOB, OTHER, SessionFault, alone, beside, read_session, spell

SCHEDULE, SESSION = ROOT / "docs/pictures/neighbour.schedule", ROOT / "docs/pictures/neighbour.session"
# which word of a line is the job's number
JOBS_PLACE = {"admit": 2, "quota": 2, "end": 2, "cmd": 2, "finish": 2, "deliver": 1}
# of what is shown, in letters
COLUMN = 38


class Told(NamedTuple):
    """A command, and what its session is told."""

    command: str
    reply: str


class GuaranteeFault(Exception):
    """Why nothing can be shown."""


def job_of(line: str) -> str:
    """The job that a line is about; no text if it is about none."""
    fields = line.split()
    place = JOBS_PLACE.get(fields[0]) if fields else None
    return fields[place] if place is not None and len(fields) > place else ""


def without(schedule: Sequence[str], job: str) -> List[str]:
    return [line for line in schedule if job_of(line) != job]


def steps(schedule: Sequence[str]) -> List[str]:
    """The lines that are answered: all but comments and empty ones."""
    return [line.rstrip("\n") for line in schedule if line.strip() and not line.startswith("#")]


def run(program: str, nodes: int, lines: Sequence[str]) -> List[str]:
    """The program's answers to the lines."""
    try:
        done = subprocess.run(
            [program, "run", "--nodes", str(nodes)], input="".join(lines), capture_output=True, text=True, check=False
        )
    except OSError as error:
        raise GuaranteeFault(f"{program}: {error.strerror}") from error
    answers = done.stdout.splitlines()
    if done.returncode != 0 or len(answers) != len(steps(lines)):
        raise GuaranteeFault(done.stderr.strip() or f"{program} answered {len(answers)} of {len(steps(lines))} lines")
    return answers


def told(lines: Sequence[str], answers: Sequence[str], job: str) -> List[Told]:
    """The job's commands and the replies to them."""
    return [Told(step, answer) for step, answer in zip(steps(lines), answers) if step.startswith("cmd ") and job_of(step) == job]


def cut(cell: str) -> str:
    return cell if len(cell) <= COLUMN else f"{cell[: COLUMN - 3]}..."


def read(path: Path) -> str:
    try:
        return path.read_text(encoding="utf-8")
    except OSError as error:
        raise GuaranteeFault(f"{path}: {error.strerror}") from error
    except UnicodeDecodeError as error:
        raise GuaranteeFault(f"{path}: no text") from error


def show(headings: Sequence[str], with_it: Sequence[Told], without_it: Sequence[Told]) -> None:
    """The replies beside each other."""
    rows = [("command", *headings), *((one.command, one.reply, two.reply) for one, two in zip(with_it, without_it))]
    for row in rows:
        print("  ".join(cut(cell).ljust(COLUMN) for cell in row).rstrip())


def verdict(is_same: bool, what: str, rest: str) -> int:
    """Prints it; the status."""
    print(f"{what}, {'the same' if is_same else 'OTHER ONES'} {rest}")
    return 0 if is_same else 1


def show_run(program: str, schedule: Path, nodes: int, job: str, other: str) -> int:
    """The program's answers to a schedule, with and without the lines about the other job."""
    whole = read(schedule).splitlines(keepends=True)
    alone = without(whole, other)
    both, one = run(program, nodes, whole), run(program, nodes, alone)
    with_it, without_it = told(whole, both, job), told(alone, one, job)
    if len(alone) == len(whole) or not with_it:
        raise GuaranteeFault(f"job {other} has no line, or job {job} no command: nothing is shown by that")
    show((f"with job {other}", f"without job {other}"), with_it, without_it)
    rest = f"without the {len(both) - len(one)} steps of job {other}"
    return verdict(with_it == without_it, f"{len(with_it)} replies to job {job}", rest)


def show_served(program: str, path: Path) -> int:
    """The frames that a program that serves answers a session with, beside sessions of another job and alone."""
    session = read_session(read(path))
    if not session:
        raise GuaranteeFault(f"{path} has no command: nothing is shown by that")
    with_it, count = beside(program, session)
    without_it = alone(program, session)
    rows = [[Told(said.text, spell(said, reply)) for said, reply in zip(session, replies)] for replies in (with_it, without_it)]
    show((f"beside job {OTHER}", "alone"), *rows)
    what = f"{len(with_it)} reply frames to job {JOB}, {sum(map(len, with_it))} bytes"
    return verdict(with_it == without_it, what, f"beside {count:,} commands of job {OTHER}")


def main() -> int:
    options = argparse.ArgumentParser(description=__doc__, formatter_class=argparse.RawDescriptionHelpFormatter)
    usual = f"otherwise {SCHEDULE.relative_to(ROOT)}, or with --served {SESSION.name} there"
    options.add_argument("schedule", type=Path, nargs="?", help=usual)
    options.add_argument("--served", action="store_true", help="at a program that serves, job 1 of a session's commands")
    options.add_argument("--job", help="whose replies are compared; otherwise 1")
    options.add_argument("--other", help="whose lines are left out; otherwise 2")
    options.add_argument("--nodes", type=int, help="how many the schedule is about; otherwise 1")
    words = options.parse_args()
    if words.served and (words.job or words.other or words.nodes):
        options.error("--served is about jobs 1 and 2 at one node")
    program = program_or_end()
    try:
        if words.served:
            return show_served(program, words.schedule or SESSION)
        return show_run(program, words.schedule or SCHEDULE, words.nodes or 1, words.job or "1", words.other or "2")
    except (GuaranteeFault, SessionFault) as fault:
        print(f"guarantee: {fault}", file=sys.stderr)
        return 2


if __name__ == "__main__":
    sys.exit(main())
