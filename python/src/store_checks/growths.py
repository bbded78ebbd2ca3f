"""Growths of memory refused in turn, in runs of the program on schedules.

Growth N of a run is the N-th piece of memory that the program asks for. It is refused, for N = 1, 2, 3 and so on, until a run asks for no N-th
one (growths.c, which is preloaded, refuses it). What a refused growth may do:

- nothing: answers and saved journal are those of the run in which nothing is refused;
- a step is answered `refused 19 NoMemory`. The run is made again with that step's line written twice: the first is answered so, the second and
  all others are answered as if nothing had been refused, and the journal is the same. It is made once more with looks in between: what each job
  lists and uses at each node is what it was before the step;
- the run ends with `store: no memory`, after right answers and without a journal. So it does for a growth outside a step;
- the program ends before it runs anything, if there was no memory for its command line.

All else is a failure, and shown. And a refusal comes before out of memory: in runs that save no journal a step isn't answered
`refused 19 NoMemory` if another refusal is due, but for a `10 Pending`, which may have asked for a device's work or sent a message, or if
no such message is there. The schedules are the worked ones, but for long ones and those that end in a fault: they evict, spill and
restore, grant, and fetch objects of two chunks. The program is the one that operate/program finds. A C compiler is needed. The last
line counts the growths that were refused.
"""

import argparse
import itertools
import os
import shutil
import subprocess
import sys
import tempfile
from collections import Counter
from concurrent.futures import ThreadPoolExecutor
from pathlib import Path
from typing import Dict, Iterator, List, NamedTuple, Optional, Sequence, Set, Tuple

from store_testing import PATIENCE, ROOT
from store_testing.program import program_or_end

FOLDERS = (ROOT / "examples", ROOT / "crates/schedules/data/worked")
SOURCE = ROOT / "tests/growths.c"
# the schedules that are run at a time
AT_ONCE = 2
NO_MEMORY = "refused 19 NoMemory"
# what a run says that ends since memory ran out, and its status
ENDED = ("store: no memory\n", 1)
# the same of a command line
UNREAD = (("Error: Kind(OutOfMemory)\n", 1), ("error: out of memory\n", 2))
# what growths.c says of the growth that it refused
REFUSED = "refused\n"


class Run(NamedTuple):
    """What is printed, what is said and the status, whether a growth was refused, and the journal."""

    answers: List[str]
    ended: Tuple[str, int]
    refused: bool
    journal: Optional[str]


class Wrong(Exception):
    """A refused growth did what it may not do."""


class Schedule:
    """A schedule with its answers."""

    def __init__(self, path: Path) -> None:
        self.name = path.stem
        self.lines = path.read_text(encoding="utf-8").splitlines(keepends=True)
        self.due = path.with_suffix(".expected").read_text(encoding="utf-8").splitlines()
        words = path.with_suffix(".args")
        self.words = words.read_text(encoding="utf-8").split() if words.exists() else ["run"]
        # where the steps stand among the lines
        self.places = [place for place, line in enumerate(self.lines) if not line.startswith(("#", "\n"))]
        self._looks = list(self._look())

    def _look(self) -> Iterator[str]:
        """Lines by which each job looks at what it has wherever it is admitted. They change nothing."""
        words = (self.lines[place].split() for place in self.places)
        admitted = {(line[1], line[2]) for line in words if line[0] == "admit" and line[2] != "0"}
        for (node, job), look in itertools.product(sorted(admitted), ("list", "usage")):
            yield f"cmd {node} {job} 1 {look}\n"

    def is_fit(self, most: int) -> bool:
        """Whether it runs to its end, in at most so many lines, and what is due are its answers alone."""
        is_run = self.words[:1] == ["run"] and "--journal" not in self.words
        return is_run and 0 < len(self.places) == len(self.due) and len(self.lines) <= most

    def with_looks(self, step: int) -> Tuple[List[str], int]:
        """The lines with looks before this step, and how many looks."""
        place = self.places[step]
        return self.lines[:place] + self._looks + self.lines[place:], len(self._looks)

    def twice(self, step: int, looks: Sequence[str] = ()) -> List[str]:
        """The lines with this step's written twice, and looks in between."""
        place = self.places[step]
        return [*self.lines[: place + 1], *looks, *self.lines[place:]]

    def again(self, step: int) -> List[str]:
        """The same with looks in between."""
        return self.twice(step, self._looks)


class Trial:
    """Runs of one schedule, the growths of which are refused in turn."""

    def __init__(self, schedule: Schedule, program: str, shim: Path, folder: str) -> None:
        self._schedule = schedule
        self._command = [program, *schedule.words]
        self._shim = shim
        self._folder = Path(folder)
        self._plain = self._run(schedule.lines)
        if (self._plain.answers, self._plain.ended) != (schedule.due, ("", 0)):
            raise Wrong(f"with nothing refused: {self._plain.ended}, {difference(self._plain.answers, schedule.due)}")
        # by step, what is seen before it, and all answers after that
        self._seen: Dict[int, List[str]] = {}
        # the growths that were refused, the steps that were answered out of memory, and how often each thing came of a growth
        self.refused = 0
        self.steps: Set[int] = set()
        self.came: Counter[str] = Counter()

    def _run(self, lines: Sequence[str], turn: int = 0, saves: bool = True) -> Run:
        """A run of the lines in which the growth of this turn is refused; none at 0. It saves a journal, or none."""
        journal = self._folder / "journal"
        journal.unlink(missing_ok=True)
        done = subprocess.run(
            [*self._command, *(("--journal", "journal") if saves else ())],
            input="".join(lines),
            capture_output=True,
            text=True,
            check=False,
            timeout=PATIENCE,
            cwd=self._folder,
            env={"LD_PRELOAD": str(self._shim), "STORE_REFUSED": str(turn)},
        )
        said = done.stderr.removeprefix(REFUSED)
        saved = journal.read_text(encoding="utf-8") if journal.exists() else None
        return Run(done.stdout.splitlines(), (said, done.returncode), said != done.stderr, saved)

    def refuse_all(self) -> Iterator[str]:
        """Refuses growth after growth until a run meets none, and gives what was wrong."""
        for turn in itertools.count(1):
            run = self._run(self._schedule.lines, turn)
            if not run.refused:
                if run != self._plain:
                    yield f"{turn}, which no run met: {difference(run.answers, self._schedule.due)}"
                return
            self.refused += 1
            try:
                self.came[self._judge(run, turn)] += 1
            except Wrong as fault:
                yield f"{turn}: {fault}"

    def refuse_without_journal(self) -> Iterator[str]:
        """The same in runs that save no journal: gives the steps that were answered out of memory though something else was due."""
        for turn in itertools.count(1):
            run = self._run(self._schedule.lines, turn, saves=False)
            if not run.refused:
                return
            self.refused += 1
            for step, (told, right) in enumerate(zip(run.answers, self._schedule.due), 1):
                if told != right and comes_first(right) and told == refusal(right):
                    yield f"{turn} without a journal: answer {step} is {told!r}, and {right!r} was due"

    def _judge(self, run: Run, turn: int) -> str:
        """What came of the refused growth."""
        due = self._schedule.due
        if run.ended == ENDED and run.answers == due[: len(run.answers)] and not run.journal:
            return "ended the run"
        if run.ended in UNREAD and not run.answers and not run.journal:
            return "ended the program before"
        if run == self._plain._replace(refused=True):
            return "made no difference"
        step = next((step for step, (told, right) in enumerate(zip(run.answers, due)) if told != right), None)
        if run.ended != ("", 0) or step is None or run.answers[step] != refusal(due[step]):
            raise Wrong(f"{run.ended}, {difference(run.answers, due)}")
        self._try_again(step, turn)
        self.steps.add(step)
        return "answered"

    def _try_again(self, step: int, turn: int) -> None:
        """The step is refused, has changed nothing, and is answered as it should be at once afterwards."""
        due = self._schedule.due
        run = self._run(self._schedule.twice(step), turn)
        expected = due[:step] + [refusal(due[step])] + due[step:]
        if run != self._plain._replace(answers=expected, refused=True):
            raise Wrong(f"step {step + 1} tried again: {run.ended}, {difference(run.answers, expected)}, {journals(run, self._plain)}")
        seen = self._seen_before(step)
        expected = due[:step] + [refusal(due[step])] + seen + due[step:]
        run = self._run(self._schedule.again(step), turn)
        if (run.answers, run.ended, run.refused) != (expected, ("", 0), True):
            raise Wrong(f"looks after the refused step {step + 1}: {run.ended}, {difference(run.answers, expected)}")

    def _seen_before(self, step: int) -> List[str]:
        """What the jobs see if they look before this step, which makes no difference to what is answered."""
        if step not in self._seen:
            lines, count = self._schedule.with_looks(step)
            run = self._run(lines)
            due = self._schedule.due
            if run.answers[:step] + run.answers[step + count :] != due:
                raise Wrong(f"looks before step {step + 1}: {run.ended}, {difference(run.answers, due)}")
            self._seen[step] = run.answers[step : step + count]
        return self._seen[step]


def comes_first(answer: str) -> bool:
    """Whether out of memory may not stand in its place."""
    words = answer.split()
    return words[-1] == "none" or "refused" in words and words[-2:] != ["10", "Pending"]


def refusal(answer: str) -> str:
    """The line by which a step is answered that memory ran out, in the place of this one."""
    words = answer.split()
    prefix = words[:1] if words[0] == "net" else words[:2] if words[1] in ("op", "dev") else words[:3]
    return " ".join([*prefix, NO_MEMORY])


def difference(told: Sequence[str], due: Sequence[str]) -> str:
    """Where the lines first differ."""
    for number, (line, right) in enumerate(itertools.zip_longest(told, due), 1):
        if line != right:
            return f"answer {number} is {line!r}, should be {right!r}"
    return "the answers are right"


def journals(run: Run, plain: Run) -> str:
    return "the journal is the same" if run.journal == plain.journal else "the journal is another"


def compiled(compiler: str, folder: str) -> Path:
    """What is preloaded, in this folder."""
    shim = Path(folder) / "growths.so"
    subprocess.run([compiler, "-O2", "-shared", "-fPIC", "-o", shim, SOURCE], check=True)
    return shim


def tried(schedule: Schedule, program: str, shim: Path) -> Counter[str]:
    """Tries a schedule, prints what came of it, and gives how many growths were refused, and how many of them wrongly."""
    with tempfile.TemporaryDirectory() as folder:
        try:
            trial = Trial(schedule, program, shim, folder)
        except Wrong as fault:
            print(f"FAILED: {schedule.name}: {fault}")
            return Counter(refused=1, wrong=1)
        wrong = [*trial.refuse_all(), *trial.refuse_without_journal()]
    came = trial.came
    for line in wrong:
        print(f"FAILED: {schedule.name}: growth {line}")
    print(
        f"{schedule.name}: {trial.refused} refused: {came['answered']} answered 19 at {len(trial.steps)} of {len(schedule.due)} steps,"
        f" {came['ended the run']} ended the run, {came['ended the program before']} before it,"
        f" {came['made no difference']} made no difference",
        flush=True,
    )
    return Counter(refused=trial.refused, wrong=len(wrong)) + came


def chosen(asked: argparse.Namespace) -> List[Schedule]:
    """The schedules that are tried, the longest first."""
    paths = [path for folder in FOLDERS for path in sorted(folder.glob("*.schedule"))]
    fit = [schedule for schedule in map(Schedule, paths) if schedule.is_fit(asked.lines)]
    if asked.names:
        fit = [schedule for schedule in fit if schedule.name in asked.names]
    return sorted(fit, key=lambda schedule: -len(schedule.lines))


def main() -> int:
    options = argparse.ArgumentParser(description=__doc__, formatter_class=argparse.RawDescriptionHelpFormatter)
    options.add_argument("names", nargs="*", help="schedules to try; otherwise all that fit")
    options.add_argument("--lines", type=int, default=200, help="the most lines of a schedule that is tried (200)")
    asked = options.parse_args()
    program = program_or_end()
    compiler = shutil.which(os.environ.get("CC", "cc"))
    if not compiler:
        print("growths: there is no C compiler cc, nor one that CC names", "0 passed, 1 failed", sep="\n")
        return 1
    with tempfile.TemporaryDirectory() as folder, ThreadPoolExecutor(AT_ONCE) as pool:
        shim = compiled(compiler, folder)
        schedules = chosen(asked)
        came: Counter[str] = sum(pool.map(lambda schedule: tried(schedule, program, shim), schedules), Counter())
    print(
        f"{len(schedules)} schedules: {came['refused']} growths refused, {came['answered']} steps answered 19, {came['ended the run']} runs ended"
    )
    print(f"{came['refused'] - came['wrong']} passed, {came['wrong']} failed")
    return 1 if came["wrong"] or not came["refused"] else 0


if __name__ == "__main__":
    sys.exit(main())
