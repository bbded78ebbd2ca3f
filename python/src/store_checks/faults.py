"""The test crates with allocations failing: in run N of a crate allocation N of each of its tests fails. The gate makes none fail.

A test may pass. It may also end since memory ran out, and say so: by its error, or by a reply, a fault or a frame that it found in place
of what was due. Anything else is a failure, and shown: another value, an error that hides what it was, a fault, a hang, a race. The tests
of what comes after memory ran out have to pass.

A run builds anew and takes about half a minute; tests/faults 1-60 makes sixty of each crate. The tests of threads aren't run: a thread
that ends would leave another one waiting. The last line counts the tests, once for each run.
"""

from __future__ import annotations

import argparse
import os
import re
import shutil
import subprocess
import sys
from pathlib import Path
from typing import Dict, Iterator, List, NamedTuple, Set

from store_testing import ROOT

CRATES = """words_tests copy_tests job_tests node_tests device_tests cluster_tests text_tests frame_tests session_tests call_tests
    program_tests""".split()
NUMBERS = ["1", "2", "3", "5", "8", "13"]
# seconds after which a run hangs: rt itself gives the tests 60
PATIENCE = 600

# by crate, the tests of what comes after memory ran out
OF_MEMORY = {
    "words_tests": re.compile(r"ids::a_list_keeps_what_it_had_where_memory_is_wanting"),
    "copy_tests": re.compile(r"pins::sessions_hold_and_tasks_borrow"),
    "cluster_tests": re.compile(r"steps::\w+_that_wanted_memory_\w+"),
    "frame_tests": re.compile(r"memory::\w+"),
    "call_tests": re.compile(r"trials::a_session_is_left_though_memory_runs_out"),
}

RESULT = re.compile(r"test (\S+) \.\.\. (ok|FAILED)")
# how a test ends of itself: by an error, or by what it found
ENDED = re.compile(r"the test exited with status 101|\S+: the test was killed by signal 6 \(SIGABRT\)")
ERROR = re.compile(r"error: (?P<found>.*)")
# what `same!` and `assert_eq!` show
DIFFERENCE = re.compile(
    r".*Difference \{ found: (?P<found>.*), due: (?P<due>.*) \}|assertion .*\n *left: (?P<left>.*)\n *right: (?P<right>.*)", re.S
)
# OutOfMemory, the variants of refusals, faults and errors of streams, their words, and a reply's frame that refuses with 19
NO_MEMORY = re.compile(r"\b(?:NoMemory|OutOfMemory|Err\(Memory\)|no memory|out of memory|2, 143, 19)(?!\w)")
# a run in which tests ended: all passed, or some didn't
ENDED_RUN = re.compile(r"run=ended status=(?:0|101) (?!.*races=(?!unchecked)).*")

# folders that tests of devices make, and remove only at their end
TEMPORARY = Path("/tmp")
FOLDER = re.compile(r"(?:devices|restoring)-\d+(?:-\w+)?")


class Outcome(NamedTuple):
    """What a test came to, and what it said."""

    test: str
    is_ok: bool
    said: List[str]


class Run(NamedTuple):
    """What the tests of a crate came to with one allocation failing, and why there may be no more of them; nothing if all ended."""

    outcomes: List[Outcome]
    fault: str


def outcomes_in(printed: str) -> Iterator[Outcome]:
    """Each test's, and the lines below it that are set in."""
    outcome = None
    for line in printed.splitlines():
        result = RESULT.fullmatch(line)
        if result:
            outcome = Outcome(result[1], result[2] == "ok", [])
            yield outcome
        elif outcome and line.startswith("    "):
            outcome.said.append(line[4:])


def run_of(crate: str, number: int) -> Run:
    command = ["rt", "try", "--test", "--fail-alloc", str(number)]
    try:
        ended = subprocess.run(
            command, cwd=ROOT / "crates" / crate, stdout=subprocess.PIPE, stderr=subprocess.STDOUT, text=True, timeout=PATIENCE
        )
    except subprocess.TimeoutExpired:
        return Run([], f"no end after {PATIENCE} seconds")
    lines = ended.stdout.splitlines() or [""]
    outcomes = list(outcomes_in(ended.stdout))
    if f"tests: {len(outcomes)}" not in lines:
        return Run(outcomes, "\n".join([f"status {ended.returncode}"] + lines))
    if ended.returncode not in (0, 101) or not ENDED_RUN.fullmatch(lines[-1]):
        return Run(outcomes, f"status {ended.returncode}: {lines[-1]}")
    return Run(outcomes, "")


def is_out_of_memory(said: List[str]) -> bool:
    """Whether a test that failed says that memory ran out, and nothing but that."""
    if not said or not ENDED.fullmatch(said[-1]):
        return False
    text = "\n".join(line for line in said[:-1] if not line.startswith("the test failed: "))
    shown = DIFFERENCE.fullmatch(text)
    if shown:
        found, due = shown["found"] or shown["left"], shown["due"] or shown["right"]
        return bool(NO_MEMORY.search(found)) and not NO_MEMORY.search(due)
    error = ERROR.fullmatch(text)
    return bool(NO_MEMORY.search(error["found"] if error else text))


def has_passed(crate: str, outcome: Outcome) -> bool:
    if outcome.is_ok:
        return True
    of_memory = OF_MEMORY.get(crate)
    return not (of_memory and of_memory.fullmatch(outcome.test)) and is_out_of_memory(outcome.said)


def own_folders() -> Set[Path]:
    """Folders of tests that this user made."""
    folders = (path for path in TEMPORARY.iterdir() if FOLDER.fullmatch(path.name))
    return {path for path in folders if path.lstat().st_uid == os.getuid()}


def remove(paths: Set[Path]) -> None:
    for path in paths:
        if path.is_dir():
            shutil.rmtree(path)
        else:
            path.unlink()


def failures_of(crate: str, run: Run) -> List[str]:
    """What is shown of the run's failures."""
    wrong = [outcome for outcome in run.outcomes if not has_passed(crate, outcome)]
    shown = ["\n    ".join([outcome.test] + outcome.said) for outcome in wrong]
    of_memory = OF_MEMORY.get(crate)
    if of_memory and not any(of_memory.fullmatch(outcome.test) for outcome in run.outcomes):
        shown.append(f"no test is {of_memory.pattern}")
    return shown + ([run.fault] if run.fault else [])


def try_out(crate: str, number: int, count: Dict[str, int]) -> None:
    before = own_folders()
    try:
        run = run_of(crate, number)
    finally:
        remove(own_folders() - before)
    failures = failures_of(crate, run)
    passed = sum(has_passed(crate, outcome) for outcome in run.outcomes)
    whole = sum(outcome.is_ok for outcome in run.outcomes)
    print(f"{crate}, allocation {number}: {whole} passed, {passed - whole} out of memory, {len(failures)} failed", flush=True)
    for failure in failures:
        print(f"{crate}, allocation {number}: {failure}", flush=True)
    count["passed"] += passed
    count["failed"] += len(failures)


def numbers_in(text: str) -> List[int]:
    """Of one number, or of a first and a last one."""
    parts = re.fullmatch(r"([1-9]\d{0,6})(?:-([1-9]\d{0,6}))?", text)
    if not parts:
        raise argparse.ArgumentTypeError(f"{text!r} is no number from 1 on, and no two such as 1-60")
    return list(range(int(parts[1]), int(parts[2] or parts[1]) + 1))


def arguments() -> argparse.Namespace:
    parser = argparse.ArgumentParser(description=__doc__, formatter_class=argparse.RawDescriptionHelpFormatter)
    parser.add_argument(
        "numbers", nargs="*", metavar="N", type=numbers_in, help=f"which allocations fail, such as 7 or 1-60 (default: {' '.join(NUMBERS)})"
    )
    parser.add_argument(
        "--crate", action="append", choices=CRATES, metavar="NAME", help="of this crate alone; may be given again (default: all)"
    )
    return parser.parse_args()


def main() -> int:
    asked = arguments()
    if not shutil.which("rt"):
        print("faults: rt isn't on the PATH: it is Rattle's command, which builds the tests", file=sys.stderr)
        return 2
    numbers = [number for some in asked.numbers or map(numbers_in, NUMBERS) for number in some]
    count = {"passed": 0, "failed": 0}
    for crate in asked.crate or CRATES:
        for number in numbers:
            try_out(crate, number, count)
    print(f"{count['passed']} passed, {count['failed']} failed")
    return 1 if count["failed"] else 0


if __name__ == "__main__":
    sys.exit(main())
