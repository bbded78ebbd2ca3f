"""All tests that need no proof, side by side, with a line for each part; the last line counts them.

Parts of the sources: the tests of each test crate and the worked schedules, by builds without a proof. They want the Rattle kit; without
it they are left out, and that is said. Parts of the program that operate/program finds, and of what is around it: its sockets, control
connection and journals, the clients, the daemon, the front door, several hosts. Parts of neither: pages, pictures, types of Python, what tests
share, what proofs cite of other crates, and who answers that memory ran out.

With --after-gate the parts of the sources are left out: the gate has run them, with their proofs. Of parts that are named the others are left
out. --list prints their names.
"""

from __future__ import annotations

import argparse
import enum
import os
import re
import shutil
import subprocess
import sys
import time
from concurrent.futures import ThreadPoolExecutor
from pathlib import Path
from typing import Dict, List, NamedTuple, Optional, Sequence, Tuple

from store_testing import ROOT
from store_testing.program import program_or_end

CRATES = ROOT / "crates"
# what stands at the end of what a part prints
COUNTED = re.compile(r"^(\d+) passed, (\d+) failed$", re.MULTILINE)
TRIED = re.compile(r"^test result: \w+\. (\d+) passed; (\d+) failed", re.MULTILINE)
COMPARED = re.compile(r"^(\d+) (?:schedules|frames), (\d+) differ$", re.MULTILINE)
# seconds that a build without a proof may take, and what it builds then
BUILDS, RUNS = 1200, 600
# of what failed, what is shown
SHOWN = 60


class Needs(enum.Enum):
    """What a part can't be run without."""

    NOTHING = "nothing"
    KIT = "the Rattle kit"
    PROGRAM = "a program"


class Part(NamedTuple):
    """A command in a folder, the seconds that it may take, and what it needs."""

    name: str
    words: Sequence[str]
    seconds: int
    needs: Needs
    folder: Path = ROOT


class Came(NamedTuple):
    """What a part came to."""

    part: Part
    passed: int
    failed: int
    seconds: float
    said: str


def script(path: str, seconds: int, needs: Needs = Needs.PROGRAM) -> Part:
    return Part(path.rpartition("/")[2].replace(".py", ""), [sys.executable, "-B", path], seconds, needs)


# those that take longest come first
PARTS = [
    Part("clients", [sys.executable, "-B", "clients/python/tests/test_client.py"], 1800, Needs.PROGRAM),
    Part("daemon", [sys.executable, "-B", "operate/tests/all"], 1800, Needs.PROGRAM),
    Part("cluster", [sys.executable, "-B", "examples/cluster/test.py"], 1600, Needs.PROGRAM),
    script("tests/front_door", 600),
    script("tests/sessions", 400),
    script("tests/control", 400),
    script("tests/shared_bytes", 400),
    script("tests/rust_client", 900),
    script("tests/go_client", 1800),
    Part("conformance", [sys.executable, "-B", "tests/conformance/run"], 1800, Needs.PROGRAM),
    script("tests/journals", 200),
    Part("growths", [sys.executable, "-B", "tests/growths", "refusals_want_no_memory", "a_full_window", "refusals"], 400, Needs.PROGRAM),
    script("tests/growths_served", 200),
    script("tests/pictures", 400),
    script("tests/measuring", 800),
    Part("types", [sys.executable, "-B", "tests/strict"], 600, Needs.NOTHING),
    script("tests/lint", 200, Needs.NOTHING),
    script("tests/pages", 300, Needs.NOTHING),
    script("tests/borders", 100, Needs.NOTHING),
    script("tests/library", 100, Needs.NOTHING),
    script("tests/memory", 100, Needs.NOTHING),
]


def tried_crates() -> List[Part]:
    """The crates with tests, and the program of the worked schedules."""
    named = [path.parent.parent for path in sorted(CRATES.glob("*/src/lib.rt")) if has_tests(path.parent)]
    parts = [Part(crate.name, ["rt", "try", "--test", "--seconds", str(RUNS)], BUILDS, Needs.KIT, crate) for crate in named]
    crate = CRATES / "schedules"
    data = [path.relative_to(crate / "data").as_posix() for path in sorted((crate / "data").rglob("*")) if path.is_file()]
    given = [word for name in data for word in ("--data", f"{name}=data/{name}")]
    words = ["rt", "try", "--seconds", str(RUNS), *given, "--", *(crate / "args").read_text().split()]
    return [Part("schedules", words, BUILDS + RUNS, Needs.KIT, crate), *parts]


def has_tests(sources: Path) -> bool:
    return any("#[test]" in path.read_text(encoding="utf-8") for path in sources.rglob("*.rt"))


def counted(part: Part, said: str, status: Optional[int]) -> Tuple[int, int]:
    """How many tests passed and failed. A part that ends otherwise than well, or that counts none, has failed."""
    if part.name == "schedules":
        pairs = [(int(all_) - int(bad), int(bad)) for all_, bad in COMPARED.findall(said)]
    else:
        found = (TRIED if part.needs is Needs.KIT else COUNTED).findall(said)[-1:]
        pairs = [(int(good), int(bad)) for good, bad in found]
    passed, failed = sum(good for good, _ in pairs), sum(bad for _, bad in pairs)
    if not failed and (status != 0 or not pairs):
        failed = 1
    return passed, failed


def run(part: Part) -> Came:
    """Runs the part and says in a line what it came to; of what failed the end of what it printed, too."""
    began = time.monotonic()
    status: Optional[int] = None
    try:
        done = subprocess.run(
            part.words, cwd=part.folder, stdin=subprocess.DEVNULL, stdout=subprocess.PIPE, stderr=subprocess.STDOUT, timeout=part.seconds,
            check=False,
        )
        said, status = done.stdout.decode(errors="replace"), done.returncode
    except subprocess.TimeoutExpired as late:
        said = (late.stdout or b"").decode(errors="replace") + f"\nhad not ended after {part.seconds} seconds\n"
    except OSError as error:
        said = f"{part.words[0]}: {error.strerror}\n"
    passed, failed = counted(part, said, status)
    came = Came(part, passed, failed, time.monotonic() - began, said)
    lines = [f"{'FAILED' if failed else 'passed'}: {part.name}: {passed} passed, {failed} failed ({came.seconds:.0f} s)"]
    if failed:
        # what wasn't run would hide it
        lines += [f"  {line}" for line in said.splitlines() if not left_out(line)][-SHOWN:]
    else:
        lines += [f"  {line}" for line in said.splitlines() if left_out(line)]
    print("\n".join(lines), flush=True)
    return came


def left_out(line: str) -> bool:
    """Whether a part says here that it didn't run something."""
    return line.startswith(("not run:", "skipped", "left out")) or ": LEFT OUT" in line


def chosen(names: Sequence[str], after_gate: bool) -> Tuple[List[Part], Dict[str, str]]:
    """The parts to run, and why which others aren't."""
    parts, why = [*PARTS, *tried_crates()], {}
    wrong = set(names) - {part.name for part in parts}
    if wrong:
        print(f"all: there is no part {sorted(wrong)[0]}: --list prints their names", file=sys.stderr)
        sys.exit(2)
    parts = [part for part in parts if not names or part.name in names]
    if after_gate:
        parts = [part for part in parts if part.needs is not Needs.KIT]
    elif not shutil.which("rt"):
        why = {part.name: "the Rattle kit isn't here: there is no rt on the path" for part in parts if part.needs is Needs.KIT}
    return [part for part in parts if part.name not in why], why


def side_by_side(parts: Sequence[Part], processors: int) -> List[Came]:
    """A build takes a processor. What is around the program waits much of the time, so that two such parts are one more at most."""
    lanes = {True: ThreadPoolExecutor(max(1, processors - 1)), False: ThreadPoolExecutor(2)}
    running = [lanes[part.needs is Needs.KIT].submit(run, part) for part in parts]
    return [each.result() for each in running]


def main(given: Optional[List[str]] = None) -> int:
    options = argparse.ArgumentParser(description=__doc__, formatter_class=argparse.RawDescriptionHelpFormatter)
    options.add_argument("parts", nargs="*", metavar="PART", help="otherwise all")
    options.add_argument("--after-gate", action="store_true", help="without what the gate has run")
    options.add_argument("--list", action="store_true", help="print the parts' names, and what each needs")
    words = options.parse_args(given)
    if words.list:
        for part in [*PARTS, *tried_crates()]:
            print(f"{part.name}: needs {part.needs.value}")
        return 0
    parts, why = chosen(words.parts, words.after_gate)
    if any(part.needs is Needs.PROGRAM for part in parts):
        program_or_end()
    began = time.monotonic()
    came = side_by_side(parts, os.cpu_count() or 1)
    for name, reason in why.items():
        print(f"left out: {name}: {reason}")
    print(f"{len(came)} parts in {(time.monotonic() - began) / 60:.1f} minutes, {len(why)} left out")
    print(f"{sum(one.passed for one in came)} passed, {sum(one.failed for one in came)} failed")
    return 1 if any(one.failed for one in came) else 0


if __name__ == "__main__":
    sys.exit(main())
