"""Saves the journals of runs by the program that operate/program finds, and has the same program check them.

Of each schedule of examples/: the answers are those of a run that saves no journal, and the journal replays, all of its lines. A
journal with another answer in its last line is found out, and a journal that can't be written is a fault. A journal of more than 100,000
lines replays too, also if each line comes to a read of its own, and its last line is still compared.
"""

import contextlib
import os
import subprocess
import sys
import tempfile
from pathlib import Path
from typing import Optional, Sequence, Tuple, Union

from store_testing import PATIENCE, ROOT
from store_testing.program import program_or_end

PROGRAM = program_or_end()
SCHEDULES = sorted((ROOT / "examples").glob("*.schedule"))
# an answer that no step of the examples has
WRONG = "got 12345"
# so many jobs have so many pairs of lines each: of one job they would be more than 65,536, and then no journal is saved
MANY_JOBS, MANY_PAIRS = 2, 25_000


def ran(words: Sequence[Union[str, Path]], schedule: Optional[Path] = None) -> Tuple[str, str, int]:
    """What the program prints, says on standard error, and its status."""
    text = schedule.read_bytes() if schedule else b""
    done = subprocess.run([PROGRAM, *words], input=text, capture_output=True, check=False, timeout=PATIENCE)
    return done.stdout.decode(), done.stderr.decode(), done.returncode


def replays(schedule: Path, journal: Path) -> None:
    """The saved journal replays, all of it, and the answers are the same with and without one."""
    plain = ran(["run"], schedule)
    assert ran(["run", "--journal", journal], schedule) == plain, "the answers are others with a journal"
    assert plain[1:] == ("", 0), f"got {plain}"
    lines = journal.read_text(encoding="utf-8").splitlines()
    assert lines[0] == "journal 3" and len(lines) > 1, f"got {lines[:2]}"
    told = ran(["replay", journal])
    assert told == (f"replayed {len(lines) - 1}\n", "", 0), f"got {told}"


def many_lines(folder: Path) -> Path:
    """A schedule in which each usage shows the quota of the line before. All of its lines come into the journal."""
    jobs = range(1, MANY_JOBS + 1)
    admissions = "".join(f"admit 0 {job} 64 0\n" for job in jobs)
    pairs = (f"quota 0 {job} 64 {device}\ncmd 0 {job} 1 usage\n" for device in range(MANY_PAIRS) for job in jobs)
    path = folder / "many_lines.schedule"
    path.write_text(admissions + "".join(pairs), encoding="utf-8")
    return path


def replays_line_by_line(schedule: Path, journal: Path) -> None:
    """The saved journal replays, however many lines it has, and however often it is read: from a pipe that gives each line to a read of its
    own."""
    ran(["run", "--journal", journal], schedule)
    lines = journal.read_bytes().splitlines(keepends=True)
    expected = schedule.read_bytes().count(b"\n")
    assert len(lines) == 1 + expected, f"got {len(lines)} lines"
    reading, writing = os.pipe2(os.O_DIRECT)
    with open(reading, "rb") as pipe:
        replay = subprocess.Popen([PROGRAM, "replay", "/dev/stdin"], stdin=pipe, stdout=subprocess.PIPE, stderr=subprocess.PIPE, text=True)
    # one that ends early takes no more
    with open(writing, "wb", buffering=0) as each, contextlib.suppress(BrokenPipeError):
        for line in lines:
            each.write(line)
    out, err = replay.communicate(timeout=PATIENCE)
    told = (out, err, replay.returncode)
    assert told == (f"replayed {expected}\n", "", 0), f"got {told}"


def is_found_out(schedule: Path, journal: Path) -> None:
    """Another answer in the last line."""
    ran(["run", "--journal", journal], schedule)
    *lines, last = journal.read_text(encoding="utf-8").splitlines()
    lines.append(f"{last.rsplit(' = ', 1)[0]} = {WRONG}")
    journal.write_text("".join(f"{line}\n" for line in lines), encoding="utf-8")
    out, err, status = ran(["replay", journal])
    assert (err, status) == ("", 1) and f": had {WRONG}, should be " in out, f"got {out!r}, {err!r}, {status}"


def is_not_written(schedule: Path, journal: Path) -> None:
    """The path is that of a folder."""
    journal.unlink(missing_ok=True)
    journal.mkdir()
    out, err, status = ran(["run", "--journal", journal], schedule)
    assert (err, status) == ("store: output failed\n", 1), f"got {err!r}, {status}"
    assert out == ran(["run"], schedule)[0], "the answers are others"


def main() -> int:
    passed = failed = 0
    with tempfile.TemporaryDirectory() as aside:
        trials = [(case, schedule) for case in (replays, is_found_out, is_not_written) for schedule in SCHEDULES]
        many = many_lines(Path(aside))
        trials += [(case, many) for case in (replays, replays_line_by_line, is_found_out)]
        for case, schedule in trials:
            with tempfile.TemporaryDirectory() as folder:
                try:
                    case(schedule, Path(folder) / "journal")
                    passed += 1
                except AssertionError as fault:
                    print(f"FAILED: {case.__name__}, {schedule.name}: {fault}")
                    failed += 1
    print(f"{passed} passed, {failed} failed")
    return 1 if failed or not passed else 0


if __name__ == "__main__":
    sys.exit(main())
