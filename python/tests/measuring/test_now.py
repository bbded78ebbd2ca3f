"""What bench/serve --now prints of what was told, which release it takes, and what it writes where; and the whole command, with small settings."""

from __future__ import annotations

import hashlib
import os
import re
import shutil
import subprocess
import sys
import tempfile
import unittest
from pathlib import Path
from typing import Dict, List, Optional, Sequence

from store_bench.now_table import (
    BEGIN, END, FLOOR, FRONT_BEGIN, FRONT_END, FRONT_WIDTH, NOW, PLACES, REDIS, RELEASE, Found, Made, between, cell, figure_of, front_faults,
    front_text, head_line, pairs, ratio_of, rows, speed, text_of, turns, written,
)
from store_bench.serving_now import FLOODING, VICTIM, clients_of, program_of_now
from store_bench.serving_rows import KIB, Told
from store_release.archive import pack
from store_release.contents import Content
from store_release.kept import newest_other
from store_release.proved import PROVED, told_of
from store_testing import PATIENCE, ROOT
from store_testing.program import program_or_end

MADE = Made(
    "2026-12-01", "0123abcd", "store 0.6.0 of the crates/ of this commit, proved", "release 0.5.0 of commit 4567cdef, proved", "7.0.15",
    4, 0.5, 3.94, 3, 1,
)
# how fast each place is
SPEEDS = {NOW: 300, RELEASE: 200, REDIS: 600, FLOOR: 3000}
# what a page may have around it
PAGE = f"# Figures\n\n{BEGIN}\n\nold\n\n{END}\n\nmore\n"


def told(times: float, median: float = 0, percentile_99: float = 0) -> Told:
    return Told(times, 1, median, percentile_99, percentile_99)


def found_of(places: Sequence[str], largest: int = 1 << 20) -> Found:
    """In three rounds, of which the machine is half as fast in the second, and fast in the third for the program of now alone."""
    found: Found = {}
    for group in turns(places, largest):
        for place, ask in group:
            own = SPEEDS[place] / (4 if ask.elsewhere else 1)
            rounds = [own, own / 2, own * (2 if place == NOW else 1)]
            found[place, ask] = [told(one, one / 1000, one / 100) for one in rounds]
    return found


class Figures(unittest.TestCase):
    def test_medians(self) -> None:
        self.assertEqual(figure_of([told(30), told(10), told(20)], speed), 20)
        self.assertEqual(figure_of([Told(30, 2), Told(10, 2)], speed), 10)

    def test_ratios_are_of_a_round(self) -> None:
        ratio = ratio_of([told(30), told(10), told(20)], [told(60), told(40), told(10)], speed)
        self.assertEqual(tuple(ratio), (0.5, 0.25, 2))
        self.assertEqual(str(ratio), "0.50 (0.25 to 2.00)")

    def test_nothing_is_measured_twice_and_all_that_is_needed(self) -> None:
        for places in (PLACES, (NOW, FLOOR), (NOW, REDIS, FLOOR)):
            asked = [turn for group in turns(places) for turn in group]
            self.assertEqual(len(asked), len(set(asked)))
            due = {(place, row.at(place)) for row in rows() for place in places if row.at(place)}
            due |= {(place, ask) for pair in pairs() for ask in (pair.ask, pair.other) for place in (NOW, RELEASE) if place in places}
            self.assertEqual(set(asked), due)

    def test_names_are_there_once(self) -> None:
        names = [row.name for row in rows()] + [pair.name for pair in pairs()]
        self.assertEqual(len(names), len(set(names)))

    def test_what_the_default_takes(self) -> None:
        # seconds of a round, with a tenth more for what isn't timed
        seconds = 1.1 * sum(2 if ask.jobs else 1 for group in turns(PLACES) for _, ask in group)
        self.assertLessEqual(5 * seconds, 12 * 60)


class Clients(unittest.TestCase):
    def test_of_puts_and_gets(self) -> None:
        asks = {row.name: row for row in rows()}
        row = asks["get 64 KiB, 4 connections"]
        self.assertEqual(clients_of("f", NOW, row.ask), [("f/now/store.0", job) for job in (1, 2, 3, 4)])
        assert row.redis
        self.assertEqual(clients_of("f", REDIS, row.redis), [("f/redis.0", job) for job in (1, 2, 3, 4)])
        row = asks["get 64 KiB, 4 connections over 4 nodes"]
        self.assertEqual(clients_of("f", RELEASE, row.ask), [(f"f/release/store.{job - 1}", job) for job in (1, 2, 3, 4)])
        floor = row.at(FLOOR)
        assert floor
        self.assertEqual(clients_of("f", FLOOR, floor), [("f/floor", job) for job in (1, 2, 3, 4)])

    def test_of_floods(self) -> None:
        floods = [ask for pair in pairs() for ask in (pair.ask, pair.other) if ask.jobs]
        self.assertEqual(len(set(floods)), 4)
        for ask in floods:
            (neighbour, *others) = clients_of("f", NOW, ask)
            self.assertEqual(neighbour, ("f/now/store.0", VICTIM))
            self.assertEqual({path for path, _ in others}, {"f/now-elsewhere/store.0" if ask.elsewhere else "f/now/store.0"})
            self.assertEqual([job for _, job in others], [FLOODING] * 32 if ask.jobs == 1 else list(range(1, 33)))


class Text(unittest.TestCase):
    def test_the_head(self) -> None:
        line = (
            "2026-12-01, commit 0123abcd: store 0.6.0 of the crates/ of this commit, proved, beside release 0.5.0 of commit 4567cdef, proved, "
            "Redis 7.0.15 and the floor; 4 processors, load 0.5 at the begin and 3.9 at the end; 3 rounds of 1 s a figure."
        )
        self.assertEqual(head_line(MADE), line)
        alone = head_line(MADE._replace(release="", redis="", rounds=1, seconds=0.05))
        self.assertIn("proved, beside the floor; 4", alone)
        self.assertIn("1 round of 0.05 s", alone)

    def test_the_tables(self) -> None:
        lines = text_of(MADE, found_of(PLACES)).splitlines()
        self.assertEqual(lines[0], head_line(MADE))
        for line in (
            "| In the same rounds | Now | To the last release | To Redis | To the floor |",
            "| put 1 KiB in one trip, 1 connection | 300.0 a second | 1.50 (1.50 to 3.00) | 0.50 (0.50 to 1.00) | 0.10 (0.10 to 0.20) |",
            "| get 1 MiB, 4 connections | 314.6 MB/s | 1.50 (1.50 to 3.00) | 0.50 (0.50 to 1.00) | 0.10 (0.10 to 0.20) |",
            "| get 64 KiB, 4 connections over 4 nodes | 19.7 MB/s | 1.50 (1.50 to 3.00) | - | 0.10 (0.10 to 0.20) |",
            "| commands, 16 at once, 16 connections | 4,800 a second | 1.50 (1.50 to 3.00) | - | 0.10 (0.10 to 0.20) |",
            "| commands a second, 16 at once: 4 connections to 1 | 4,800 | 4,800 | 1.00 (1.00 to 1.00) | 1.00 (1.00 to 1.00) |",
            "| a neighbour's p99 beside 32 sessions of one job, us: to the same at another server | 3,000 | 750.0 | 4.00 (4.00 to 4.00) | "
            "4.00 (4.00 to 4.00) |",
        ):
            self.assertIn(line, lines)
        # two tables, of two lines more than rows
        self.assertEqual(sum(line.startswith("|") for line in lines), len(rows()) + len(pairs()) + 4)

    def test_what_is_left_out(self) -> None:
        text = text_of(MADE, found_of((NOW, FLOOR), KIB), KIB)
        self.assertIn("| get 1 KiB in one trip, 4 connections | 300.0 a second | - | - | 0.10 (0.10 to 0.20) |", text)
        self.assertIn(": 16 connections to 1 | 4,800 | 4,800 | 1.00 (1.00 to 1.00) | - |", text)
        self.assertNotIn("MiB", text)


class Pages(unittest.TestCase):
    def test_what_stands_between_marks(self) -> None:
        begin, end = f"{BEGIN}\n\n", f"\n\n{END}"
        self.assertEqual(between(PAGE, begin, end), "old")
        new = written(PAGE, begin, end, "new\n\ntext")
        self.assertEqual(new, PAGE.replace("old", "new\n\ntext"))
        self.assertEqual(written(new, begin, end, "old"), PAGE)
        for wrong in (PAGE.replace(BEGIN, ""), PAGE.replace(END, ""), PAGE + PAGE, f"{END}\n\n{BEGIN}\n\nold"):
            with self.assertRaises(ValueError):
                written(wrong, begin, end, "new")

    def test_the_marks_stand_on_the_pages(self) -> None:
        between((ROOT / "bench/RESULTS.md").read_text(encoding="utf-8"), f"{BEGIN}\n\n", f"\n\n{END}")
        between((ROOT / "README.md").read_text(encoding="utf-8"), FRONT_BEGIN, FRONT_END)

    def test_a_cell(self) -> None:
        text = text_of(MADE, found_of(PLACES))
        self.assertEqual(cell(text, "get 64 KiB, 4 connections", "To Redis"), "0.50 (0.50 to 1.00)")
        self.assertEqual(cell(text, "get 64 KiB, 4 connections, MB/s: one node to 4", "Ratio"), "1.00 (1.00 to 1.00)")
        self.assertIsNone(cell(text, "get 64 KiB, 4 connections, MB/s: one node to 4", "To Redis"))
        self.assertIsNone(cell(text, "get 2 KiB", "To Redis"))

    def test_the_front_page_says_what_was_measured(self) -> None:
        text = text_of(MADE, found_of(PLACES))
        front = front_text(MADE, text)
        self.assertEqual(front_faults(front, text), [])
        self.assertIn("| Redis = 1 | 1 KiB in one trip | 64 KiB | 1 MiB |\n", front)
        self.assertIn("| the store's gets | 0.50 (0.50 to 1.00) | 0.50 (0.50 to 1.00) | 0.50 (0.50 to 1.00) |\n", front)
        # no more lines than it had: how long the page may be is bounded
        self.assertLessEqual(len(front.splitlines()), 7)
        self.assertLessEqual(max(len(line) for line in front.splitlines()), FRONT_WIDTH)
        other = front.replace("| 0.50", "| 0.60", 1)
        self.assertEqual(len(front_faults(other, text)), 1)
        self.assertEqual(len(front_faults(front, text.replace("get 1 MiB, 4", "get 2 MiB, 4"))), 1)
        self.assertEqual(front_faults("nothing", text), ["it has no figures beside Redis"])


class Programs(unittest.TestCase):
    def keep(self, folder: Path, version: str, program: bytes) -> None:
        top = f"store-{version}-x86_64-linux"
        text = told_of(program, "4567cdef" * 5, "sources", True, None)
        archive = folder / f"{top}.tar.gz"
        archive.write_bytes(pack({"bin/store": Content(program, True), PROVED: Content(text.encode(), False)}, top, 0))
        archive.with_name(f"{archive.name}.sha256").write_text(f"{hashlib.sha256(archive.read_bytes()).hexdigest()}  {archive.name}\n")

    def test_the_newest_release_that_is_not_measured(self) -> None:
        with tempfile.TemporaryDirectory() as name:
            folder = Path(name)

            def taken(program: bytes) -> Optional[str]:
                kept = newest_other(program, folder)
                return kept.version if kept else None

            self.assertIsNone(taken(b"mine"))
            self.keep(folder, "0.9.0", b"nine")
            self.keep(folder, "0.10.0", b"ten")
            self.keep(folder, "0.2.0", b"two")
            self.assertEqual([taken(program) for program in (b"mine", b"two", b"ten")], ["0.10.0", "0.10.0", "0.9.0"])

    def test_how_a_program_is_described(self) -> None:
        with tempfile.TemporaryDirectory() as name:
            program = Path(name, "program")
            program.write_text("#!/bin/sh\necho store 0.6.0\n")
            program.chmod(0o700)
            self.assertEqual(program_of_now(program).text, "store 0.6.0, of which nothing else is known")
            for is_proved, word in ((True, "proved"), (False, "NOT proved")):
                note = told_of(program.read_bytes(), "4567cdef" * 5, "sources", is_proved, None)
                Path(name, "program.proved").write_text(note)
                self.assertEqual(program_of_now(program).text, f"store 0.6.0 of the crates/ of commit 4567cdef, {word}")


@unittest.skipIf(shutil.which("cc") is None, "cc isn't there")
class Command(unittest.TestCase):
    def run_now(self, *words: str, **more: str) -> "subprocess.CompletedProcess[str]":
        command = [sys.executable, "-B", str(ROOT / "bench/serve"), "--now", *words]
        return subprocess.run(command, capture_output=True, text=True, check=False, timeout=6 * PATIENCE, env={**os.environ, **more})

    def test_a_trial(self) -> None:
        """Of small objects, so that a build that is slow may be tried, too."""
        program = program_or_end()
        done = self.run_now("--rounds", "1", "--seconds", "0.01", "--largest", str(KIB), STORE_PROGRAM=program)
        self.assertEqual(done.returncode, 0, done.stderr)
        lines = done.stdout.splitlines()
        self.assertRegex(lines[0], r"^\d{4}-\d\d-\d\d, commit \w+.*; \d+ processors, load .*; 1 round of 0.01 s a figure\.$")
        names = [line.split(" | ")[0][2:] for line in lines if line.startswith("| ")]
        due: List[str] = ["In the same rounds", *(row.name for row in rows(KIB)), "At one program", *(pair.name for pair in pairs(KIB))]
        self.assertEqual(names, due)
        # nothing of this machine is on the page
        self.assertEqual(re.findall(r"/\w+/\w+", done.stdout), [])

    def test_what_does_not_go_together(self) -> None:
        refused: Dict[str, Sequence[str]] = {
            "without --native and --svg": ("--native",), "a trial isn't written": ("--write", "--quick"),
            "there is nothing to measure": ("--rounds", "-1"),
        }
        for text, words in refused.items():
            done = self.run_now(*words)
            self.assertEqual((done.returncode, done.stdout), (2, ""))
            self.assertIn(text, done.stderr)


if __name__ == "__main__":
    unittest.main()
