"""The examples print what they say."""

from __future__ import annotations

import importlib.util
import os
import re
import subprocess
import sys
import unittest
from pathlib import Path

from support import PATIENCE, PROGRAM, ROOT


class Examples(unittest.TestCase):
    def lines_of(self, name: str) -> list[str]:
        """What the example prints."""
        place = {**os.environ, "STORE_PROGRAM": PROGRAM, "PYTHONDONTWRITEBYTECODE": "1"}
        words = [sys.executable, str(ROOT / "examples" / name)]
        done = subprocess.run(words, capture_output=True, env=place, check=False, timeout=PATIENCE, text=True)
        self.assertEqual((done.returncode, done.stderr), (0, ""))
        return done.stdout.splitlines()

    def test_numbers_pass_along(self) -> None:
        lines = self.lines_of("pipeline.py")
        totals = [sum(number * number for number in range(start, start + 100_000)) for start in (0, 100_000, 200_000)]
        self.assertEqual(lines[:3], [f"the squares add up to {total}; the numbers themselves: refused 13 NotGranted" for total in totals])
        self.assertEqual(lines[3:], ["job 2 has 0 copies of its own, and 3 objects were granted to it"])

    @unittest.skipIf(importlib.util.find_spec("numpy") is None, "numpy isn't there")
    def test_an_array_goes_from_job_to_job(self) -> None:
        told = "job 2 got float32 (3, 4), which add up to 66; writeable: False"
        self.assertEqual(self.lines_of("arrays.py"), [told, "job 2 has 0 copies of its own"])

    def test_a_pool_of_processes_counts_words(self) -> None:
        self.assertEqual(self.lines_of("process_pool.py"), ["a 300, store 300, of 200"])

    def test_many_coroutines_wait(self) -> None:
        self.assertEqual(self.lines_of("waiting.py"), [f"the squares of 1 to 20 add up to {20 * 21 * 41 // 6}"])

    def test_each_example_is_run_here(self) -> None:
        run = set(re.findall(r'lines_of\("(\w+)\.py"\)', Path(__file__).read_text(encoding="utf-8")))
        self.assertEqual({file.stem for file in (ROOT / "examples").glob("*.py")} - {"serving"}, run)
