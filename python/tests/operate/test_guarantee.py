"""The guarantee is shown at the program: on a schedule, and to a session beside busy ones of another job."""

from __future__ import annotations

import os
import re
import subprocess
import sys
import unittest

from driving import PATIENCE, PROGRAM, ROOT


class Guarantee(unittest.TestCase):
    def last_line(self, *words: str) -> str:
        command = [sys.executable, str(ROOT / "bench/guarantee"), *words]
        names = {**os.environ, "STORE_PROGRAM": PROGRAM}
        done = subprocess.run(command, capture_output=True, text=True, check=False, timeout=PATIENCE, env=names)
        self.assertEqual((done.returncode, done.stderr), (0, ""))
        return done.stdout.splitlines()[-1]

    def test_on_a_schedule(self) -> None:
        self.assertEqual(self.last_line(), "21 replies to job 1, the same without the 17 steps of job 2")

    def test_to_a_session(self) -> None:
        said = re.fullmatch("31 reply frames to job 1, 528 bytes, the same beside ([0-9,]+) commands of job 2", self.last_line("--served"))
        assert said
        self.assertGreaterEqual(int(said[1].replace(",", "")), 31 * 20)


if __name__ == "__main__":
    unittest.main()
