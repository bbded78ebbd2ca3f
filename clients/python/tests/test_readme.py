"""What README.md shows, as it stands there: servers of its own, the server that it starts, the array between two jobs, the program, the
command line. What it installs with is in test_package."""

from __future__ import annotations

import contextlib
import doctest
import importlib.util
import io
import os
import re
import shlex
import subprocess
import sys
import tempfile
import textwrap
import unittest
from pathlib import Path
from typing import Any, Dict, List

from support import PATIENCE, PROGRAM, ROOT

TEXT = (ROOT / "clients/python/README.md").read_text(encoding="utf-8")


def shown(after: str) -> str:
    """The block that follows these words."""
    found = re.search(re.escape(after) + r".*?\n\n((?:    [^\n]*\n|\n)+)", TEXT, re.DOTALL)
    assert found, f"nothing is shown after {after!r}"
    return textwrap.dedent(found[1]).strip() + "\n"


def typed(lines: List[str]) -> List[str]:
    """What is printed by the lines after a dollar, which a shell in the top folder is given. No line may fail or complain."""
    words = ["bash", "-e", "-O", "expand_aliases", "-c", "".join(f"{line[2:]}\n" for line in lines if line.startswith("$ "))]
    place = {"PATH": os.environ["PATH"], "STORE_PROGRAM": PROGRAM}
    done = subprocess.run(words, cwd=ROOT, capture_output=True, text=True, check=False, timeout=PATIENCE, env=place)
    if done.returncode or done.stderr:
        raise AssertionError(f"status {done.returncode}: {done.stderr}")
    return done.stdout.splitlines()


class OfItsOwn(unittest.TestCase):
    """What the page shows with a server of its own."""

    def printed(self, text: str) -> List[str]:
        """What a script of this text prints."""
        with tempfile.TemporaryDirectory() as folder:
            script = Path(folder, "script.py")
            script.write_text(text, encoding="utf-8")
            place = {**os.environ, "STORE_PROGRAM": PROGRAM, "PYTHONPATH": str(ROOT / "clients/python/src")}
            words = [sys.executable, "-B", str(script)]
            done = subprocess.run(words, capture_output=True, text=True, check=False, timeout=PATIENCE, env=place)
        self.assertEqual((done.returncode, done.stderr), (0, ""))
        return done.stdout.splitlines()

    def test_the_first_program(self) -> None:
        self.assertEqual(self.printed(shown("## A store of your own")), ["b'Hello'", "{'a': [1, 2]}"])

    def test_processes(self) -> None:
        self.assertEqual(self.printed(shown("Other processes use the same server")), [str([0, 2, 4, 6, 8, 10, 12, 14])])

    def test_after_a_restart(self) -> None:
        (told,) = self.printed(shown("## After a restart"))
        self.assertTrue(told.startswith("4 LostAtRestart: It was lost: the store was restarted since it was put. (get "), told)

    def test_a_command(self) -> None:
        lines = shown("For a shell or a command").splitlines()
        self.assertEqual(typed(lines), [line for line in lines if not line.startswith("$ ")])


class Readme(unittest.TestCase):
    """At the server that the page starts, in a folder in the place of /tmp."""

    def setUp(self) -> None:
        folder = tempfile.TemporaryDirectory()
        self.addCleanup(folder.cleanup)
        self.tmp = f"{folder.name}/"
        command, *lines = self.here(shown("An array between two jobs")).splitlines()
        words = shlex.split(command.replace("$ $(operate/program)", shlex.quote(PROGRAM)))
        # as the page starts it, and not by store_testing
        self.server = subprocess.Popen(words, stdin=subprocess.PIPE, stdout=subprocess.PIPE, stderr=subprocess.DEVNULL, text=True)
        self.addCleanup(self.end)
        assert self.server.stdin and self.server.stdout
        for asked, answer in zip(lines[::2], lines[1::2]):
            self.server.stdin.write(asked + "\n")
            self.server.stdin.flush()
            self.assertEqual(self.server.stdout.readline(), answer + "\n")

    def here(self, text: str) -> str:
        return text.replace("/tmp/", self.tmp)

    def end(self) -> None:
        """As the page says: it ends once it is told to, and all have left."""
        try:
            told, _ = self.server.communicate("close\n", PATIENCE)
            self.assertIn("report ", told)
        finally:
            self.server.kill()

    def at_a_prompt(self, lines: str) -> Dict[str, Any]:
        """Types the lines, and compares what is printed. The names that there are then."""
        test = doctest.DocTestParser().get_doctest(self.here(lines), {}, "README.md", "README.md", 0)
        told: List[str] = []
        doctest.DocTestRunner(verbose=False).run(test, out=told.append, clear_globs=False)
        self.assertEqual("".join(told), "")
        return test.globs

    @unittest.skipUnless(importlib.util.find_spec("numpy"), "numpy isn't there")
    def test_an_array_between_two_jobs(self) -> None:
        grantor = self.at_a_prompt(shown("job 1 puts an array and grants it to job 2:"))
        grantee = self.at_a_prompt(shown("job 2 gets it."))
        self.assertTrue((grantee["array"] == grantor["numpy"].arange(1_000_000.0).reshape(1000, 1000)).all())
        for names in (grantor, grantee):
            names["store"].close()

    def test_the_program(self) -> None:
        printed = io.StringIO()
        with contextlib.redirect_stdout(printed):
            exec(self.here(shown("## In a program")), {})
        told = printed.getvalue().splitlines()
        self.assertEqual(told[0], "b'Hello'")
        self.assertRegex(told[1], "^7 create .*1000000000 bytes; an object has 1 to 16777216")

    def test_the_command_line(self) -> None:
        lines = self.here(shown("## On the command line")).splitlines()
        self.assertEqual(typed(lines), [line for line in lines if not line.startswith("$ ")])
