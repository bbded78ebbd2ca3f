"""Where packages are is said once for commands, and by the settings of tools alike."""

from __future__ import annotations

import re
import shutil
import subprocess
import sys
import tempfile
import unittest
from pathlib import Path
from typing import List

from store_testing import ROOT
from store_testing.looks import text_of

SETTINGS = ROOT / "pyproject.toml"
COMMAND = """\
import sys
from pathlib import Path

sys.path.insert(0, str(Path(__file__).resolve().parents[1] / "python"))

from launcher import launch

if __name__ == "__main__":
    launch("spawning", "word")
"""
# a module whose process multiprocessing spawns, which imports the command again
SPAWNING = """\
import multiprocessing, sys

def say(words):
    print(*words)

def main():
    process = multiprocessing.get_context("spawn").Process(target=say, args=(sys.argv[1:],))
    process.start()
    process.join()
    return process.exitcode
"""


def listed(text: str, name: str) -> List[str]:
    """The texts of a list, which may take several lines."""
    found = re.search(rf"^{name} = \[(.*?)\]", text, re.MULTILINE | re.DOTALL)
    assert found, f"there is no {name}"
    return re.findall(r'"([^"]+)"', found[1])


class Layout(unittest.TestCase):
    def test_tools_find_the_packages_that_commands_find(self) -> None:
        said = re.search(r"for place in \((.*)\)\]$", text_of(ROOT / "python/launcher.py"), re.MULTILINE)
        assert said
        places = re.findall(r'"([^"]+)"', said[1])
        settings = text_of(SETTINGS)
        self.assertEqual(listed(settings, "mypy_path")[: len(places)], places)
        for name in ("pythonpath", "extraPaths"):
            self.assertEqual(listed(settings, name), places)
        for place in (*places, *listed(settings, "testpaths")):
            self.assertTrue((ROOT / place).is_dir(), place)

    def test_there_is_no_link(self) -> None:
        # the gate refuses a checkout that has one
        listed = subprocess.run(["git", "ls-files", "-s"], cwd=ROOT, check=True, capture_output=True, text=True).stdout
        self.assertEqual([line for line in listed.splitlines() if line.startswith("120000")], [])

    def test_a_command_is_found_from_any_folder(self) -> None:
        # with -P Python doesn't look beside a script
        for words in ([sys.executable], [sys.executable, "-P"] if sys.version_info >= (3, 11) else [sys.executable]):
            done = subprocess.run([*words, str(ROOT / "tests/model"), "run"], input=b"", cwd="/", capture_output=True, check=False)
            self.assertEqual((done.returncode, done.stdout, done.stderr), (0, b"", b""))

    def test_a_command_may_spawn_processes(self) -> None:
        with tempfile.TemporaryDirectory() as folder:
            top = Path(folder)
            for name in ("python/src", "commands"):
                (top / name).mkdir(parents=True)
            shutil.copy(ROOT / "python/launcher.py", top / "python")
            (top / "commands/command").write_text(COMMAND, encoding="ascii")
            (top / "python/src/spawning.py").write_text(SPAWNING, encoding="ascii")
            words = [sys.executable, str(top / "commands/command"), "another"]
            done = subprocess.run(words, cwd="/", capture_output=True, text=True, check=False)
        self.assertEqual((done.returncode, done.stdout, done.stderr), (0, "word another\n", ""))
