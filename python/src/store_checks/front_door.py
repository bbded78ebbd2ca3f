"""Comes in by the front door, as a stranger does: in fresh clones of the last commit, with an empty home, and without the Rattle kit or
anything that was built. Does what the front page shows, and serves, shows the guarantee, installs the client, runs an example, makes the
Debian package, and is refused in one line what can't be had.

The clones take the release in dist/. They lie in temporary folders, and go with them. The last line counts the tests; what this machine
hasn't got for one is said.
"""

from __future__ import annotations

import os
import re
import shutil
import signal
import subprocess
import sys
import tempfile
import unittest
import venv
from pathlib import Path
from typing import Dict, List

from store_testing import ROOT

PATIENCE = 200
READY = "store-daemon: ready"
# the longest path of a socket is 107 bytes
LONG = "out/" + "long" * 30
HELLO = """\
import store_client
with store_client.local(memory="1M") as store, store.get(store.put(b"Hello")) as view:
    print(bytes(view).decode())
"""


def shown_blocks() -> List[List[str]]:
    """What the front page shows as it stands, block by block, without the indentation."""
    text = (ROOT / "README.md").read_text(encoding="utf-8")
    blocks = re.findall(r"(?:^    .*\n)+", text, re.M)
    return [[line[4:] for line in block.splitlines()] for block in blocks]


class FrontDoor(unittest.TestCase):
    def setUp(self) -> None:
        folder = tempfile.TemporaryDirectory(prefix="door-")
        self.addCleanup(folder.cleanup)
        self.folder = Path(folder.name)
        self.top = self.folder / "store"
        subprocess.run(["git", "clone", "-q", str(ROOT), str(self.top)], check=True)
        self.names = self.environment()

    def environment(self) -> Dict[str, str]:
        """An empty home, and a path with this Python and the system's programs."""
        home, programs = self.folder / "home", self.folder / "bin"
        home.mkdir()
        programs.mkdir()
        (programs / "python3").symlink_to(sys.executable)
        names = {"HOME": str(home), "PATH": f"{programs}:/usr/bin:/bin", "LC_ALL": "C.UTF-8"}
        self.assertIsNone(shutil.which("rt", path=names["PATH"]))
        return names

    def done(self, words: List[str], **names: str) -> "subprocess.CompletedProcess[str]":
        return subprocess.run(
            words, cwd=self.top, env={**self.names, **names}, stdin=subprocess.DEVNULL, capture_output=True, text=True, timeout=PATIENCE,
            check=False,
        )

    def printed(self, words: List[str], **names: str) -> str:
        done = self.done(words, **names)
        self.assertEqual(done.returncode, 0, done.stdout + done.stderr)
        return done.stdout

    def test_a_server_in_five_lines(self) -> None:
        """Those of the front page, and the operator's look at it. Ctrl-C ends the server, and leaves no socket."""
        clone, serve, *rest = shown_blocks()[0]
        self.assertEqual((len(rest), clone), (3, "git clone URL store && cd store"))
        words = ["bash", "-c", f"exec {serve}"]
        # as a stranger starts it, and not by store_testing
        server = subprocess.Popen(
            words, cwd=self.top, env=self.names, stdin=subprocess.DEVNULL, stdout=subprocess.PIPE, text=True, start_new_session=True
        )
        try:
            assert server.stdout
            said = next((line for line in server.stdout if READY in line), "nothing")
            self.assertIn(READY, said)
            printed = self.printed(["bash", "-ec", "\n".join(rest)]).splitlines()
            self.assertEqual(printed[-1], rest[-1].rpartition("# ")[2])
            usage = self.printed(["operate/storectl", "--control", "out/serve/control", "usage"])
            self.assertRegex(usage, r" 64M +16 ")
        finally:
            os.killpg(server.pid, signal.SIGINT)
            server.communicate(timeout=PATIENCE)
        self.assertEqual([path for path in (self.top / "out/serve").iterdir() if path.is_socket()], [])

    def test_five_lines_of_python(self) -> None:
        """Those of the front page, after its line that installs the client and the program."""
        install = re.search(r"`(pip install [^`]*)`", (ROOT / "README.md").read_text(encoding="utf-8"))
        assert install
        python = shown_blocks()[1]
        self.assertEqual(len(python), 5)
        fresh = self.fresh_environment()
        self.printed(["bash", "-ec", f"{fresh} -m {install[1]} -q --no-cache-dir"])
        self.assertEqual(self.printed([fresh, "-c", "\n".join(python)]), "{'answer': [4, 2]}\n")

    def fresh_environment(self) -> str:
        """The Python of one that has pip, and neither setuptools nor wheel."""
        there = self.folder / "environment"
        venv.create(there, with_pip=True)
        python = str(there / "bin/python3")
        self.printed([python, "-m", "pip", "uninstall", "-q", "-y", "setuptools", "wheel"])
        return python

    def test_the_client_from_its_folder(self) -> None:
        """By pip, without an index; then a server of one's own."""
        fresh = self.fresh_environment()
        self.printed([fresh, "-m", "pip", "install", "-q", "--no-index", "--no-cache-dir", "clients/python"])
        program = self.printed(["operate/program"]).strip()
        self.assertEqual(self.printed([fresh, "-c", HELLO], STORE_PROGRAM=program), "Hello\n")
        # from the checkout itself nothing has to be named
        self.assertEqual(self.printed(["python3", "-c", HELLO], PYTHONPATH="clients/python/src"), "Hello\n")

    def test_the_guarantee_both_ways(self) -> None:
        for words, replies in ((["make", "show-guarantee"], "21 replies"), (["make", "show-guarantee", "SERVED=yes"], " reply frames")):
            last = self.printed(words).splitlines()[-1]
            self.assertIn(replies, last)
            self.assertIn(" the same ", last.replace(",", " "))

    def test_an_example(self) -> None:
        self.printed(["python3", "examples/waiting.py"])

    @unittest.skipUnless(shutil.which("dpkg-deb"), "there is no dpkg-deb")
    def test_the_package(self) -> None:
        self.printed(["make", "deb"])
        made = list((self.top / "dist").glob("*.deb"))
        self.assertEqual(len(made), 1)
        listed = self.printed(["dpkg-deb", "--contents", str(made[0])])
        for name in ("./usr/bin/store", "./usr/lib/store/store_client/__init__.py", "./usr/lib/python3/dist-packages/store_client"):
            self.assertRegex(listed, rf" {re.escape(name)}( -> \S+)?\n")

    def test_what_cant_be_had(self) -> None:
        """One line that says what to do, status 2, and nothing left behind."""
        archive = next((self.top / "dist").glob("*.tar.gz"))
        whole = archive.read_bytes()
        self.refused(["operate/serve", "--folder", LONG], {}, "FOLDER=")
        self.refused(["operate/serve"], {"STORE_PROGRAM": "/no/such/program"}, "STORE_PROGRAM")
        for target in ("gate", "build"):
            self.refused(["make", "-s", target], {}, "kit")
        archive.write_bytes(whole[:-1])
        self.refused(["operate/serve"], {}, "sha256")
        archive.unlink()
        self.refused(["operate/program"], {}, "release")

    def refused(self, words: List[str], names: Dict[str, str], told: str) -> None:
        done = self.done(words, **names)
        lines = [line for line in done.stderr.splitlines() if not line.startswith("make: ***")]
        self.assertEqual((done.returncode, len(lines)), (2, 1), done.stdout + done.stderr)
        self.assertIn(told, lines[0])
        self.assertFalse((self.top / "out").exists() and any((self.top / "out").iterdir()), f"{words} left something")


def main() -> int:
    # a shell has it ignored in the background, and the server is interrupted here
    signal.signal(signal.SIGINT, signal.default_int_handler)
    result = unittest.main(__name__, exit=False).result
    failed = len(result.failures) + len(result.errors)
    for case, reason in result.skipped:
        print(f"left out: {case.id().rpartition('.')[2]}: {reason}")
    print(f"{result.testsRun - failed - len(result.skipped)} passed, {failed} failed")
    return 0 if result.wasSuccessful() else 1


if __name__ == "__main__":
    sys.exit(main())
