"""A server from a checkout, in one command: which program it takes, what it says of it, and that it serves."""

from __future__ import annotations

import hashlib
import os
import shutil
import signal
import subprocess
import unittest
from pathlib import Path
from typing import List

from checkout import ALL, RELEASE, Checkout
from driving import PATIENCE, PROGRAM, until

CODE = Path(PROGRAM).read_bytes()


class Serving(Checkout):
    """A checkout from which servers are started, which end with it."""

    def __init__(self) -> None:
        super().__init__(ALL)
        self.servers: List["subprocess.Popen[str]"] = []

    def serve(self, *words: str, **more: str) -> "subprocess.Popen[str]":
        said = open(self.top / "out.said", "w")
        with said:
            # this is what is tested, so no other starter stands for it
            server = subprocess.Popen(
                ["make", "-s", "serve", *words], cwd=self.top, stdin=subprocess.DEVNULL, stdout=said, stderr=subprocess.STDOUT, text=True,
                env=self.names(**more), start_new_session=True,
            )
        self.servers.append(server)
        return server

    def refused(self, *words: str, **more: str) -> str:
        status = self.serve(*words, **more).wait(PATIENCE)
        assert status, self.said()
        return self.said()

    def said(self) -> str:
        return (self.top / "out.said").read_text()

    def end(self, server: "subprocess.Popen[str]") -> None:
        """As a terminal does at Ctrl-C."""
        os.killpg(server.pid, signal.SIGINT)
        server.wait(PATIENCE)

    def __enter__(self) -> Serving:
        return self

    def __exit__(self, *given: object) -> None:
        for server in self.servers:
            if server.poll() is None:
                self.end(server)
        super().__exit__(*given)


@unittest.skipUnless(shutil.which("git") and shutil.which("make"), "there is no git, or no make")
class Serves(unittest.TestCase):
    def serves(self, checkout: Serving, *words: str) -> str:
        """Runs what it says to type, and gives what it said before it was ready."""
        server = checkout.serve(*words)
        until(lambda: "store-daemon: ready" in checkout.said() or server.poll() is not None, "ready")
        said = checkout.said()
        self.assertIn("store-daemon: ready", said)
        typed = [line[len("serve:   ") :] for line in said.splitlines() if line.startswith("serve:   ")]
        self.assertEqual(len(typed), 3)
        done = subprocess.run(
            ["sh", "-e", "-c", "\n".join(typed)], cwd=checkout.top, capture_output=True, text=True, check=False, timeout=PATIENCE,
            env=checkout.names(),
        )
        self.assertEqual((done.returncode, done.stdout.split("\n")[:2], done.stderr), (0, ["t1.1", "Hello"], ""))
        checkout.end(server)
        folder = checkout.top / "out/serve"
        self.assertEqual([path.name for path in (folder / "spill/0").iterdir()], [])
        self.assertFalse((folder / "store.0").exists() or (folder / "control").exists())
        return said

    def test_the_release_of_these_sources(self) -> None:
        with Serving() as checkout:
            checkout.keep(CODE)
            said = self.serves(checkout)
            line = f"that of the release {RELEASE}, of commit {checkout.head()[:12]}, 0 commits back, of the crates/ that are here"
            self.assertIn(f"serve: with {line}\n", said)
            self.assertIn(f"serve: sha256 {hashlib.sha256(CODE).hexdigest()}\n", said)
            # the same folder again, now that it is there
            self.serves(checkout)

    def test_a_release_of_other_sources_is_taken_and_told(self) -> None:
        with Serving() as checkout:
            checkout.keep(CODE)
            checkout.source.write_text("of another kind\n")
            self.assertIn("0 commits back, NOT of the crates/ that are here\n", self.serves(checkout))
            self.assertIn("serve: no program was built, and SOURCES=exact refuses that of the release", checkout.refused(SOURCES="exact"))

    def test_the_built_program_comes_first(self) -> None:
        with Serving() as checkout:
            checkout.keep(CODE)
            built = checkout.build(CODE)
            self.assertIn(f"serve: with {built}, which was built of the crates/ that are here, and proved\n", self.serves(checkout))
            self.assertIn(f"serve: with that of the release {RELEASE}, ", self.serves(checkout, "RELEASE=yes"))

    def test_no_program(self) -> None:
        with Serving() as checkout:
            said = checkout.refused()
            self.assertIn(f"serve: no program was built, and there is no release in {checkout.top}/dist; make build takes some hours", said)
            self.assertFalse((checkout.top / "out").exists())

    def test_a_path_that_is_too_long_for_a_socket_is_told(self) -> None:
        with Serving() as checkout:
            checkout.keep(CODE)
            folder = checkout.top / "out" / (100 * "l")
            said = "serve: .* has more than 107 bytes: give a shorter folder, as FOLDER=/tmp/store"
            self.assertRegex(checkout.refused(f"FOLDER={folder}"), said)
            self.assertFalse((checkout.top / "out").exists())

    @unittest.skipUnless(os.geteuid() == 0, "only root can give a folder away")
    def test_a_folder_of_another_user_is_refused(self) -> None:
        with Serving() as checkout:
            checkout.build(CODE)
            folder = checkout.top / "out/theirs"
            folder.mkdir(parents=True)
            (folder / "store.ini").write_text("")
            os.chown(folder, 65534, -1)
            self.assertIn(f"serve: {folder} belongs to another user\n", checkout.refused(f"FOLDER={folder}"))


if __name__ == "__main__":
    unittest.main()
