"""A repository that stands in for this one: what a program and a release need of it, crates of its own, and one commit or more."""

from __future__ import annotations

import hashlib
import os
import shutil
import subprocess
import sys
import tempfile
from pathlib import Path
from typing import Dict, Sequence

from store_release.archive import pack
from store_release.contents import Content
from store_release.faults import ROOT
from store_release.proved import PROVED, told_of

# seconds that a script may take, on a machine that does much else
PATIENCE = 60.0
# of this repository, what scripts need, and what a release and a server need besides
SCRIPTS = ("operate", "python", "clients/python/backend")
ALL = ("operate", "python", "clients", "docs", "examples", "README.md", "LICENSE", "Makefile")
GIT = ("git", "-c", "user.name=tests", "-c", "user.email=tests@localhost", "-c", "commit.gpgsign=false")
# what says which program is taken
CHOICES = ("STORE_PROGRAM", "SOURCES")
# a program that does nothing but say which one it is
SCRIPT = b"#!/bin/sh\necho store 0.1.0\n"
RELEASE = "store-0.1.0-x86_64-linux"


class Checkout:
    """It is removed with all that is in it."""

    def __init__(self, needed: Sequence[str] = SCRIPTS) -> None:
        self._folder = tempfile.TemporaryDirectory(prefix="store-")
        self.top = Path(self._folder.name) / "checkout"
        self.top.mkdir()
        for name in needed:
            there = ROOT / name
            if there.is_dir():
                shutil.copytree(there, self.top / name)
            else:
                shutil.copy(there, self.top / name)
        (self.top / ".gitignore").write_text("out/\n__pycache__/\n")
        self.source = self.top / "crates/store_server/main"
        self.program = self.top / "crates/store_server/out/store_server"
        self.note = self.program.with_name("store_server.proved")
        self.archive = self.top / "dist" / f"{RELEASE}.tar.gz"
        self.source.parent.mkdir(parents=True)
        self.source.write_text("of one kind\n")
        self.git("init", "-q")
        self.commit()

    def git(self, *words: str) -> str:
        done = subprocess.run([*GIT, *words], cwd=self.top, check=True, capture_output=True, text=True, timeout=PATIENCE)
        return done.stdout.strip()

    def commit(self) -> str:
        """All that is there; the commit's name."""
        self.git("add", "-A")
        self.git("commit", "-q", "--allow-empty", "-m", "all")
        return self.head()

    def head(self) -> str:
        return self.git("rev-parse", "HEAD")

    def tree(self) -> str:
        """The crates/ of the last commit."""
        return self.git("rev-parse", "HEAD:crates")

    def names(self, **more: str) -> Dict[str, str]:
        return {**{name: value for name, value in os.environ.items() if name not in CHOICES}, **more}

    def run(self, script: str, *words: str, **more: str) -> "subprocess.CompletedProcess[str]":
        """A script of operate/, with more in its environment."""
        command = [sys.executable, str(self.top / "operate" / script), *words]
        return subprocess.run(command, check=False, capture_output=True, text=True, env=self.names(**more), timeout=PATIENCE)

    def ran(self, script: str, *words: str, **more: str) -> str:
        """What it prints, if it does its work."""
        done = self.run(script, *words, **more)
        assert done.returncode == 0, f"{script}: status {done.returncode}: {done.stderr}"
        return done.stdout.rstrip("\n")

    def build(self, program: bytes = SCRIPT, proved: str = "yes") -> Path:
        """The program lies where a build leaves it, and is noted."""
        self.program.parent.mkdir(parents=True, exist_ok=True)
        self.program.write_bytes(program)
        self.program.chmod(0o700)
        self.ran("note-program", "--proved", proved)
        return self.program

    def keep(self, program: bytes = SCRIPT) -> Path:
        """A release with this program, of the last commit, is in dist/ now, with nothing else in it."""
        text = told_of(program, self.head(), self.tree(), True, None)
        files = {"bin/store": Content(program, True), PROVED: Content(text.encode(), False)}
        self.archive.parent.mkdir(exist_ok=True)
        self.archive.write_bytes(pack(files, RELEASE, 0))
        self.note_archive()
        return self.archive

    def note_archive(self) -> None:
        """The checksum beside the release is right."""
        digest = hashlib.sha256(self.archive.read_bytes()).hexdigest()
        self.archive.with_name(f"{self.archive.name}.sha256").write_text(f"{digest}  {self.archive.name}\n")

    def unpacked(self) -> Path:
        """Where the release's program is unpacked to."""
        return self.top / "out/release" / hashlib.sha256(self.archive.read_bytes()).hexdigest()[:16] / "bin/store"

    def __enter__(self) -> Checkout:
        return self

    def __exit__(self, *_: object) -> None:
        self._folder.cleanup()
