"""What the examples share: a server of one node for as long as an example runs, with jobs 1 and 2."""

from __future__ import annotations

import contextlib
import os
import subprocess
import sys
import tempfile
from pathlib import Path
from typing import Iterator

ROOT = Path(__file__).resolve().parents[1]
sys.path[:0] = [str(ROOT / "clients/python/src"), str(ROOT / "python/src")]

try:
    from store_release.program import program_or_end as program_or_end
except ImportError:
    # in a release, which has its program in bin/
    def program_or_end() -> str:
        return os.environ.get("STORE_PROGRAM", str(ROOT.parents[2] / "bin/store"))


KEYS = {1: bytes([1]) * 32, 2: bytes([2]) * 32}
WINDOWS = {1: 2**23, 2: 2**10}


@contextlib.contextmanager
def served() -> Iterator[str]:
    """The path of the socket, once both jobs are admitted."""
    program = program_or_end()
    with tempfile.TemporaryDirectory() as folder, tempfile.TemporaryFile("w+") as complaints:
        # not by what starts servers for tests: a release has the examples, and no tests
        words = [program, "serve", "--socket", f"{folder}/store", "--nodes", "1", "--memory", str(2**24), "--spill", f"{folder}/spill"]
        with subprocess.Popen(words, stdin=subprocess.PIPE, stdout=subprocess.PIPE, stderr=complaints, text=True) as server:
            assert server.stdin and server.stdout
            for job, window in WINDOWS.items():
                server.stdin.write(f"admit 0 {job} {window} 0 {KEYS[job].hex()}\n")
                server.stdin.flush()
                if server.stdout.readline() != "n0 op ok\n":
                    complaints.seek(0)
                    raise SystemExit(f"the server admits no job: {complaints.read()}")
            yield f"{folder}/store.0"
            server.communicate("close\n")
