"""The test of a client in another language, by that language's tool: at a server with two nodes and two jobs."""

from __future__ import annotations

import os
import shutil
import tempfile
from typing import Callable, Dict, Sequence, Tuple

from .counting import tell
from .frames import key
from .program import program_or_end
from .server import Server

# seconds for one part; the first one builds, on a machine that does much else
PATIENCE = 400
# bytes of each job's window
WINDOWS = {1: 1 << 26, 2: 1 << 20}

# what a test comes to, in the environment that names the server, with a folder for what is built: how much passed and failed
Parts = Callable[[Dict[str, str], str], Tuple[int, int]]


def run_client_test(language: str, tool: str, about: str, parts: Parts, words: Sequence[str]) -> int:
    """The status of a test of this command line, which may name another program. Without the tool it says that the client is left out."""
    if words[:1] == ["--help"]:
        print(about.strip())
        return 0
    if shutil.which(tool) is None:
        print(f"left out: the {language} client wants {tool}\n0 passed, 0 failed")
        return 0
    with tempfile.TemporaryDirectory() as folder:
        passed, failed = _served(words or [program_or_end()], folder, parts)
    print(f"{passed} passed, {failed} failed")
    return 1 if failed else 0


def _served(words: Sequence[str], folder: str, parts: Parts) -> Tuple[int, int]:
    """The counts of all parts, and of the server's end: its report has to be right."""
    with Server(words, folder, nodes=2, memory=2 * WINDOWS[1], patience=PATIENCE) as server:
        server.await_ready()
        for job, window in WINDOWS.items():
            server.admit_everywhere(job, window)
        environment = {
            **os.environ, "STORE_SOCKET": server.path(0), "STORE_OTHER_SOCKET": server.path(1), "STORE_JOB": "1",
            "STORE_KEY": key(1).hex(), "STORE_OTHER_JOB": "2", "STORE_OTHER_KEY": key(2).hex(),
        }
        passed, failed = parts(environment, folder)
        fault = server.ends_badly()
        good, bad = tell("the server's report", int(not fault), int(bool(fault)), fault)
        return passed + good, failed + bad
