"""Where a cluster runs: in a place of its own, which goes with all that is in it when the run ends or is ended.

If this may be, the place is a set of Linux namespaces: its own network without a way out, and its own processes. Otherwise
it is a session of processes, and all hosts are 127.0.0.1.
"""

from __future__ import annotations

import contextlib
import importlib.util
import os
import shutil
import signal
import subprocess
import sys
import tempfile
import time
from pathlib import Path
from typing import Callable, List

ROOT = Path(__file__).resolve().parents[2]
sys.path.append(str(ROOT / "examples"))

from serving import program_or_end  # noqa: E402

# of Debian, which has the packages
DEBIAN_PYTHON = "/usr/bin/python3"
_FOLDER, _NETWORK = "STORE_CLUSTER_FOLDER", "STORE_CLUSTER_NETWORK"
_UNSHARE = ["unshare", "--net", "--mount", "--pid", "--fork", "--kill-child", "--mount-proc"]
_AS_USER = ["--user", "--map-root-user"]


def main(run: Callable[[Path], int], seconds: float) -> int:
    """Runs it in a place of its own, for so many seconds at most, with a folder that goes too. Its status.

    If Debian's packages aren't there it says so, and nothing is run.
    """
    if _FOLDER in os.environ:
        return run(Path(os.environ[_FOLDER]))
    name = Path(sys.argv[0]).name
    if not _has_packages():
        if sys.executable != DEBIAN_PYTHON and _debian_has_packages():
            os.execv(DEBIAN_PYTHON, [DEBIAN_PYTHON, "-B", *sys.argv])
        print(f"{name}: LEFT OUT, all of it: {sys.executable} has no distributed or no numpy. Debian's {DEBIAN_PYTHON} has both")
        print(f"{name}: after apt-get install python3-distributed python3-numpy")
        print("0 passed, 0 failed")
        return 0
    return _apart(name, program_or_end(), seconds)


def has_network() -> bool:
    """Whether each host may have a network namespace of its own."""
    return os.environ.get(_NETWORK) == "1"


def _has_packages() -> bool:
    return all(importlib.util.find_spec(name) for name in ("distributed", "numpy"))


def _debian_has_packages() -> bool:
    words = [DEBIAN_PYTHON, "-c", "import distributed, numpy"]
    return os.path.exists(DEBIAN_PYTHON) and not subprocess.run(words, stderr=subprocess.DEVNULL, check=False).returncode


def _unshare() -> List[str]:
    """What gives a process namespaces of its own; nothing if that isn't allowed here."""
    for words in (_UNSHARE, [*_UNSHARE, *_AS_USER]):
        with contextlib.suppress(OSError):
            tried = [*words, "sh", "-c", "ip link add probe type bridge && ip link del probe"]
            if not subprocess.run(tried, stdout=subprocess.DEVNULL, stderr=subprocess.DEVNULL, check=False).returncode:
                return words
    return []


def _apart(name: str, program: str, seconds: float) -> int:
    prefix = _unshare()
    where = "each host is a network namespace" if prefix else "LEFT OUT, the network: namespaces aren't allowed here, all is 127.0.0.1"
    print(f"{name}: {sys.executable}, {program}; {where}", flush=True)
    folder = tempfile.mkdtemp(prefix="store-cluster-")
    words = [*prefix, sys.executable, "-B", *sys.argv]
    around = {**os.environ, "STORE_PROGRAM": program, _FOLDER: folder, _NETWORK: "1" if prefix else "0"}
    # a signal to this process ends the run as an exception does
    signal.signal(signal.SIGTERM, lambda *_: sys.exit(1))
    try:
        with subprocess.Popen(words, env=around, start_new_session=True) as process:
            try:
                return process.wait(seconds)
            except subprocess.TimeoutExpired:
                print(f"{name}: it had not ended after {seconds:.0f} seconds\n0 passed, 1 failed")
                return 1
            finally:
                with contextlib.suppress(ProcessLookupError):
                    os.killpg(process.pid, signal.SIGKILL)
    finally:
        _remove(folder)


def _remove(folder: str) -> None:
    """What was killed may still be writing for a moment."""
    end = time.monotonic() + 30
    while os.path.exists(folder) and time.monotonic() < end:
        shutil.rmtree(folder, ignore_errors=True)
        time.sleep(0.1)
