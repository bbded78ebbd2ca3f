"""Which program a server of one's own is run from."""

from __future__ import annotations

import functools
import os
import shutil
import subprocess
import sys
from pathlib import Path
from typing import Optional

from .refusals import NotStarted

_WAYS = (
    "name it in STORE_PROGRAM, or install the package store-server by pip, or put `store` of a release on PATH, or use the client in a"
    " checkout of the repository that has a release or a built program"
)


def find_program() -> str:
    """Its path: the first of those that `_WAYS` says. `NotStarted` if there is none."""
    named = os.environ.get("STORE_PROGRAM")
    if named and not shutil.which(os.path.abspath(named)):
        raise NotStarted(f"STORE_PROGRAM names {named}, which is no program")
    found = named or _of_package() or shutil.which("store") or _of_checkout()
    if not found:
        raise NotStarted(f"there is no program of a server: {_WAYS}")
    return os.path.abspath(found)


def _of_package() -> Optional[str]:
    try:
        from store_server import path
    except ImportError:
        return None
    return str(path())


@functools.lru_cache(maxsize=None)
def _of_checkout() -> Optional[str]:
    """What the repository's own command finds, if this package lies in the repository. It says which one that is, once."""
    folder = Path(__file__).resolve().parent
    if folder.parts[-4:] != ("clients", "python", "src", "store_client"):
        return None
    command = folder.parents[3] / "operate/program"
    if not command.exists():
        return None
    done = subprocess.run([sys.executable, str(command)], stdin=subprocess.DEVNULL, capture_output=True, text=True, check=False)
    if done.returncode:
        raise NotStarted(f"{done.stderr.strip()}; otherwise {_WAYS}")
    sys.stderr.write(done.stderr)
    return done.stdout.strip()
