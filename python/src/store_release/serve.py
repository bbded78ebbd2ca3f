"""Serves from a folder of this checkout until it is interrupted, with the program that operate/program finds. It prints which one it is,
with its checksum, and how to use it.

The folder has settings and a job's key; the first time it is made.
"""

from __future__ import annotations

import argparse
import hashlib
import os
import shlex
import sys
from pathlib import Path
from typing import List, Optional

from store_operator.first import make_first
from store_operator.settings import LONGEST_SOCKET

from .faults import ROOT, DistFault
from .kept import PLACE
from .program import find_program, find_release

DAEMON = ROOT / "operate/store-daemon"
USUAL_FOLDER = ROOT / "out/serve"
# in the folder, the longest path of a socket, which the server makes
SOCKET = "store.new.0"


def look_at(folder: Path) -> None:
    """A fault if no server can be started from the folder."""
    if len(os.fsencode(folder / SOCKET)) > LONGEST_SOCKET:
        long = f"{folder / SOCKET}, the path of a socket, has more than {LONGEST_SOCKET} bytes"
        raise DistFault(f"{long}: give a shorter folder, as FOLDER=/tmp/store")
    # who has the folder says which program is run
    if (folder / "store.ini").exists() and folder.stat().st_uid != os.geteuid():
        raise DistFault(f"{folder} belongs to another user")


def prepare(folder: Path) -> None:
    """Settings and a key, if there are none yet."""
    if not (folder / "store.ini").exists():
        folder.parent.mkdir(parents=True, exist_ok=True)
        make_first(folder, None)


def said(folder: Path) -> List[str]:
    """What to type in another terminal."""
    place = shlex.quote(str(folder.relative_to(ROOT) if ROOT in folder.parents else folder))
    return [
        "in another terminal, in this folder:",
        f"  export STORE_SOCKET={place}/store.0 STORE_JOB=1 STORE_KEY=$(cat {place}/job1.key)",
        "  echo Hello | operate/store-client put - --id t1.1 && operate/store-client get t1.1",
        f"  operate/storectl --control {place}/control usage",
        "Ctrl-C ends it, and all objects are lost",
    ]


def main(given: Optional[List[str]] = None) -> int:
    options = argparse.ArgumentParser(prog="serve", description=__doc__, formatter_class=argparse.RawDescriptionHelpFormatter)
    options.add_argument("--release", action="store_true", help=f"the release in {PLACE.name}/, also if a program was built or is named")
    options.add_argument("--folder", type=Path, default=USUAL_FOLDER, help="otherwise out/serve; its path must be short")
    words = options.parse_args(given)
    folder = words.folder.absolute()
    try:
        look_at(folder)
        found = find_release() if words.release else find_program()
        digest = hashlib.sha256(found.path.read_bytes()).hexdigest()
        prepare(folder)
    except (DistFault, OSError) as fault:
        print(f"serve: {fault}", file=sys.stderr)
        return 2
    print(f"serve: with {found.line}", file=sys.stderr, flush=True)
    for line in (f"sha256 {digest}", *said(folder)):
        print(f"serve: {line}", flush=True)
    os.environ["STORE_PROGRAM"] = str(found.path)
    os.execv(sys.executable, [sys.executable, str(DAEMON), str(folder / "store.ini")])
