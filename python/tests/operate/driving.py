"""What tests of the daemon share: a folder with settings and a daemon that serves from it, which store_testing has, and what they try."""

from __future__ import annotations

import json
import os
import signal
import subprocess
import sys
from pathlib import Path
from typing import Dict, List, Tuple

from store_testing import ROOT as ROOT
from store_testing.daemon import DAEMON as DAEMON
from store_testing.daemon import KEY as KEY
from store_testing.daemon import Place as Place
from store_testing.daemon import fill as fill
from store_testing.daemon import is_running as is_running
from store_testing.daemon import listens as listens
from store_testing.program import program_or_end
from store_testing.waiting import until as until

PROGRAM = program_or_end()
CTL = str(ROOT / "operate/storectl")
CLIENT = str(ROOT / "operate/store-client")
STANDS_IN = str(Path(__file__).with_name("standing_in.py"))
# seconds that an answer or an end may take, on a machine that does much else
PATIENCE = 60.0


class Counting(Place):
    """Its server counts what the file says. Nobody watches, if the options don't say otherwise."""

    def __init__(self, nodes: int = 1, **options: str) -> None:
        super().__init__(nodes, (1,), None, program=STANDS_IN, **{"watch": "0", **options})

    def __enter__(self) -> Counting:
        return self

    def serve(self, **told: str) -> None:
        self.tell(told)
        self.start_ready(names={"STANDS_FOR": PROGRAM})

    def tell(self, told: Dict[str, str]) -> None:
        """Each line's answer, with `_` for a space in the line."""
        part = self.path / "counts.part"
        part.write_text(json.dumps({line.replace("_", " "): answer for line, answer in told.items()}))
        part.replace(self.path / "counts")


def ctl_words(place: Place, *words: str) -> List[str]:
    """The words that start storectl."""
    return [sys.executable, CTL, "--control", str(place.path / "control"), *words]


def ctl(place: Place, *words: str) -> Tuple[int, str, str]:
    """The status of storectl, and what is printed and complained of."""
    done = subprocess.run(ctl_words(place, *words), capture_output=True, text=True, check=False, timeout=PATIENCE)
    return done.returncode, done.stdout, done.stderr


def crash(place: Place) -> int:
    """Kills the server. The process of the next one, once it serves."""
    ready = len(place.said())
    os.kill(place.server(), signal.SIGKILL)
    until(lambda: len(place.said()) > ready, "ready again")
    return place.server()
