"""A disk that is full now and then."""

from __future__ import annotations

import errno
import random
import subprocess
import threading
import time
from pathlib import Path

# seconds for which the disk has room, and is full
_ROOMY, _FULL = (3.0, 10.0), (1.0, 4.0)
_PIECE = 1 << 16


class Disk:
    """A small disk in memory, which is full now and then. Only root may have one."""

    def __init__(self, folder: Path, mebibytes: int) -> None:
        self._folder = folder
        # how often it was full
        self.times = 0
        folder.mkdir(mode=0o700)
        words = ["mount", "-t", "tmpfs", "-o", f"size={mebibytes}M,mode=700", "disk", str(folder)]
        subprocess.run(words, check=True, capture_output=True)

    def fill_and_empty(self, over: threading.Event, lot: random.Random) -> None:
        """Until it is over."""
        filler = self._folder / "filler"
        while not over.wait(lot.uniform(*_ROOMY)):
            _fill(filler)
            self.times += 1
            over.wait(lot.uniform(*_FULL))
            filler.unlink()

    def remove(self) -> None:
        """Whoever looked into it last may be at it for a moment yet."""
        for _ in range(50):
            if subprocess.run(["umount", str(self._folder)], capture_output=True).returncode == 0:
                return
            time.sleep(0.2)
        subprocess.run(["umount", str(self._folder)], check=True)


def _fill(path: Path) -> None:
    """Takes all that is left."""
    with open(path, "wb", buffering=0) as file:
        try:
            while True:
                file.write(bytes(_PIECE))
        except OSError as error:
            if error.errno != errno.ENOSPC:
                raise
