"""What a test looks at in the files of the repository, and what is wrong there."""

from __future__ import annotations

from functools import lru_cache
from pathlib import Path
from typing import List

from . import ROOT


class Looks:
    """How many things were looked at, and the faults."""

    def __init__(self) -> None:
        self._count = 0
        self._faults: List[str] = []

    def look(self, path: Path, line: int, what: str, good: bool) -> None:
        """Counts one thing that was looked at; it is a fault if it is wrong."""
        self._count += 1
        if not good:
            self._faults.append(f"{path.relative_to(ROOT)}:{line}: {what}")

    def end(self, name: str) -> int:
        """Prints the faults and the counts. The status of the test of this name."""
        print("".join(f"{name}: {fault}\n" for fault in self._faults), end="")
        print(f"{self._count - len(self._faults)} passed, {len(self._faults)} failed")
        return 1 if self._faults else 0


@lru_cache(maxsize=None)
def text_of(path: Path) -> str:
    return path.read_text(encoding="utf-8")
