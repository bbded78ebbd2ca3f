"""Draws what `storectl top` shows of two looks at a server, which a file has: the same lines, with each bar as one."""

from __future__ import annotations

import argparse
import json
import re
import sys
from pathlib import Path
from typing import Any, Dict, Iterator, List, NamedTuple

from store_operator.asking import UsageRow
from store_operator.counts import read_counts
from store_operator.top import Seen, top_text

from .drawing import COLOURS, INK, PALE_INK, Drawing

WIDTH, MARGIN, TOP, LINE, TYPE = 960, 16, 52, 22, 12
GROUND, EMPTY = "#eef1f4", "#dddddd"
CELL = re.compile(r"\[[#.]+\]|[^ ]+")


class Cell(NamedTuple):
    """A word of the table, and the columns that it takes."""

    text: str
    first: int
    end: int


def read_looks(path: Path) -> List[Seen]:
    """The earlier one first."""
    given: Dict[str, Any] = json.loads(path.read_text())
    looks = (given[name] for name in ("last", "seen"))
    return [_seen(look) for look in looks]


def _seen(look: Dict[str, Any]) -> Seen:
    return Seen(look["moment"], look["status"], tuple(UsageRow(*row) for row in look["rows"]), read_counts(look["counts"]))


def cells(line: str) -> Iterator[Cell]:
    for found in CELL.finditer(line):
        yield Cell(found[0], found.start(), found.end())


class Picture:
    def __init__(self, lines: List[str]) -> None:
        self.header, self.table = lines[:2], lines[3:]
        self.drawing = Drawing(WIDTH, TOP + LINE * len(lines) - 12, "What storectl top shows")
        self.column = (WIDTH - 2 * MARGIN) / max(map(len, self.table))
        self.drawing.text(MARGIN, 24, "$ storectl top", TYPE + 1, colour=PALE_INK)
        for number, line in enumerate(self.header):
            self.drawing.text(MARGIN, TOP + number * LINE, line, TYPE + 1)
        for number, line in enumerate(self.table):
            self.row(TOP + (number + 3) * LINE - 8, line, number == 0)

    def row(self, y: float, line: str, is_head: bool) -> None:
        if is_head:
            self.drawing.box(0, y - LINE + 7, WIDTH, LINE, GROUND)
        for cell in cells(line):
            if cell.text.startswith("["):
                self.bar(y, cell)
            else:
                self.drawing.text(MARGIN + cell.end * self.column, y, cell.text, TYPE, "end", PALE_INK if is_head else INK)

    def bar(self, y: float, cell: Cell) -> None:
        """As wide as its letters."""
        inside = cell.text[1:-1]
        left, width = MARGIN + cell.first * self.column, len(cell.text) * self.column
        self.drawing.box(left, y - 11, width, 14, EMPTY)
        self.drawing.box(left, y - 11, width * inside.count("#") / len(inside), 14, COLOURS[0])


def main() -> int:
    options = argparse.ArgumentParser(prog="top_picture", description=__doc__)
    options.add_argument("looks", type=Path, help="two looks, as JSON")
    options.add_argument("-o", dest="drawn", type=Path, required=True, metavar="SVG")
    words = options.parse_args()
    last, seen = read_looks(words.looks)
    Picture(top_text(seen, last).splitlines()).drawing.save(words.drawn)
    return 0


if __name__ == "__main__":
    sys.exit(main())
