"""Draws the crates by layer, as crates.txt has them, with their minutes of docs/GATE.md, and the gate's longest chain in red.

A line leads from a crate to one that names it, unless that follows from other lines. Tests have none. The chain is the one of the crates
whose proofs wait for one another that has most minutes in all; a crate of which the gate's page has no minutes counts as none.
"""

from __future__ import annotations

import argparse
import re
import sys
from pathlib import Path
from typing import Dict, Iterable, List, NamedTuple, Set, Tuple

from store_testing import ROOT

from .drawing import COLOURS, PALE_INK, Drawing, wrapped

RED, LINK = "#cc2222", "#b4bcc4"
# in pixels
WIDTH, LEFT, RIGHT, TOP = 900, 132, 8, 56
BOX_HEIGHT, GAP, ROW_GAP, MOST_IN_ROW = 34, 16, 30, 6
BOX_WIDTH = (WIDTH - LEFT - RIGHT - GAP * (MOST_IN_ROW - 1)) / MOST_IN_ROW
NAME, SMALL = 11.5, 11
# minutes of a proof that are drawn as the darkest ground
DARKEST = 24
# of a chain's line above or below the boxes between
ASIDE = 9


class Missing(Exception):
    """Something that the picture needs isn't in the files."""


class Layer(NamedTuple):
    """A section of crates.txt."""

    title: str
    crates: Tuple[str, ...]


class Crates(NamedTuple):
    layers: Tuple[Layer, ...]
    # of each crate, which crates of the repository it names
    named: Dict[str, Set[str]]


class Place(NamedTuple):
    left: float
    top: float
    row: int


def read_crates(text: str) -> Crates:
    layers: List[Tuple[str, List[str]]] = []
    libraries: Dict[str, List[str]] = {}
    for line in text.splitlines():
        crate, colon, named = line.partition(":")
        if line.startswith("# "):
            layers.append((line[2:].split(", in ")[0], []))
        elif colon:
            layers[-1][1].append(crate)
            libraries[crate] = named.split()
    found = tuple(Layer(title, tuple(crates)) for title, crates in layers if crates)
    return Crates(found, {crate: {one for one in named if one in libraries} for crate, named in libraries.items()})


def read_minutes(text: str) -> Dict[str, float]:
    """Of each crate the minutes of its proof, by the table of the gate's page."""
    rows = re.findall(r"^\| `(\w+)` \| ([\d.]+) \|", text, re.M)
    if not rows:
        raise Missing("docs/GATE.md has no table of minutes")
    return {crate: float(minutes) for crate, minutes in rows}


def longest_chain(named: Dict[str, Set[str]], minutes: Dict[str, float]) -> List[str]:
    """Crates each of which waits for the one before, with most minutes in all."""
    chains: Dict[str, List[str]] = {}

    def total(chain: Iterable[str]) -> float:
        return sum(minutes.get(crate, 0) for crate in chain)

    def chain_to(crate: str) -> List[str]:
        if crate not in chains:
            below = [chain_to(one) for one in sorted(named[crate])]
            chains[crate] = max(below, key=total, default=[]) + [crate]
        return chains[crate]

    return max((chain_to(crate) for crate in named), key=total)


def reduced(named: Dict[str, Set[str]]) -> Dict[str, Set[str]]:
    """What each crate names, without what the crates that it names stand on."""
    below: Dict[str, Set[str]] = {}

    def all_below(crate: str) -> Set[str]:
        if crate not in below:
            below[crate] = named[crate].union(*(all_below(one) for one in named[crate]))
        return below[crate]

    return {crate: {one for one in ones if not any(one in all_below(other) for other in ones)} for crate, ones in named.items()}


class Picture:
    """Layers from above, lowest first: what is proved first is above."""

    def __init__(self, crates: Crates, minutes: Dict[str, float]) -> None:
        self.crates, self.minutes = crates, minutes
        self.chain = longest_chain(crates.named, minutes)
        self.places: Dict[str, Place] = {}
        self.tops: List[float] = []
        bottom = self.place_all()
        self.drawing = Drawing(WIDTH, bottom + 8, "The crates by layer, and the gate's longest chain")
        self.head()
        for number, layer in enumerate(crates.layers):
            self.ground(layer, self.tops[number], self.tops[number + 1] if number + 1 < len(self.tops) else bottom)
        self.links()
        self.chain_links()
        for layer in crates.layers:
            for crate in layer.crates:
                self.box(crate)

    def place_all(self) -> float:
        """Gives each crate its place: rows of so many, a layer after the other. Where the last layer ends."""
        row, top = 0, float(TOP)
        for layer in self.crates.layers:
            self.tops.append(top)
            for number, crate in enumerate(layer.crates):
                if number and number % MOST_IN_ROW == 0:
                    row, top = row + 1, top + BOX_HEIGHT + ROW_GAP
                left = LEFT + (number % MOST_IN_ROW) * (BOX_WIDTH + GAP)
                self.places[crate] = Place(left, top + ROW_GAP / 2, row)
            row, top = row + 1, top + BOX_HEIGHT + ROW_GAP
        return top

    def head(self) -> None:
        total = sum(self.minutes.get(crate, 0) for crate in self.chain)
        chain = f"The longest chain of proofs: {len(self.chain)} crates, {total:.1f} minutes of a processor"
        self.drawing.text(8, 20, chain, 13, colour=RED)
        lines = "A line leads to a crate that names the one above it; what follows from others isn't drawn, nor are tests'."
        self.drawing.text(8, 40, f"Minutes are of a proof. {lines}", SMALL, colour=PALE_INK)

    def ground(self, layer: Layer, top: float, bottom: float) -> None:
        self.drawing.box(0, top + 2, WIDTH, bottom - top - 4, "#f3f5f7")
        for number, line in enumerate(wrapped(layer.title, LEFT - 24)):
            self.drawing.text(8, top + ROW_GAP / 2 + 14 + 14 * number, line)

    def links(self) -> None:
        """Straight lines, below the boxes."""
        tests = set(self.crates.layers[-1].crates)
        for crate, below in reduced(self.crates.named).items():
            for one in sorted(below if crate not in tests else ()):
                self.drawing.line(self.way(one, crate), LINK, 1)

    def chain_links(self) -> None:
        for one, crate in zip(self.chain, self.chain[1:]):
            way, end = self.way(one, crate), self.places[crate]
            if self.places[one].row != end.row:
                # down, across and down, so that it keeps apart from the boxes
                (start_x, start_y), (end_x, end_y) = way
                way = [(start_x, start_y), (start_x, end_y - ASIDE), (end_x, end_y - ASIDE), (end_x, end_y)]
            self.drawing.arrow(way, RED, 2.5)

    def way(self, one: str, crate: str) -> "List[Tuple[float, float]]":
        """From a crate to a later one: side by side, below the boxes between, or down."""
        start, end = self.places[one], self.places[crate]
        if start.row != end.row:
            return [(start.left + BOX_WIDTH / 2, start.top + BOX_HEIGHT), (end.left + BOX_WIDTH / 2, end.top)]
        middle = start.top + BOX_HEIGHT / 2
        if abs(end.left - start.left) < BOX_WIDTH + 2 * GAP:
            return [(start.left + BOX_WIDTH, middle), (end.left, middle)]
        low = start.top + BOX_HEIGHT + ASIDE
        first, last = start.left + BOX_WIDTH * 0.75, end.left + BOX_WIDTH * 0.25
        return [(first, low - ASIDE), (first, low), (last, low), (last, low - ASIDE)]

    def box(self, crate: str) -> None:
        place, minutes = self.places[crate], self.minutes.get(crate)
        dark = 0.1 + 0.5 * min((minutes or 0) / DARKEST, 1)
        self.drawing.box(place.left, place.top, BOX_WIDTH, BOX_HEIGHT, "white")
        self.drawing.box(place.left, place.top, BOX_WIDTH, BOX_HEIGHT, COLOURS[0], COLOURS[0], dark)
        if crate in self.chain:
            left, top, right, bottom = place.left, place.top, place.left + BOX_WIDTH, place.top + BOX_HEIGHT
            self.drawing.line([(left, top), (right, top), (right, bottom), (left, bottom), (left, top)], RED, 2.5)
        self.drawing.text(place.left + 6, place.top + 14, crate, NAME)
        said = "no minutes known" if minutes is None else f"{minutes:g} min"
        self.drawing.text(place.left + 6, place.top + 28, said, SMALL)


def main() -> int:
    options = argparse.ArgumentParser(description=__doc__, formatter_class=argparse.RawDescriptionHelpFormatter)
    options.add_argument("-o", "--output", type=Path, required=True, metavar="SVG", help="the file that is written")
    asked = options.parse_args()
    try:
        crates = read_crates((ROOT / "crates.txt").read_text(encoding="utf-8"))
        minutes = read_minutes((ROOT / "docs/GATE.md").read_text(encoding="utf-8"))
        Picture(crates, minutes).drawing.save(asked.output)
    except (OSError, Missing) as error:
        print(f"crates_picture: {error}", file=sys.stderr)
        return 1
    return 0


if __name__ == "__main__":
    sys.exit(main())
