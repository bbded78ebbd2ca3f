"""Draws a page of what `storectl metrics` prints, which a file has: the server, the windows as bars, and tables of what is counted.

Each section names the families that it is drawn from. A bar beside a number is its part of the greatest one of its family.
"""

from __future__ import annotations

import argparse
import re
import sys
from pathlib import Path
from typing import Dict, List, NamedTuple, Sequence, Tuple

from store_operator.counts import COMMANDS
from store_operator.sizes import size_text

from .drawing import COLOURS, INK, PALE_INK, Drawing, wrapped
from .top_picture import EMPTY, GROUND, MARGIN, WIDTH

BEFORE, ENDING = "store_", "_total"
SAMPLE = re.compile(BEFORE + r"([a-z_]+)(?:\{(.*)\})? (\S+)")
LABEL = re.compile(r'([a-z]+)="([^"]*)"')
# in pixels
LINE, HEADING, KEY, WIDEST, GAP, ASIDE = 20, 24, 44, 130, 22, 8
HALF = (WIDTH - 3 * MARGIN) / 2
TYPE, SMALL = 12, 10
# of the server, as many beside each other
BESIDE = 5
SERVER = (
    "up", "uptime_seconds", "restarts_total", "nodes", "look_seconds", "resident_bytes", "processor_seconds_total", "threads",
    "descriptors", "descriptors_needed", "admissions_total", "quota_changes_total", "jobs_ended_total", "usage_faults", "counts_faults",
)
# each with what it is a part of, and the left side of its bar
WINDOWS = (("window_used_bytes", "window_bytes", 108), ("device_used_bytes", "device_bytes", 458))
BAR = 180
BESIDE_WINDOWS = (("copies", 866), ("works", 944))
OF_JOB, OF_NODE = ("node", "job"), ("node",)


class Missing(Exception):
    """Something that the picture needs isn't in the scrape."""


class Sample(NamedTuple):
    labels: Dict[str, str]
    value: float


class Cell(NamedTuple):
    """What is said in it, and its part of the greatest one of its family."""

    said: str
    part: float


class Table(NamedTuple):
    """The columns' heads, and by node, or by node and job, a cell for each head of which there is a sample."""

    heads: List[str]
    rows: Dict[Tuple[int, ...], Dict[str, Cell]]


class Section(NamedTuple):
    """A table of these families, with a row for each value of these labels."""

    title: str
    families: Sequence[str]
    keys: Sequence[str]
    width: float = WIDTH - 2 * MARGIN


# those of a tuple stand beside each other
SECTIONS = (
    (Section("Commands by kind, and their bytes", ("commands_total", "session_bytes_total"), OF_JOB),),
    (
        Section("Refusals", ("refusals_total",), OF_JOB, HALF),
        Section("Evictions and spills", ("evictions_total", "removals_total", "device_calls_total"), OF_JOB, HALF),
    ),
    (Section("Fetches", ("fetches_total", "pulls_total", "arrivals_total", "served_total"), OF_JOB),),
    (
        Section(
            "Nodes",
            ("sessions", "hellos_total", "malformed_sessions_total", "spilled_files", "spilled_bytes", "spill_free_bytes",
             "lock_waits_total", "lock_sleeps_total"),
            OF_NODE,
        ),
    ),
)


class Scrape:
    """Its samples by family, whose names are those after `store_`."""

    def __init__(self, text: str) -> None:
        self.samples: Dict[str, List[Sample]] = {}
        for line in text.splitlines():
            if line.startswith("# TYPE "):
                self.samples[line.split()[2][len(BEFORE) :]] = []
            elif not line.startswith("#"):
                found = SAMPLE.fullmatch(line)
                if not found or found[1] not in self.samples:
                    raise Missing(f"no sample of a family that was named: {line!r}")
                self.samples[found[1]].append(Sample(dict(LABEL.findall(found[2] or "")), float(found[3])))

    def of(self, family: str) -> List[Sample]:
        if family not in self.samples:
            raise Missing(f"the scrape has no {BEFORE}{family}")
        return self.samples[family]

    def one(self, family: str) -> float:
        """Of a family without labels."""
        return self.of(family)[0].value

    def by_job(self, family: str) -> Dict[Tuple[int, ...], float]:
        return {_place(sample, OF_JOB): sample.value for sample in self.of(family)}


def _place(sample: Sample, keys: Sequence[str]) -> Tuple[int, ...]:
    return tuple(int(sample.labels[key]) for key in keys)


def _in_order(sample: Sample) -> int:
    """Commands as the pages list them, and refusals by number."""
    labels = sample.labels
    return COMMANDS.index(labels["command"]) if "command" in labels else int(labels.get("number", 0))


def said(family: str, value: float) -> str:
    if family.endswith("_bytes"):
        return size_text(int(value))
    return f"{value:,.1f} s" if "seconds" in family else f"{value:,.0f}"


def tabulated(scrape: Scrape, section: Section) -> Table:
    """A head has the labels' values that are no key. The first family's name goes without saying beside them."""
    table = Table([], {})
    for family in section.families:
        stem = family[: -len(ENDING)] if family.endswith(ENDING) else family
        samples = sorted(scrape.of(family), key=_in_order)
        greatest = max((sample.value for sample in samples), default=0)
        for sample in samples:
            words = [value for name, value in sample.labels.items() if name not in section.keys]
            if not words or family != section.families[0]:
                words = [*stem.split("_"), *words]
            head = " ".join(words)
            if head not in table.heads:
                table.heads.append(head)
            cell = Cell(said(stem, sample.value), sample.value / greatest if greatest else 0)
            table.rows.setdefault(_place(sample, section.keys), {})[head] = cell
    return table


class Picture:
    def __init__(self, scrape: Scrape) -> None:
        self.scrape = scrape
        self.drawing = Drawing(WIDTH, 0, "What storectl metrics prints")
        self.drawing.text(MARGIN, 24, "$ storectl metrics", TYPE + 1, colour=PALE_INK)
        y = self.windows(self.server(40))
        for beside in SECTIONS:
            left, bottoms = float(MARGIN), []
            for section in beside:
                bottoms.append(self.table(left, y, section))
                left += section.width + MARGIN
            y = max(bottoms)
        self.drawing.size = (WIDTH, y - GAP + MARGIN)

    def heading(self, left: float, y: float, width: float, title: str, families: Sequence[str] = ()) -> float:
        """Where what is below it begins."""
        self.drawing.box(left, y, width, HEADING, GROUND)
        self.drawing.text(left + ASIDE, y + 16, title, TYPE + 1)
        y += HEADING + 14
        for line in wrapped(", ".join(BEFORE + family for family in families), width - 2 * ASIDE, SMALL):
            self.drawing.text(left + ASIDE, y, line, SMALL, colour=PALE_INK)
            y += 13
        return y

    def server(self, y: float) -> float:
        y = self.heading(MARGIN, y, WIDTH - 2 * MARGIN, "Server")
        across = (WIDTH - 2 * MARGIN) / BESIDE
        for number, family in enumerate(SERVER):
            x, below = MARGIN + ASIDE + number % BESIDE * across, y + 6 + number // BESIDE * 36
            self.drawing.text(x, below, said(family, self.scrape.one(family)), TYPE + 2)
            self.drawing.text(x, below + 13, BEFORE + family, SMALL, colour=PALE_INK)
        return y + -(-len(SERVER) // BESIDE) * 36 + GAP - 16

    def windows(self, y: float) -> float:
        families = [*(name for used, whole, _ in WINDOWS for name in (used, whole)), *(name for name, _ in BESIDE_WINDOWS)]
        y = self.heading(MARGIN, y, WIDTH - 2 * MARGIN, "Windows and device quotas", families) + 6
        self.keys(MARGIN, y, [key.upper() for key in OF_JOB], PALE_INK)
        for (used, _, left), title in zip(WINDOWS, ("WINDOW", "DEVICE")):
            self.drawing.text(left, y, title, SMALL, colour=PALE_INK)
        for family, right in BESIDE_WINDOWS:
            self.drawing.text(right - ASIDE, y, family.upper(), SMALL, "end", PALE_INK)
        for place in sorted(self.scrape.by_job("window_bytes")):
            y += LINE
            self.keys(MARGIN, y, [str(key) for key in place])
            for used, whole, left in WINDOWS:
                self.used(left, y, self.scrape.by_job(used).get(place, 0), self.scrape.by_job(whole).get(place, 0))
            for family, right in BESIDE_WINDOWS:
                self.drawing.text(right - ASIDE, y, said(family, self.scrape.by_job(family).get(place, 0)), TYPE, "end")
        return y + GAP

    def used(self, left: float, y: float, used: float, whole: float) -> None:
        """A bar as wide as the whole, and what is used of it."""
        self.drawing.box(left, y - 11, BAR, 14, EMPTY)
        self.drawing.box(left, y - 11, BAR * used / whole if whole else 0, 14, COLOURS[0])
        part = f"{used / whole:.0%} " if whole else ""
        self.drawing.text(left + BAR + ASIDE, y, f"{part}{size_text(int(used))} of {size_text(int(whole))}", TYPE)

    def table(self, left: float, y: float, section: Section) -> float:
        found = tabulated(self.scrape, section)
        y = self.heading(left, y, section.width, section.title, section.families) + 6
        first = left + len(section.keys) * KEY
        across = min(WIDEST, (section.width - len(section.keys) * KEY) / max(1, len(found.heads)))
        heads = [wrapped(head, across - ASIDE, SMALL) for head in found.heads]
        y += 12 * (max(map(len, heads), default=1) - 1)
        self.keys(left, y, [key.upper() for key in section.keys], PALE_INK)
        for number, lines in enumerate(heads):
            for up, line in enumerate(reversed(lines)):
                self.drawing.text(first + (number + 1) * across - ASIDE, y - 12 * up, line, SMALL, "end", PALE_INK)
        for place, cells in sorted(found.rows.items()):
            y += LINE
            self.keys(left, y, [str(key) for key in place])
            for number, head in enumerate(found.heads):
                if head in cells:
                    self.cell(first + number * across, y, across, cells[head])
        if not found.rows:
            y += LINE
            self.drawing.text(left + ASIDE, y, "none", TYPE)
        return y + GAP

    def cell(self, left: float, y: float, width: float, cell: Cell) -> None:
        self.drawing.box(left + ASIDE, y - 11, (width - ASIDE) * cell.part, 14, COLOURS[0], opacity=0.3)
        self.drawing.text(left + width - ASIDE, y, cell.said, TYPE, "end")

    def keys(self, left: float, y: float, words: Sequence[str], colour: str = INK) -> None:
        for number, word in enumerate(words):
            self.drawing.text(left + (number + 1) * KEY - ASIDE, y, word, SMALL if colour == PALE_INK else TYPE, "end", colour)


def main() -> int:
    options = argparse.ArgumentParser(prog="metrics_picture", description=__doc__)
    options.add_argument("scrape", type=Path, help="what storectl metrics printed")
    options.add_argument("-o", dest="drawn", type=Path, required=True, metavar="SVG")
    words = options.parse_args()
    try:
        Picture(Scrape(words.scrape.read_text())).drawing.save(words.drawn)
    except Missing as fault:
        print(f"metrics_picture: {fault}", file=sys.stderr)
        return 1
    return 0


if __name__ == "__main__":
    sys.exit(main())
