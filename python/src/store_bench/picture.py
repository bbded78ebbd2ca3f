"""Draws one job's window at a node as a saved journal tells it.

The plain model (store_model) takes the job's lines one after another; the picture shows which extents lay in the window after
each, what was evicted, spilled and restored, below it the bytes that the job had on the device, and at the axis what each entry says. A
line that is no entry, or whose answer isn't the one that the model gives, is reported, with status 1. `tests/model journal < SCHEDULE` prints
the journal of a schedule.
"""

from __future__ import annotations

import argparse
import sys
from pathlib import Path
from typing import Callable, Dict, List, NamedTuple, Optional, Set, Tuple

from store_model.ids import ObjectId
from store_model.replay import Entry, NotAnEntry, Replay, read_journal
from store_model.store import PrivateStore
from store_model.words import UNIT, Copy, Kind, State

from .drawing import COLOURS, GRID, INK, PALE_INK, Drawing, bytes_text, round_bytes, round_steps, text_width

KIND_COLOURS = {Kind.PRIMARY: COLOURS[0], Kind.SECONDARY: COLOURS[1]}
# of an extent whose object can't be read yet
PALE = 0.4
REFUSED_INK = "#bb2211"
# in pixels
WIDTH, LEFT, RIGHT = 900, 76, 16
WINDOW_TOP, WINDOW_HEIGHT = 84, 380
DEVICE_TOP, DEVICE_HEIGHT = WINDOW_TOP + WINDOW_HEIGHT + 34, 90
AXIS = DEVICE_TOP + DEVICE_HEIGHT
MARK = 5
LABEL = 11
# of the words at the axis; they are left out if entries are closer
SPACING, WORDS_HEIGHT = 13, 176


class Span(NamedTuple):
    """An extent after each entry from the first one to before the end."""

    label: str
    kind: Kind
    is_sealed: bool
    offset: int
    extent: int
    first: int
    end: int


class Mark(NamedTuple):
    """Something that an entry did to an extent."""

    name: str
    entry: int
    middle: float


class Level(NamedTuple):
    """The job's quotas and its bytes on the device after an entry."""

    window: int
    device: int
    device_used: int


class Said(NamedTuple):
    """What an entry says: its event, and its answer if that is a refusal."""

    words: str
    is_refused: bool


# how high an offset, or a number of bytes, is drawn
Up = Callable[[float], float]


def said_by(line: str) -> Said:
    """A journal's line without its job, numbers and session."""
    event, _, answer = line.partition(" = ")
    words = event.split(" ", 3)[3]
    first, _, rest = words.partition(" ")
    words = rest if first.startswith("s") and first[1:].isdigit() else words
    refusal = answer.partition("refused ")[2]
    return Said(f"{words}: {refusal}" if refusal else words, bool(refusal))


class WatchedStore(PrivateStore):
    """A store that keeps what it does to extents."""

    def __init__(self, job: int, node: int) -> None:
        super().__init__(job, node)
        self.done: List[Tuple[str, float]] = []

    def note(self, name: str, copy: Copy) -> None:
        if copy.offset is not None:
            self.done.append((name, copy.offset + copy.extent / 2))

    def evict(self, one: ObjectId) -> None:
        self.note("eviction", self.copies[one])
        super().evict(one)

    def write_ended(self, copy: Copy, number: int, is_written: bool) -> None:
        self.note("spill" if is_written else "failed spill", copy)
        super().write_ended(copy, number, is_written)

    def read_ended(self, copy: Copy, content: Optional[bytes]) -> None:
        is_right = content is not None and copy.matches(content)
        self.note("restore" if is_right else "failed restore", copy)
        super().read_ended(copy, content)


class History:
    """What the picture shows: the entries of one job at one node, taken one by one."""

    def __init__(self, node: int, job: int) -> None:
        self.store = WatchedStore(job, node)
        self.replay = Replay(self.store)
        # of each extent that lies in the window now, since which entry
        self.open: Dict[Tuple[str, Kind, bool, int, int], int] = {}
        self.spans: List[Span] = []
        self.marks: List[Mark] = []
        self.levels: List[Level] = []

    def take(self, entry: Entry) -> None:
        due = self.replay.take(entry)
        if due != entry.answer:
            raise ValueError(f"line {entry.line}: had {entry.answer}, should be {due}")
        self.marks += [Mark(name, entry.number, middle) for name, middle in self.store.done]
        self.store.done = []
        self.levels.append(Level(self.store.window, self.store.device_quota, self.store.device_bytes()))
        now = {
            (one.text(self.store.job), copy.kind, copy.state is State.SEALED, copy.offset, copy.extent)
            for one, copy in self.store.copies.items()
            if copy.offset is not None
        }
        self.close(entry.number, now)
        for extent in now:
            self.open.setdefault(extent, entry.number)

    def close(self, end: int, now: Set[Tuple[str, Kind, bool, int, int]]) -> None:
        """The extents that aren't there any more end with this entry."""
        for extent in [extent for extent in self.open if extent not in now]:
            self.spans.append(Span(*extent, self.open.pop(extent), end))

    def end(self) -> None:
        """The extents that are there at the end are drawn to it."""
        self.close(len(self.levels) + 1, set())
        self.spans.sort(key=lambda span: (span.first, span.offset))


class Picture:
    """The drawing of a history: its window, its device below, and what its entries say."""

    def __init__(self, history: History, said: List[Said], title: str) -> None:
        self.history, self.said = history, said
        self.entries = len(history.levels)
        self.has_words = (WIDTH - LEFT - RIGHT) / self.entries >= SPACING
        self.height = AXIS + 48 + (WORDS_HEIGHT if self.has_words else 0)
        self.drawing = Drawing(WIDTH, self.height, title)
        # an axis has an end, also of a job that never began
        self.window = max(UNIT, *(level.window for level in history.levels))
        self.device = max(UNIT, *(level.device for level in history.levels))
        self.drawing.text(LEFT, 26, title, 16)
        self.legend()
        self.draw_window()
        self.draw_device()

    def across(self, entry: float) -> float:
        return LEFT + (entry - 1) * (WIDTH - LEFT - RIGHT) / self.entries

    def up(self, offset: float) -> float:
        return WINDOW_TOP + WINDOW_HEIGHT * (1 - offset / self.window)

    def device_up(self, used: float) -> float:
        return DEVICE_TOP + DEVICE_HEIGHT * (1 - used / self.device)

    def legend(self) -> None:
        at = float(LEFT)
        for kind in Kind:
            self.drawing.box(at, 42, 14, 12, KIND_COLOURS[kind])
            at = self.legend_text(at + 18, kind.value)
        self.drawing.box(at, 42, 14, 12, KIND_COLOURS[Kind.PRIMARY], opacity=PALE)
        self.drawing.box(at + 14, 42, 14, 12, KIND_COLOURS[Kind.SECONDARY], opacity=PALE)
        at = self.legend_text(at + 32, "not readable yet")
        for name in MARKS:
            MARKS[name](self.drawing, at + MARK, 48)
            at = self.legend_text(at + 2 * MARK + 5, name)

    def legend_text(self, at: float, words: str) -> float:
        """Where the next part of the legend begins."""
        self.drawing.text(at, 52, words)
        return at + text_width(words) + 16

    def draw_window(self) -> None:
        self.grid(round_bytes(self.window, 8), self.up, "offset in the window (bytes)", WINDOW_TOP + WINDOW_HEIGHT / 2)
        for span in self.history.spans:
            left, top = self.across(span.first), self.up(span.offset + span.extent)
            width, height = self.across(span.end) - left, self.up(span.offset) - top
            edge = "white" if width > 3 else "none"
            # the grid isn't seen through it
            self.drawing.box(left, top, width, height, "white")
            self.drawing.box(left, top, width, height, KIND_COLOURS[span.kind], edge, 1 if span.is_sealed else PALE)
            if width >= text_width(span.label, LABEL) + 8 and height >= LABEL + 5:
                is_dark = span.is_sealed and span.kind is Kind.PRIMARY
                self.drawing.text(left + 4, top + LABEL + 2, span.label, LABEL, colour="white" if is_dark else INK)
        self.steps("window", [level.window for level in self.history.levels], self.up)
        for mark in self.history.marks:
            MARKS[mark.name](self.drawing, self.across(mark.entry), self.up(mark.middle))

    def draw_device(self) -> None:
        self.grid(round_bytes(self.device, 4), self.device_up, "device (bytes)", DEVICE_TOP + DEVICE_HEIGHT / 2)
        used = self.corners([level.device_used for level in self.history.levels], self.device_up)
        bottom = self.device_up(0)
        self.drawing.area([(used[0][0], bottom), *used, (used[-1][0], bottom)], COLOURS[3])
        self.steps("device quota", [level.device for level in self.history.levels], self.device_up)
        self.axis()

    def axis(self) -> None:
        """The numbers of entries, what each says if there is room for it, and what the axis is."""
        for entry in round_steps(self.entries, 16)[1:]:
            self.drawing.text(self.across(entry), AXIS + 16, f"{entry:,}", LABEL, "middle", PALE_INK)
        for entry, said in enumerate(self.said if self.has_words else [], 1):
            colour = REFUSED_INK if said.is_refused else INK
            self.drawing.text_upwards(self.across(entry) + 4, AXIS + 24, said.words, LABEL, "end", colour)
        middle = (LEFT + WIDTH - RIGHT) / 2
        self.drawing.text(middle, self.height - 10, "entry of the job's journal at the node", anchor="middle")

    def grid(self, marks: List[int], up: Up, words: str, middle: float) -> None:
        """The lines of an axis of bytes."""
        for mark in marks:
            self.drawing.line([(LEFT, up(mark)), (WIDTH - RIGHT, up(mark))], GRID)
            self.drawing.text(LEFT - 6, up(mark) + 4, bytes_text(mark), LABEL, "end", PALE_INK)
        self.drawing.text_upwards(18, middle, words)

    def corners(self, values: List[int], up: Up) -> List[Tuple[float, float]]:
        """A line that goes level from each entry to the next one."""
        return [(self.across(at), up(value)) for entry, value in enumerate(values, 1) for at in (entry, entry + 1)]

    def steps(self, name: str, values: List[int], up: Up) -> None:
        """A quota's line, with its name where it begins."""
        self.drawing.line(self.corners(values, up))
        self.drawing.text(LEFT + 4, up(values[0]) - 5, name, LABEL, colour=PALE_INK)


def draw_cross(drawing: Drawing, x: float, y: float) -> None:
    for down in (MARK, -MARK):
        drawing.line([(x - MARK, y - down), (x + MARK, y + down)], "white", 5)
    for down in (MARK, -MARK):
        drawing.line([(x - MARK, y - down), (x + MARK, y + down)], INK, 2)


def draw_triangle(drawing: Drawing, x: float, y: float, tip: float, fill: str) -> None:
    """With its tip above or below."""
    drawing.area([(x - MARK, y - tip), (x + MARK, y - tip), (x, y + tip)], fill, INK)


MARKS: Dict[str, Callable[[Drawing, float, float], None]] = {
    "eviction": draw_cross,
    "spill": lambda drawing, x, y: draw_triangle(drawing, x, y, MARK, COLOURS[3]),
    "restore": lambda drawing, x, y: draw_triangle(drawing, x, y, -MARK, COLOURS[2]),
    "failed spill": lambda drawing, x, y: draw_triangle(drawing, x, y, MARK, "white"),
    "failed restore": lambda drawing, x, y: draw_triangle(drawing, x, y, -MARK, "white"),
}


def picture(text: str, node: Optional[int], job: Optional[int]) -> Drawing:
    """The picture of the first job and node in the journal, of those that were asked for."""
    entries = read_journal(text)
    fitting = [entry for entry in entries if node in (None, entry.node) and job in (None, entry.job)]
    if not fitting:
        raise ValueError("no entry of such a job and node")
    node, job = fitting[0].node, fitting[0].job
    history = History(node, job)
    for entry in fitting:
        if (entry.node, entry.job) == (node, job):
            history.take(entry)
    history.end()
    lines = text.split("\n")
    said = [said_by(lines[entry.line - 1]) for entry in fitting if (entry.node, entry.job) == (node, job)]
    return Picture(history, said, f"Job {job} at node {node}: its window and its device").drawing


def main() -> int:
    options = argparse.ArgumentParser(description=__doc__, formatter_class=argparse.RawDescriptionHelpFormatter)
    options.add_argument("journal", type=Path)
    options.add_argument("-o", "--output", type=Path, required=True, metavar="SVG", help="the file that is written")
    options.add_argument("--node", type=int, help="otherwise the first one in the journal")
    options.add_argument("--job", type=int, help="otherwise the first one in the journal")
    asked = options.parse_args()
    try:
        text = asked.journal.read_text(encoding="latin-1")
        picture(text, asked.node, asked.job).save(asked.output)
    except (OSError, NotAnEntry, ValueError) as error:
        print(f"picture: {error}", file=sys.stderr)
        return 1
    return 0


if __name__ == "__main__":
    sys.exit(main())
