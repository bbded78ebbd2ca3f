"""What scripts that draw share: a picture of lines, arrows, boxes and texts as SVG, a table as bars, words in lines, and round numbers for
axes."""

from __future__ import annotations

import math
from pathlib import Path
from typing import Iterable, List, NamedTuple, Sequence, Tuple, Union
from xml.sax.saxutils import escape, quoteattr

INK = "#222222"
PALE_INK = "#666666"
GRID = "#dddddd"
# told apart by those who see few colours too
COLOURS = ("#4477aa", "#ee7733", "#228833", "#aa3377")
# roughly how wide a letter is, as a part of its height
LETTER = 0.56
# of an arrow's head, in pixels
HEAD_LENGTH, HEAD_WIDTH = 7, 8
# of a table as bars, in pixels
BARS_WIDTH, BARS_LEFT, BARS_RIGHT, BARS_TOP, BAR_HEIGHT = 760, 230, 150, 44, 26

Point = Tuple[float, float]


class Drawing:
    """A picture with a white ground. Places are in pixels from the upper left corner."""

    def __init__(self, width: float, height: float, title: str) -> None:
        self.size = (width, height)
        self.title = title
        self.parts: List[str] = []

    def box(
        self, left: float, top: float, width: float, height: float, fill: str, edge: str = "none", opacity: float = 1
    ) -> None:
        self._add("rect", x=left, y=top, width=width, height=height, fill=fill, stroke=edge, fill_opacity=opacity)

    def line(self, points: Sequence[Point], colour: str = INK, width: float = 1) -> None:
        self._add("polyline", points=_places(points), fill="none", stroke=colour, stroke_width=width)

    def arrow(self, points: Sequence[Point], colour: str = INK, width: float = 1.5) -> None:
        """A line with a head at its end."""
        (before_x, before_y), (x, y) = points[-2], points[-1]
        length = math.hypot(x - before_x, y - before_y)
        along_x, along_y = (x - before_x) / length, (y - before_y) / length
        base_x, base_y = x - HEAD_LENGTH * along_x, y - HEAD_LENGTH * along_y
        self.line([*points[:-1], (base_x, base_y)], colour, width)
        aside_x, aside_y = along_y * HEAD_WIDTH / 2, -along_x * HEAD_WIDTH / 2
        self.area([(x, y), (base_x + aside_x, base_y + aside_y), (base_x - aside_x, base_y - aside_y)], colour)

    def area(self, points: Sequence[Point], fill: str, edge: str = "none") -> None:
        self._add("polygon", points=_places(points), fill=fill, stroke=edge)

    def text(self, x: float, y: float, words: str, size: float = 12, anchor: str = "start", colour: str = INK) -> None:
        """Words whose line stands at this height, and which start, have their middle or end there."""
        self._add("text", escape(words), x=x, y=y, font_size=size, text_anchor=anchor, fill=colour)

    def text_upwards(
        self, x: float, y: float, words: str, size: float = 12, anchor: str = "middle", colour: str = INK
    ) -> None:
        """Words that are read from below, and which start, have their middle or end there."""
        place = f"rotate(-90 {_number(x)} {_number(y)})"
        self._add("text", escape(words), x=x, y=y, font_size=size, text_anchor=anchor, fill=colour, transform=place)

    def save(self, path: Path) -> None:
        path.write_text(self.svg(), encoding="utf-8")

    def svg(self) -> str:
        width, height = (_number(length) for length in self.size)
        head = (
            f'<svg xmlns="http://www.w3.org/2000/svg" width="{width}" height="{height}" viewBox="0 0 {width} {height}" '
            f'font-family="sans-serif" role="img">'
        )
        ground = f'<rect width="{width}" height="{height}" fill="white"/>'
        return "\n".join([head, f"<title>{escape(self.title)}</title>", ground, *self.parts, "</svg>", ""])

    def _add(self, name: str, content: str = "", **marks: Union[str, float]) -> None:
        """An element. What goes without saying isn't said."""
        said = []
        for mark, value in marks.items():
            text = value if isinstance(value, str) else _number(value)
            if (mark, text) not in (("stroke", "none"), ("fill_opacity", "1")):
                said.append(f"{mark.replace('_', '-')}={quoteattr(text)}")
        self.parts.append(f"<{name} {' '.join(said)}>{content}</{name}>" if content else f"<{name} {' '.join(said)}/>")


class Bar(NamedTuple):
    """A row of a table: its name on the left, and what is said of it after the bar."""

    name: str
    length: float
    said: str


def draw_bars(title: str, unit: str, bars: Sequence[Bar]) -> Drawing:
    """A table as bars, over an axis with this unit."""
    bottom, across = BARS_TOP + BAR_HEIGHT * len(bars), BARS_WIDTH - BARS_LEFT - BARS_RIGHT
    drawing = Drawing(BARS_WIDTH, bottom + 40, title)
    drawing.text(16, 24, title, 13)
    # an axis has an end, also where nothing was measured
    greatest = max(1, int(max(bar.length for bar in bars)))
    for mark in round_steps(greatest, 4):
        x = BARS_LEFT + mark * across / greatest
        drawing.line([(x, BARS_TOP), (x, bottom)], GRID)
        drawing.text(x, bottom + 14, f"{mark:,}", 11, "middle", PALE_INK)
    drawing.text(BARS_LEFT + across / 2, bottom + 32, unit, 12, "middle")
    for row, bar in enumerate(bars):
        top, length = BARS_TOP + BAR_HEIGHT * row, bar.length * across / greatest
        drawing.text(BARS_LEFT - 8, top + 17, bar.name, 12, "end")
        drawing.box(BARS_LEFT, top + 4, length, BAR_HEIGHT - 8, COLOURS[0])
        drawing.text(BARS_LEFT + length + 6, top + 17, bar.said, 11)
    return drawing


def text_width(words: str, size: float = 12) -> float:
    """Roughly how wide the words are."""
    return LETTER * size * len(words)


def wrapped(words: str, width: float, size: float = 12) -> List[str]:
    """The words in lines that are roughly no wider."""
    lines: List[str] = []
    for word in words.split():
        if lines and text_width(f"{lines[-1]} {word}", size) <= width:
            lines[-1] += f" {word}"
        else:
            lines.append(word)
    return lines


def _places(points: Sequence[Point]) -> str:
    return " ".join(f"{_number(x)},{_number(y)}" for x, y in points)


def _number(value: float) -> str:
    """The same digits on every machine."""
    return f"{value:.2f}".rstrip("0").rstrip(".")


def round_steps(greatest: int, most: int) -> List[int]:
    """0 and equal steps of 1, 2 or 5 times a power of ten up to the greatest number, and no more of them than this."""
    return _steps(greatest, most, (step * 10**power for power in range(20) for step in (1, 2, 5)))


def round_bytes(greatest: int, most: int) -> List[int]:
    """The same with powers of two from 16 on."""
    return _steps(greatest, most, (16 << power for power in range(60)))


def _steps(greatest: int, most: int, sizes: Iterable[int]) -> List[int]:
    size = next(size for size in sizes if greatest // size <= most)
    return list(range(0, greatest + 1, size))


def bytes_text(count: int) -> str:
    """A number of bytes with the largest unit that it is a multiple of."""
    for unit, size in (("GiB", 1 << 30), ("MiB", 1 << 20), ("KiB", 1 << 10)):
        if count and count % size == 0:
            return f"{count // size:,} {unit}"
    return f"{count:,}"
