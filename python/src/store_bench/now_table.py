"""The tables of bench/serve --now: their rows, what was told of them as text, and where that is written.

Nothing is measured here: serving_now.py does that. A figure is the median of the rounds. A ratio is the median of the rounds' own ratios,
with the least and the greatest, since two sides of one round meet the same machine.
"""

from __future__ import annotations

import re
import statistics
import textwrap
from typing import Callable, Dict, Iterator, List, NamedTuple, Optional, Sequence, Tuple

from .drawing import bytes_text
from .serving_rows import AT_ONCE, KIB, MIB, Told, number_text

# who answers: the program that is measured, that of the last release, Redis, and load.c's own server
NOW, RELEASE, REDIS, FLOOR = "now", "release", "redis", "floor"
PLACES = (NOW, RELEASE, REDIS, FLOOR)
SIZES = (KIB, 64 * KIB, MIB)
LAYOUTS = (1, 4)
BURSTS = (1, 4, 16)
NODES = 4
SESSIONS = 32
# in place of a figure that there isn't
NONE = "-"
TO_RELEASE, TO_REDIS, TO_FLOOR = "To the last release", "To Redis", "To the floor"
# what stands between these lines of the page of figures is written anew
BEGIN = "<!-- bench/serve --now --write writes from here -->"
END = "<!-- to here -->"
# and on the front page between these
FRONT_BEGIN, FRONT_END = "## Figures and limits\n\n", "\n\n[Limits]"
# what the front page has of it, of this row's columns, at so many connections
FRONT_COLUMNS = ("1 KiB in one trip", "64 KiB", "1 MiB")
FRONT_ROWS = {"get": "the store's gets", "put": "the store's puts, each of which is hashed by SHA-256"}
FRONT_CONNECTIONS = "4 connections"
FRONT_WIDTH = 140

Figure = Callable[[Told], float]


class Ask(NamedTuple):
    """What load.c is asked to do: its word, the length of an object, over how many connections and nodes; and of a flood of how many jobs
    it is, and whether it is at another server."""

    word: str
    size: int
    connections: int = 1
    nodes: int = 1
    jobs: int = 0
    elsewhere: bool = False


# what was told in each round, by who answered and what was asked
Found = Dict[Tuple[str, Ask], List[Told]]


class Row(NamedTuple):
    """A figure, which is compared with that of each other place."""

    name: str
    ask: Ask
    figure: Figure
    unit: str
    redis: Optional[Ask] = None

    def at(self, place: str) -> Optional[Ask]:
        """What is asked there. The floor has one node, and Redis no command like some."""
        if place == REDIS:
            return self.redis
        return self.ask._replace(nodes=1) if place == FLOOR else self.ask


class Pair(NamedTuple):
    """A figure that is compared with another one of the same program."""

    name: str
    ask: Ask
    other: Ask
    figure: Figure


class Ratio(NamedTuple):
    median: float
    least: float
    greatest: float

    def __str__(self) -> str:
        return f"{self.median:.2f} ({self.least:.2f} to {self.greatest:.2f})"


class Made(NamedTuple):
    """How it was measured. Programs are described, and no path is among the texts."""

    date: str
    commit: str
    program: str
    release: str
    redis: str
    processors: int
    before: float
    after: float
    rounds: int
    seconds: float


# ---- the rows


def speed(told: Told) -> float:
    return told.times / told.seconds


def megabytes(size: int) -> Figure:
    return lambda told: speed(told) * size / 1e6


def commands(told: Told) -> float:
    return speed(told) * AT_ONCE


def microseconds(of: Figure) -> Figure:
    return lambda told: 1e3 * of(told)


def counted(connections: int) -> str:
    return f"{connections} connection{'' if connections == 1 else 's'}"


def rows(largest: int = MIB) -> List[Row]:
    """Those with a column for each other place, of objects of so many bytes at most."""
    return [row for row in (*rows_of_objects(), *rows_of_bursts()) if row.ask.size <= largest]


def rows_of_objects() -> Iterator[Row]:
    for word, redis in (("put", "set-redis"), ("get", "get-redis")):
        for size in SIZES:
            figure, unit = (speed, "a second") if size == KIB else (megabytes(size), "MB/s")
            # the smallest ones go in one trip only
            for once in (True,) if size == KIB else (False, True):
                for connections in LAYOUTS:
                    name = f"{word} {bytes_text(size)}{' in one trip' if once else ''}, {counted(connections)}"
                    ask = Ask(f"{word}-once" if once else word, size, connections)
                    yield Row(name, ask, figure, unit, Ask(redis, size, connections))
    size, most = 64 * KIB, max(LAYOUTS)
    yield Row(f"get {bytes_text(size)}, {counted(most)} over {NODES} nodes", Ask("get", size, most, NODES), megabytes(size), "MB/s")


def rows_of_bursts() -> Iterator[Row]:
    for connections in BURSTS:
        yield Row(f"commands, {AT_ONCE} at once, {counted(connections)}", burst(connections), commands, "a second")


def burst(connections: int) -> Ask:
    return Ask("together", KIB, connections)


def pairs(largest: int = MIB) -> List[Pair]:
    """What is compared within one program."""
    return [pair for pair in all_pairs() if pair.ask.size <= largest]


def all_pairs() -> Iterator[Pair]:
    for connections in BURSTS[1:]:
        name = f"commands a second, {AT_ONCE} at once: {counted(connections)} to {BURSTS[0]}"
        yield Pair(name, burst(connections), burst(BURSTS[0]), commands)
    size, most = 64 * KIB, max(LAYOUTS)
    name = f"get {bytes_text(size)}, {counted(most)}, MB/s: one node to {NODES}"
    yield Pair(name, Ask("get", size, most), Ask("get", size, most, NODES), megabytes(size))
    figures: Tuple[Tuple[str, Figure], ...] = (("p50", lambda told: told.median), ("p99", lambda told: told.percentile_99))
    for jobs, text in ((1, f"{SESSIONS} sessions of one job"), (SESSIONS, f"{SESSIONS} jobs of one session each")):
        here = Ask("floods", KIB, SESSIONS, 1, jobs)
        for name, figure in figures:
            there = here._replace(elsewhere=True)
            yield Pair(f"a neighbour's {name} beside {text}, us: to the same at another server", here, there, microseconds(figure))


def turns(places: Sequence[str], largest: int = MIB) -> List[List[Tuple[str, Ask]]]:
    """What is measured in a round: in groups of what is compared, and nothing twice."""
    groups: List[List[Tuple[str, Ask]]] = []
    for row in rows(largest):
        asked = [(place, row.at(place)) for place in places]
        groups.append([(place, ask) for place, ask in asked if ask])
    for pair in pairs(largest):
        groups.append([(place, ask) for place in (NOW, RELEASE) if place in places for ask in (pair.ask, pair.other)])
    done = set()
    for group in groups:
        group[:] = [turn for turn in group if turn not in done]
        done.update(group)
    return [group for group in groups if group]


# ---- what was told, as text


def figure_of(told: Sequence[Told], figure: Figure) -> float:
    return statistics.median(figure(one) for one in told)


def ratio_of(told: Sequence[Told], other: Sequence[Told], figure: Figure) -> Ratio:
    """Round by round."""
    ratios = [figure(one) / figure(its) for one, its in zip(told, other)]
    return Ratio(statistics.median(ratios), min(ratios), max(ratios))


def line(cells: Sequence[object]) -> str:
    return f"| {' | '.join(map(str, cells))} |"


def table(heads: Sequence[str], lines: Sequence[Sequence[object]]) -> str:
    return "\n".join([line(heads), "|" + "---|" * len(heads), *map(line, lines)])


def cells_of(row: Row, found: Found) -> List[object]:
    own = found[NOW, row.ask]
    cells: List[object] = [row.name, f"{number_text(figure_of(own, row.figure))} {row.unit}"]
    for place in PLACES[1:]:
        ask = row.at(place)
        other = found.get((place, ask)) if ask else None
        cells.append(ratio_of(own, other, row.figure) if other else NONE)
    return cells


def cells_of_pair(pair: Pair, found: Found) -> List[object]:
    own, other = found[NOW, pair.ask], found[NOW, pair.other]
    cells: List[object] = [pair.name, *(number_text(figure_of(told, pair.figure)) for told in (own, other)), ratio_of(own, other, pair.figure)]
    theirs = found.get((RELEASE, pair.ask))
    return [*cells, ratio_of(theirs, found[RELEASE, pair.other], pair.figure) if theirs else NONE]


def head_line(made: Made) -> str:
    beside = ", ".join(one for one in (made.release, made.redis and f"Redis {made.redis}") if one)
    rounds = f"{made.rounds} round{'' if made.rounds == 1 else 's'} of {made.seconds:g} s a figure"
    load = f"{made.processors} processors, load {made.before:.1f} at the begin and {made.after:.1f} at the end"
    return f"{made.date}, commit {made.commit}: {made.program}, beside {beside + ' and ' if beside else ''}the floor; {load}; {rounds}."


def text_of(made: Made, found: Found, largest: int = MIB) -> str:
    """All that is printed."""
    compared = table(["In the same rounds", "Now", TO_RELEASE, TO_REDIS, TO_FLOOR], [cells_of(row, found) for row in rows(largest)])
    heads = ["At one program", "Now", "Compared with", "Ratio", "The last release's ratio"]
    return "\n\n".join([head_line(made), compared, table(heads, [cells_of_pair(pair, found) for pair in pairs(largest)])])


# ---- where it is written


def between(text: str, begin: str, end: str) -> str:
    """What stands between two marks, each of which has to be there once."""
    if text.count(begin) != 1 or text.partition(begin)[2].count(end) < 1:
        raise ValueError(f"{begin.strip()!r} and {end.strip()!r} have to stand on the page, one after the other")
    return text.partition(begin)[2].partition(end)[0]


def written(text: str, begin: str, end: str, part: str) -> str:
    """The text with this part between the marks."""
    old = begin + between(text, begin, end) + end
    return text.replace(old, begin + part + end)


def cell(text: str, name: str, column: str) -> Optional[str]:
    """Of the first table with such a column and such a row, what stands there."""
    heads: List[str] = []
    for one in text.splitlines():
        cells = [word.strip() for word in one.strip("|").split("|")] if one.startswith("|") else []
        if not cells:
            heads = []
        elif not heads:
            heads = cells
        elif cells[0] == name and column in heads:
            return cells[heads.index(column)]
    return None


def front_cell(text: str, word: str, column: str) -> Optional[str]:
    """What the front page has to say beside Redis, if the page of figures says it."""
    return cell(text, f"{word} {column}, {FRONT_CONNECTIONS}", TO_REDIS)


def front_text(made: Made, text: str) -> str:
    """The front page's figures, from what is printed."""
    said = (
        f"`bench/serve --now` on {made.date}: {FRONT_CONNECTIONS} of a native load at one node, by turns at the store and at Redis {made.redis}, "
        f"{made.processors} processors, load {made.before:.1f} to {made.after:.1f}. "
        f"Medians of {made.rounds} rounds, least and greatest ([all figures](bench/RESULTS.md))."
    )
    lines = [[title, *(front_cell(text, word, column) or NONE for column in FRONT_COLUMNS)] for word, title in FRONT_ROWS.items()]
    return f"{textwrap.fill(said, FRONT_WIDTH)}\n\n{table(['Redis = 1', *FRONT_COLUMNS], lines)}"


def front_faults(front: str, figures: str) -> List[str]:
    """In what the front page's table says otherwise than the page of figures."""
    heads = re.search(r"^\| Redis = 1 \| (.*) \|$", front, re.MULTILINE)
    columns = heads[1].split(" | ") if heads else []
    faults = [] if columns else ["it has no figures beside Redis"]
    for word, title in FRONT_ROWS.items():
        for column in columns:
            said, due = cell(front, title, column), front_cell(figures, word, column)
            if said is None or said != due:
                faults.append(f"of a {word} of {column} beside Redis it says {said}, and {due} was measured")
    return faults
