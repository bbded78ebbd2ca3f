"""Draws the picture of the proof: which clause of which function carries which part of README's sentence, and which function stands on
which, down to the definitions.

All that it names is looked up: the sentence in README, each clause in its function's contract with the definition that it cites,
each definition in specs/, and each call by which a function stands on another. What isn't there ends the script.
"""

from __future__ import annotations

import argparse
import re
import sys
from functools import lru_cache
from pathlib import Path
from typing import Dict, List, NamedTuple, Set, Tuple

from store_bench.drawing import COLOURS, INK, PALE_INK, Drawing, text_width, wrapped
from store_testing import ROOT

# a page shows it at its own size: no type is smaller than SMALL
WIDTH, MARGIN, CODE_RIGHT, WORDS_LEFT = 900, 8, 640, 658
NAME, SMALL, LINE, PAD, GAP = 13, 11, 14, 6, 8
SENTENCE_HEIGHT, HEAD, BELOW = 110, 34, 30
PALE, GROUND, ASIDE = 0.2, "#eef1f4", "#999999"


class Missing(Exception):
    """Something that the picture names isn't in the sources."""


class Definition(NamedTuple):
    """A word of specs/, what it says, and which words it is made of."""

    crate: str
    module: str
    name: str
    says: str
    made_of: Tuple[str, ...] = ()


class Clause(NamedTuple):
    """A clause of a contract: its label, the word that it cites, and what it says."""

    label: str
    cites: str
    says: str


class Function(NamedTuple):
    """A function with a contract, in crates/CRATE/src/FILE, and the functions that it stands on, by what is shown of them."""

    crate: str
    file: str
    name: str
    shown: str
    clauses: Tuple[Clause, ...]
    over: Tuple[str, ...] = ()


class Floor(NamedTuple):
    """Functions side by side, what they are about, and the definitions that their clauses cite."""

    about: str
    functions: Tuple[Function, ...]
    definitions: Tuple[Definition, ...]


# of README's sentence, in order, with the function and the clause of the first floor that carries each
SENTENCE = (
    ("For every interleaving of sessions, workers, links, grants and job ends,", "run", "steps"),
    ("each job's replies are those of a private store that nobody else uses,", "run", "private"),
    ("run on its quotas, its own commands, its own device and link answers and the objects granted to it at their moments;",
     "run", "private"),
    ("two runs that agree there give that job equal replies.", "run_two", "replies"),
)
FLOORS = (
    Floor("whole schedules, in a world of nodes", (
        Function("world_core", "runs.rt", "run", "run", (
            Clause("steps", "schedule", "the trace has these steps"), Clause("private", "IsPrivate", "for every job number"),
            Clause("shared", "AreSharedAnswers", "the operator's answers are due"),
        ), ("World::step",)),
        Function("run_laws", "lib.rt", "run_two", "run_two", (
            Clause("replies", "Agree", "equal inputs in two runs: equal replies"),
        ), ("run",)),
    ), (
        Definition("private_store", "rules.Trace", "IsPrivate", "its replies are its private run's", ("private_run", "inputs_of")),
        Definition("private_store", "rules.Trace", "inputs_of", "quotas, commands, answers, grants"),
        Definition("private_store", "rules.Trace", "Agree", "the same inputs in two traces", ("inputs_of",)),
        Definition("private_store", "rules.Shared", "AreSharedAnswers", "what operator and workers get"),
    )),
    Floor("one step of a world", (
        Function("world_core", "lib.rt", "step", "World::step", (
            Clause("after", "IsAfter", "what holds after a history holds after the history and this step"),
        ), ("Node::apply", "Node::arrive", "Directory::apply")),
    ), (
        Definition("world_core", "Worlds", "IsAfter", "nodes show each private store", ("IsNodeAfter", "IsJobAfter")),
        Definition("world_core", "Worlds", "IsJobAfter", "one job's messages and replies", ("private_run",)),
        Definition("private_store", "rules.Cluster", "private_run", "a job's stores, step by step", ("responses_from",)),
    )),
    Floor("one event at a node, one message at the directory", (
        Function("node_core", "lib.rt", "apply", "Node::apply", (
            Clause("ok", "NodeStep", "every job's view takes its inputs"),
            Clause("memory_last", "IsMemoryLast", "out of memory is last, but for a Pending"),
        ), ("get, write, seal, ..", "Works::ask", "Grants::grant", "Admissions::admit")),
        Function("node_core", "arrivals.rt", "arrive", "Node::arrive", (
            Clause("ok", "NodeStep", "so does a message's arrival"),
        ), ("chunk, pull, ..",)),
        Function("owner_directory", "lib.rt", "apply", "Directory::apply", (
            Clause("posts", "directory_posts", "answers of one job's locations"),
        )),
    ), (
        Definition("node_core", "Steps", "NodeStep", "what an event does to all views", ("NodeStepFrom",)),
        Definition("node_core", "Steps", "NodeStepFrom", "each view takes its own steps", ("view_from",)),
        Definition("private_store", "rules.Private", "view_from", "the private step, input by input", ("view_step",)),
        Definition("private_store", "rules.Directory", "directory_posts", "what the directory answers"),
    )),
    Floor("one command at the row of its job, and the tables that jobs share", (
        Function("room_commands", "get_command.rt", "get", "get, write, seal, ..", (
            Clause("ok", "RowStep", "the private step of the row's view"),
        ), ("Works::ask", "Window::place", "UseOrder::plan", "ObjectCopy::seal", "Pins::hold")),
        Function("row_commands", "chunks.rt", "chunk", "chunk, pull, ..", (
            Clause("ok", "RowStep", "the same of what arrives"),
        ), ("FetchIn::take_chunk",)),
        Function("spill_work", "lib.rt", "ask", "Works::ask", (Clause("ok", "AsksWork", "one work more in line"),)),
        Function("grants", "lib.rt", "grant", "Grants::grant", (Clause("ok", "with_grant", "one grant more"),)),
        Function("job_admission", "lib.rt", "admit", "Admissions::admit", (Clause("ok", "with_admitted", "one live job more"),)),
    ), (
        Definition("row_steps", "Shown", "RowStep", "the view takes the private step", ("view_step",)),
        Definition("private_store", "rules.Private", "view_step", "judge, step, fill in bytes", ("judge", "step", "outcome")),
        Definition("private_store", "rules.Step", "step", "what each input does to a store", ("commanded", "answer")),
        Definition("private_store", "rules.Grants", "with_grant", "the grants after a Grant"),
    )),
    Floor("the parts of a row", (
        Function("job_region", "lib.rt", "place", "Window::place", (Clause("least", "place_for", "the least free place"),)),
        Function("lru_evictor", "plans.rt", "plan", "UseOrder::plan", (Clause("plan", "room_plan", "how room is made"),)),
        Function("object_state", "lib.rt", "seal", "ObjectCopy::seal", (Clause("ok", "Sealed", "the copy's marks"),)),
        Function("pins_holds", "lib.rt", "hold", "Pins::hold", (Clause("ok", "pins_with_holds", "one hold more"),)),
        Function("fetch_core", "lib.rt", "take_chunk", "FetchIn::take_chunk", (Clause("kept", "fetch_chunk_taken", "one chunk more"),)),
    ), (
        Definition("job_region", "Region", "place_for", "an object's place in a window", ("first",)),
        Definition("private_store", "rules.Extents", "first", "first fit: the least free offset"),
        Definition("private_store", "rules.Room", "plan", "fits, evicts, waits, spills, full"),
    )),
)
def source_of(path: str) -> str:
    found = ROOT / path
    if not found.exists():
        raise Missing(f"no {path}")
    return found.read_text(encoding="utf-8")


def look_up_sentence() -> None:
    quoted = " ".join(line[2:] for line in source_of("README.md").splitlines() if line.startswith("> "))
    drawn = " ".join(piece for piece, _, _ in SENTENCE)
    if quoted != drawn:
        raise Missing(f"README says: {quoted}")
    carried = {(function.name, clause.label) for function in FLOORS[0].functions for clause in function.clauses}
    for piece, name, label in SENTENCE:
        if (name, label) not in carried:
            raise Missing(f"nothing carries: {piece}")


def look_up_floors() -> None:
    """That each function's crate is the same as one of the floor above, or a library of it."""
    for above, below in zip(FLOORS, FLOORS[1:]):
        crates = {function.crate for function in above.functions}
        named = crates.union(*(libraries()[crate] for crate in crates))
        for function in below.functions:
            if function.crate not in named:
                raise Missing(f"{function.crate} is no library of {sorted(crates)}")


def contract_of(function: Function) -> str:
    """The text from the function's name to its body."""
    path = f"crates/{function.crate}/src/{function.file}"
    found = re.search(rf"^( *)pub fn {function.name}\b.*?^\1\{{", source_of(path), re.M | re.S)
    if not found:
        raise Missing(f"no pub fn {function.name} in {path}")
    return found.group(0)


def look_up_clause(function: Function, clause: Clause) -> None:
    found = re.search(rf"ensures {clause.label} \{{(.*?)\}}(?=\n *(?:ensures|requires|\{{))", contract_of(function), re.S)
    if not found or not re.search(rf"\b{clause.cites}\b", found.group(1)):
        raise Missing(f"{function.crate}: {function.name} has no clause {clause.label} that cites {clause.cites}")


def look_up_definition(definition: Definition) -> None:
    path = f"crates/{definition.crate}/specs/{definition.module.replace('.', '/')}.antt"
    found = re.search(rf"^(?:abbrev pub|pub record) {definition.name}\b.*?(?=^(?:abbrev|pub|--)|\Z)", source_of(path), re.M | re.S)
    if not found:
        raise Missing(f"no {definition.name} in {path}")
    for word in definition.made_of:
        if not re.search(rf"\b{word}\b", found.group(0)):
            raise Missing(f"{definition.name} of {path} isn't made of {word}")


def look_up_citing(floor: Floor) -> None:
    """That each definition of a floor is cited by a clause of it, or made use of by a definition of it."""
    used = {word for definition in floor.definitions for word in definition.made_of}
    for definition in floor.definitions:
        for function in floor.functions:
            source = source_of(f"crates/{function.crate}/src/{function.file}")
            for clause in function.clauses:
                imported = definition.name if clause.cites == definition.name else f"{definition.name} as {clause.cites}"
                if re.search(rf"{definition.crate}\.specs\.{definition.module}\.\{{[^}}]*\b{imported}\b", source):
                    used.add(definition.name)
        if definition.name not in used:
            raise Missing(f"nothing of {floor.about} cites {definition.name}")


def is_believed(definition: Definition) -> bool:
    """Whether the clauses of run stand on it, so that it has to be read and believed."""
    seen: "set[Tuple[str, str]]" = set()
    left = [("world_core", "Runs")]
    while left:
        place = left.pop()
        if place not in seen and (ROOT / "crates" / place[0]).exists():
            seen.add(place)
            path = f"crates/{place[0]}/specs/{place[1].replace('.', '/')}.antt"
            left += re.findall(r"use Rattle\.(\w+)\.specs\.((?:rules\.|laws\.)?[A-Z]\w*)", source_of(path))
    return (definition.crate, definition.module) in seen


@lru_cache(maxsize=None)
def libraries() -> Dict[str, Set[str]]:
    lines = [line.split(":") for line in source_of("crates.txt").splitlines() if ":" in line and not line.startswith("#")]
    return {crate: set(named.split()) for crate, named in lines}


def look_up_standing(function: Function, other: Function) -> None:
    """That the function's crate, or a library of it that stands on the other's, calls the other."""
    named = libraries()
    between = {crate for crate in named[function.crate] if other.crate in named.get(crate, ())}
    called = re.compile(rf"(?:\.|::|\b){other.name}\(")
    for crate in (function.crate, *sorted(between)):
        for path in sorted((ROOT / f"crates/{crate}/src").glob("*.rt")):
            calls = re.sub(rf"//.*|\bfn {other.name}\(", "", source_of(str(path.relative_to(ROOT))))
            if called.search(calls) and (crate == other.crate or other.crate in named[crate]):
                return
    raise Missing(f"nothing that {function.crate} is made of calls {other.shown}")


class Box(NamedTuple):
    left: float
    top: float
    width: float
    height: float


class Picture:
    """Floors from above: at the left functions with their clauses, at the right the words that the clauses cite."""

    def __init__(self) -> None:
        look_up_sentence()
        look_up_floors()
        tops = [float(MARGIN + SENTENCE_HEIGHT + BELOW)]
        for floor in FLOORS:
            tops.append(tops[-1] + self.height(floor) + GAP)
        self.drawing = Drawing(WIDTH, tops[-1] + 30, "The proof, from the sentence down to the definitions")
        self.boxes = {function.shown: box for floor, top in zip(FLOORS, tops) for function, box in self.places(floor, top)}
        for floor, top in zip(FLOORS, tops):
            self.drawing.box(0, top, WIDTH, self.height(floor), GROUND)
        self.sentence()
        self.standing()
        for floor, top in zip(FLOORS, tops):
            self.floor(floor, top)
        self.legend(tops[-1] + 16)

    def note(self, x: float, y: float, words: str, size: float = SMALL) -> None:
        self.drawing.text(x, y, words, size, "start", PALE_INK)

    # ---- the places

    @staticmethod
    def width(floor: Floor) -> float:
        """Of each of its functions."""
        return (CODE_RIGHT - MARGIN - GAP * (len(floor.functions) - 1)) / len(floor.functions)

    def lines(self, function: Function, width: float) -> "List[Tuple[str, float, str]]":
        """The lines of a function's box: words, size and colour."""
        inner = width - 2 * PAD
        found = [(words, float(NAME), INK) for words in pieces(function.shown, "::" if "::" in function.shown else ", ", inner, NAME)]
        found.append((function.crate, SMALL, PALE_INK))
        for clause in function.clauses:
            found += [(words, SMALL + 0.5, INK) for words in pieces(f"{clause.label}: {clause.cites}", ": ", inner, 12)]
            found += [(words, SMALL, PALE_INK) for words in wrapped(clause.says, inner, SMALL)]
        return found

    def code_height(self, floor: Floor) -> float:
        """Of each of its functions' boxes."""
        return LINE * max(len(self.lines(function, self.width(floor))) for function in floor.functions) + 2 * PAD

    def height(self, floor: Floor) -> float:
        return max(HEAD + self.code_height(floor) + BELOW, GAP + len(floor.definitions) * (2 * LINE + PAD + GAP))

    def places(self, floor: Floor, top: float) -> "List[Tuple[Function, Box]]":
        width = self.width(floor)
        return [
            (function, Box(MARGIN + number * (width + GAP), top + HEAD, width, self.code_height(floor)))
            for number, function in enumerate(floor.functions)
        ]

    # ---- what is drawn

    def sentence(self) -> None:
        """Its parts, with a line from each to the function that carries it."""
        width = (WIDTH - 2 * MARGIN - 3 * GAP) / 4
        for number, (piece, name, label) in enumerate(SENTENCE):
            left, colour = MARGIN + number * (width + GAP), COLOURS[1]
            self.drawing.box(left, MARGIN, width, SENTENCE_HEIGHT, colour, colour, PALE)
            for row, words in enumerate(wrapped(piece, width - 2 * PAD, 12)):
                self.drawing.text(left + PAD, MARGIN + 17 + 15 * row, words, 12)
            self.note(left + PAD, MARGIN + SENTENCE_HEIGHT - 7, f"{name}, clause {label}")
            box, bottom = self.boxes[name], MARGIN + SENTENCE_HEIGHT
            start, turn = left + width / 2, bottom + 6 + 5 * number
            end = min(start, box.left + box.width - 30 * (len(SENTENCE) - number))
            self.drawing.arrow([(start, bottom), (start, turn), (end, turn), (end, box.top)], colour, 2)

    def standing(self) -> None:
        """Lines from each function to those that it stands on: side by side, or down to the next floor."""
        functions = {function.shown: function for floor in FLOORS for function in floor.functions}
        for function in functions.values():
            box, below = self.boxes[function.shown], [shown for shown in function.over]
            for number, shown in enumerate(below):
                look_up_standing(function, functions[shown])
                other = self.boxes[shown]
                if other.top == box.top:
                    self.beside(box, other)
                    continue
                start = box.left + box.width * (number + 1) / (len(below) + 1)
                middle = other.left + other.width / 2
                if box.left < middle < box.left + box.width:
                    start = middle
                self.drawing.arrow([(start, box.top + box.height), (middle, other.top)], INK, 1.2)

    def beside(self, box: Box, other: Box) -> None:
        """Below the boxes, from left to right or back."""
        side, bottom = (1, box.top + box.height) if box.left < other.left else (-1, box.top + box.height)
        start, end = box.left + box.width / 2 + side * (box.width / 2 - 12), other.left + other.width / 2 - side * (other.width / 2 - 12)
        self.drawing.arrow([(start, bottom), (start, bottom + 14), (end, bottom + 14), (end, bottom)], INK, 1.2)

    def floor(self, floor: Floor, top: float) -> None:
        look_up_citing(floor)
        # lines pass below it
        self.drawing.box(MARGIN, top + 4, text_width(floor.about), LINE, GROUND)
        self.note(MARGIN, top + 15, floor.about, 12)
        for function, box in self.places(floor, top):
            self.function(function, box)
        for number, definition in enumerate(floor.definitions):
            self.definition(definition, top + GAP + number * (2 * LINE + PAD + GAP))

    def function(self, function: Function, box: Box) -> None:
        for clause in function.clauses:
            look_up_clause(function, clause)
        self.drawing.box(*box, "white")
        self.drawing.box(*box, COLOURS[0], COLOURS[0], PALE)
        for row, (words, size, colour) in enumerate(self.lines(function, box.width)):
            self.drawing.text(box.left + PAD, box.top + PAD + 11 + LINE * row, words, size, "start", colour)

    def definition(self, definition: Definition, top: float) -> None:
        look_up_definition(definition)
        colour, width = COLOURS[2] if is_believed(definition) else ASIDE, WIDTH - MARGIN - WORDS_LEFT
        self.drawing.box(WORDS_LEFT, top, width, 2 * LINE + PAD, "white")
        self.drawing.box(WORDS_LEFT, top, width, 2 * LINE + PAD, colour, colour, PALE)
        place = definition.module if definition.crate == "private_store" else f"{definition.crate}, {definition.module}"
        self.drawing.text(WORDS_LEFT + PAD, top + 15, definition.name, 12)
        self.drawing.text(WORDS_LEFT + width - PAD, top + 15, place, SMALL, "end", PALE_INK)
        self.note(WORDS_LEFT + PAD, top + 29, definition.says)

    def legend(self, y: float) -> None:
        left = float(MARGIN)
        for colour, words in (
            (COLOURS[1], "README's sentence"), (COLOURS[0], "function: clause, and what it cites"),
            (COLOURS[2], "definition to believe"), (ASIDE, "for the proof alone"),
        ):
            self.drawing.box(left, y - 10, 12, 12, colour, colour, PALE)
            self.note(left + 17, y, words)
            left += 30 + 1.1 * text_width(words, SMALL)
        self.drawing.arrow([(left, y - 4), (left + 26, y - 4)], INK, 1.2)
        self.note(left + 32, y, "stands on")


def pieces(words: str, mark: str, width: float, size: float) -> List[str]:
    """The words, in two lines at the mark if they are too wide for one."""
    before, found, after = words.partition(mark)
    return [words] if text_width(words, size) <= width or not found else [before + found.rstrip(), after]


def main() -> int:
    options = argparse.ArgumentParser(description=__doc__)
    options.add_argument("-o", "--output", type=Path, required=True, metavar="SVG", help="the file that is written")
    try:
        Picture().drawing.save(options.parse_args().output)
    except (OSError, Missing) as error:
        print(f"proof: {error}", file=sys.stderr)
        return 1
    return 0


if __name__ == "__main__":
    sys.exit(main())
