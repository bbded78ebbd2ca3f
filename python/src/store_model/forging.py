"""Forges saved journals by seed: the journal of a drawn schedule, with lines that no run would have saved."""

from __future__ import annotations

import random
import re
from typing import Callable, Dict, List

from .choosing import INDEXES, NUMBERS, TASKS
from .drawing import draw
from .ids import ObjectId
from .replay import NotAnEntry, differences, read_journal
from .words import LARGEST_DEVICE_QUOTA, LARGEST_WINDOW

# of lines of the drawn journal that are forged further
MOST_LINES = 400
MOST_FORGERIES = 4
# how often a forgery needn't leave all lines entries
BREAKING = 0.12
# how often all answers are made right, so that the whole of a forged journal is replayed; and how often one of them is wrong again
MENDED, WRONG_AGAIN = 0.7, 0.3
LIMITS = [LARGEST_WINDOW, LARGEST_WINDOW + 16, LARGEST_DEVICE_QUOTA, LARGEST_DEVICE_QUOTA + 1, (1 << 64) - 1, 1 << 64]
QUOTAS = [0, 1, 15, 16, 17, 48, 64, *LIMITS]
LENGTHS = [0, 1, 20, 16 << 20, (16 << 20) + 1]
JUDGED = {"answer": ("ok", "damage", "fail"), "chunk": ("ignored", "part", "whole", "damaged"), "pull": ("match", "other")}
# what stands for a character, among it what no line has
CHARACTERS = " \t\r\x00\xff0123456789:#=/-tsnjAz"
# a line's place, its number, its input and its answer
ENTRY = re.compile(r"(n\d+ j\d+)( \d+ )(.+)( = .*)")
GRANTS = ("received", "withdrawn")


def forge(seed: int) -> str:
    """The text of a forged journal, whose characters are bytes."""
    return Forgery(random.Random(f"forged {seed}"), draw(seed).journal).text()


class Forgery:
    """A journal that is being forged. Its lines have no line feeds; the first is the version."""

    def __init__(self, lot: random.Random, journal: str) -> None:
        self.lot = lot
        self.lines = journal.splitlines()[: MOST_LINES + 1]

    def text(self) -> str:
        for _ in range(self.lot.randint(1, MOST_FORGERIES)):
            self.lot.choice(BREAKING_WAYS if self.likely(BREAKING) else WAYS)(self)
        if self.likely(MENDED):
            self.mend()
            if self.likely(WRONG_AGAIN):
                self.other_answer()
        text = "".join(line + "\n" for line in self.lines)
        return text[: self.lot.randrange(len(text) + 1)] if self.likely(BREAKING / 3) else text

    def likely(self, chance: float) -> bool:
        return self.lot.random() < chance

    # ---- where

    def any_line(self) -> int:
        """A line after the first, if there is one."""
        return self.lot.randrange(1, len(self.lines)) if len(self.lines) > 1 else 0

    def insert(self, said: str, answer: str) -> None:
        """A line of a job and node that have others, with its number; what comes after it counts on."""
        at = self.any_line()
        beside = ENTRY.fullmatch(self.lines[at])
        place = beside[1] if beside else "n0 j1"
        self.lines.insert(at or 1, f"{place} 0 {said} = {answer}")
        self.renumber()

    def renumber(self) -> None:
        counts: Dict[str, int] = {}
        for at, line in enumerate(self.lines[1:], 1):
            entry = ENTRY.fullmatch(line)
            if entry:
                counts[entry[1]] = counts.get(entry[1], 0) + 1
                self.lines[at] = f"{entry[1]} {counts[entry[1]]} {entry[3]}{entry[4]}"

    def any_id(self) -> str:
        if self.likely(0.7):
            at = self.any_line()
            found = re.findall(r"(?:\d+/)?t\d+\.\d+", self.lines[at])
            if found:
                return str(self.lot.choice(found))
        return ObjectId(self.lot.choice(TASKS), self.lot.randrange(1, 5), self.lot.choice(INDEXES)).text(self.lot.randrange(1, 5))

    # ---- ways to forge

    def other_word(self) -> None:
        """What the contents decided is told otherwise."""
        entries = [(at, ENTRY.fullmatch(line)) for at, line in enumerate(self.lines)]
        judged = [(at, entry) for at, entry in entries if entry and entry[3].split(" ")[0] in JUDGED]
        if judged:
            at, entry = self.lot.choice(judged)
            word, *fields = entry[3].split(" ")
            said = " ".join([word, *fields[:-1], self.lot.choice(JUDGED[word])])
            self.lines[at] = entry[1] + entry[2] + said + entry[4]

    def other_input(self) -> None:
        """A line has the input of another one of its job."""
        at = self.any_line()
        first = ENTRY.fullmatch(self.lines[at])
        others = [other for other in map(ENTRY.fullmatch, self.lines[1:]) if other and first and other[1] == first[1]]
        if others and first:
            self.lines[at] = first[1] + first[2] + self.lot.choice(others)[3] + first[4]

    def other_answer(self) -> None:
        """A line has the answer of another one of its kind: of a command, or of something else."""
        at = self.any_line()
        first = ENTRY.fullmatch(self.lines[at])
        others = [
            other for other in map(ENTRY.fullmatch, self.lines[1:])
            if other and first and (other[1].split(" ")[1], other[3][0] == "s") == (first[1].split(" ")[1], first[3][0] == "s")
        ]
        if others and first:
            self.lines[at] = first[1] + first[2] + first[3] + self.lot.choice(others)[4]

    def stale_answer(self) -> None:
        """An answer of a device, or a message, that nobody waits for."""
        number = self.lot.choice([1, 2, 3, 99, (1 << 64) - 1])
        said = self.lot.choice([
            f"answer {number} {self.lot.choice(JUDGED['answer'])}",
            f"chunk {self.any_id()} {number} {self.lot.randrange(3)} 1 {self.lot.choice(JUDGED['chunk'])}",
            f"pull {self.any_id()} {number} {self.lot.choice(JUDGED['pull'])}",
            f"nothere {self.any_id()} {number} {self.lot.randrange(9)}",
            f"located {self.any_id()} {number}{self.any_locations()}",
        ])
        self.insert(said, self.lot.choice(["ok", "refused 24 Stale"]))

    def any_locations(self) -> str:
        digits = self.lot.choice("0123456789abcdefAg") * self.lot.choice([64, 64, 64, 63])
        places = [f" {self.lot.randrange(4)}:{self.lot.choice(LENGTHS)}:{digits}" for _ in range(self.lot.randrange(4))]
        return "".join(places)

    def odd_quota(self) -> None:
        word = self.lot.choice(["begin", "quota", "quota"])
        self.insert(f"{word} {self.lot.choice(QUOTAS)} {self.lot.choice(QUOTAS)}", self.lot.choice(["ok", "refused 7 BadSize"]))

    def end(self) -> None:
        self.insert("end", "ok")

    def grant(self) -> None:
        """A grant that nobody gave, or its end."""
        grantor, depth = self.lot.randrange(5), self.lot.randrange(5)
        length = f" {self.lot.choice(LENGTHS)}" if self.lot.random() < 0.6 else ""
        word = "received" if length else "withdrawn"
        self.insert(f"{word} {self.any_id()}{length} {grantor} {depth}", "ok")

    def odd_number(self) -> None:
        """A number of an input is another one."""
        at = self.any_line()
        entry = ENTRY.fullmatch(self.lines[at])
        # what a job sees of another's has to have room in the model
        if not entry or entry[3].startswith("received"):
            return
        numbers = list(re.finditer(r"(?<![\w:])\d+(?!\w)", entry[3]))
        if numbers:
            found = self.lot.choice(numbers)
            number = self.lot.choice([*NUMBERS, int(found[0]) + 1])
            self.lines[at] = entry[1] + entry[2] + entry[3][: found.start()] + str(number) + entry[3][found.end() :] + entry[4]

    def other_place(self) -> None:
        """A line is of another job or node."""
        at = self.any_line()
        entry = ENTRY.fullmatch(self.lines[at])
        if entry:
            place = f"n{self.lot.choice([0, 1, 7])} j{self.lot.randrange(1, 5)}"
            self.lines[at] = place + entry[2] + entry[3] + entry[4]
            self.renumber()

    def lost_line(self) -> None:
        at = self.any_line() or 1
        self.lines[at : at + 1] = []
        self.renumber()

    def lines_exchanged(self) -> None:
        first, second = self.any_line(), self.any_line()
        self.lines[first], self.lines[second] = self.lines[second], self.lines[first]
        self.renumber()

    def line_twice(self) -> None:
        self.lines.insert(self.any_line() or 1, self.lines[self.any_line()])
        self.renumber()

    def numbers_out_of_order(self) -> None:
        """A line is twice there, isn't there, or is in another place, and the numbers stay."""
        at, line = self.any_line(), self.lines[self.any_line()]
        self.lines[at : at + self.lot.randrange(2)] = self.lot.choice([[], [line], [line, self.lines[at]]])

    def odd_digits(self) -> None:
        """A number of a line has no text that it may have, or is beyond its range."""
        at = self.any_line()
        numbers = list(re.finditer(r"\d+", self.lines[at]))
        if numbers:
            found = self.lot.choice(numbers)
            text = self.lot.choice(["0" + found[0], "-1", "+1", "", "4294967296", "18446744073709551616", "8"])
            self.lines[at] = self.lines[at][: found.start()] + text + self.lines[at][found.end() :]

    def cut_line(self) -> None:
        at = self.any_line()
        self.lines[at] = self.lines[at][: self.lot.randrange(len(self.lines[at]) + 1)]

    def odd_character(self) -> None:
        at = self.any_line()
        place, line = self.lot.randrange(len(self.lines[at]) + 1), self.lines[at]
        self.lines[at] = line[:place] + self.lot.choice(CHARACTERS) + line[place + self.lot.randrange(2) :]

    def odd_head(self) -> None:
        self.lines[0] = self.lot.choice(["journal 1", "journal 2", "journal 4", "journal 03", "journal", ""])

    def full_id(self) -> None:
        """An id of an input in its full text, of whatever job."""
        at = self.any_line()
        said, equals, answer = self.lines[at].partition(" = ")
        found = re.search(r"(?:(\d{1,9})/)?t(\d{1,9})\.(\d{1,9})", said)
        if found:
            job = int(found[1] or self.lot.randrange(5))
            full = ObjectId(int(found[2]).to_bytes(20, "big"), job, int(found[3])).full_text()
            self.lines[at] = said[: found.start()] + full + said[found.end() :] + equals + answer

    def other_version(self) -> None:
        """The lines as an earlier version has them."""
        self.lines[0] = self.lot.choice(["journal 1", "journal 2"])
        entries = [line for line in self.lines[1:] if " quota " not in line]
        self.lines[1:] = map(as_first_version, entries) if self.lines[0] == "journal 1" else entries
        self.renumber()

    def mend(self) -> None:
        """Gives each line the right answer, if all are entries."""
        try:
            entries = read_journal("".join(line + "\n" for line in self.lines))
        except NotAnEntry:
            return
        for entry, due in differences(entries):
            said = self.lines[entry.line - 1].partition(" = ")[0]
            self.lines[entry.line - 1] = f"{said} = {due}"


def as_first_version(line: str) -> str:
    """A line of version 3 as version 1 has it, whatever that then says."""
    said, equals, answer = line.partition(" = ")
    fields = said.split(" ")
    if len(fields) > 4 and fields[3] in GRANTS:
        said = " ".join(fields[:-2])
    return said + equals + re.sub(r"(:granted:\d+):\d+", r"\1", answer)


# after these a journal may still have entries alone
WAYS: List[Callable[[Forgery], None]] = [
    Forgery.other_word,
    Forgery.other_word,
    Forgery.other_input,
    Forgery.other_answer,
    Forgery.stale_answer,
    Forgery.stale_answer,
    Forgery.odd_quota,
    Forgery.odd_quota,
    Forgery.end,
    Forgery.grant,
    Forgery.grant,
    Forgery.odd_number,
    Forgery.other_place,
    Forgery.lost_line,
    Forgery.lines_exchanged,
    Forgery.line_twice,
    Forgery.full_id,
    Forgery.other_version,
]
BREAKING_WAYS: List[Callable[[Forgery], None]] = [
    Forgery.numbers_out_of_order,
    Forgery.odd_digits,
    Forgery.cut_line,
    Forgery.odd_character,
    Forgery.odd_head,
]
