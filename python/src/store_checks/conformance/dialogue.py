"""Dialogues read from their files: what a client sends and a server answers, in bytes. README.md has the format."""

from __future__ import annotations

import enum
import re
from pathlib import Path
from typing import Dict, List, NamedTuple, Optional, Tuple

from store_testing import ROOT

FOLDER = ROOT / "tests/conformance/dialogues"
# what stands for a byte so many times
_REPEATED = re.compile(r"\b([0-9a-f]{2})\*(\d+)\b")
_BYTES = re.compile(r"(?:(\d+)|(\?))?([<>])(?: (.*))?")
_KEY_BYTES = 32


class Fault(Exception):
    """What isn't as it should be."""


class Audience(enum.Enum):
    """What a dialogue is played with."""

    CLIENTS = "clients"
    SERVERS = "servers"
    BOTH = "both"


class Act(enum.Enum):
    """What happens in a step of a dialogue."""

    SENDS = ">"
    ANSWERS = "<"
    HALF_CLOSES = "half-close"
    CLOSES = "closed"
    ASKED = "do"
    SAYS = "said"


class Job(NamedTuple):
    """A job that the server has: its number, its window and its device quota in bytes."""

    number: int
    window: int
    device: int


class Step(NamedTuple):
    """A step, the line that has it, the session whose it is, and its bytes or words."""

    act: Act
    line: int
    session: int = 1
    data: bytes = b""
    words: str = ""
    # steps of one group, other than 0, may come in any order; some needn't come
    group: int = 0
    is_optional: bool = False


class Dialogue(NamedTuple):
    """A dialogue. Session 1 is that of the client, which speaks for this job."""

    name: str
    audience: Audience
    jobs: Tuple[Job, ...]
    speaker: int
    steps: Tuple[Step, ...]

    @property
    def is_for_clients(self) -> bool:
        return self.audience is not Audience.SERVERS

    @property
    def is_for_servers(self) -> bool:
        return self.audience is not Audience.CLIENTS

    def asked(self) -> List[str]:
        """What the client is asked to do, but for the hello that it begins with."""
        return [step.words for step in self.steps if step.act is Act.ASKED][1:]

    def said(self) -> List[str]:
        """What the client has to print, line by line."""
        return [step.words for step in self.steps if step.act is Act.SAYS]


def key_of(job: int) -> bytes:
    """A job's key in all dialogues."""
    return bytes([job]) * _KEY_BYTES


def read(path: Path) -> Dialogue:
    """The dialogue of a file. `Fault` if it can't be read."""
    return parse(path.stem, path.read_text(encoding="utf-8"))


def parse(name: str, text: str) -> Dialogue:
    """The dialogue of a text. `Fault` if it can't be read."""
    reader = _Reader(name)
    for number, line in _repeated(name, text):
        reader.take(number, line)
    return reader.dialogue()


def _repeated(name: str, text: str) -> List[Tuple[int, str]]:
    """The lines that say something, with their numbers; what stands between `repeat N` and `end repeat` so many times. A line that
    begins with a space goes on with the line before."""
    lines: List[Tuple[int, str]] = []
    start: Optional[int] = None
    times = 0
    for number, whole in enumerate(text.splitlines(), 1):
        line = whole.partition("#")[0].strip()
        if line.startswith("repeat ") and start is None and line[7:].isdecimal():
            start, times = len(lines), int(line[7:])
        elif line == "end repeat" and start is not None:
            lines[start:] = lines[start:] * times
            start = None
        elif line and whole.startswith(" ") and lines:
            lines[-1] = (lines[-1][0], f"{lines[-1][1]} {line}")
        elif line:
            lines.append((number, line))
    if start is not None:
        raise Fault(f"{name}: a repeat has no end")
    return lines


class _Reader:
    """Takes the lines of a file."""

    def __init__(self, name: str) -> None:
        self._name = name
        self._audience: Optional[Audience] = None
        self._jobs: List[Job] = []
        self._speaker = 1
        self._steps: List[Step] = []
        self._groups = 0
        self._group = 0

    def take(self, number: int, line: str) -> None:
        word, _, rest = line.partition(" ")
        found = _BYTES.fullmatch(line)
        if found:
            self._steps.append(self._moving(number, found))
        elif word in ("for", "job", "as"):
            self._take_head(number, word, rest)
        elif line in ("any order", "end order"):
            self._take_border(number, line == "any order")
        elif line in (Act.HALF_CLOSES.value, Act.CLOSES.value):
            self._steps.append(Step(Act(line), number))
        elif word in (Act.ASKED.value, Act.SAYS.value) and rest:
            self._steps.append(Step(Act(word), number, words=_REPEATED.sub(_digits, rest).replace("+", "")))
        else:
            raise self._fault(number, f"nothing is said by {line!r}")

    def _take_head(self, number: int, word: str, rest: str) -> None:
        words = rest.split()
        if self._steps:
            raise self._fault(number, f"{word} stands before what is sent")
        if word == "for" and rest in {one.value for one in Audience}:
            self._audience = Audience(rest)
        elif word == "as" and rest.isdecimal():
            self._speaker = int(rest)
        elif word == "job" and len(words) == 3 and all(one.isdecimal() for one in words):
            self._jobs.append(Job(*map(int, words)))
        else:
            raise self._fault(number, f"nothing is said by {word} {rest}")

    def _take_border(self, number: int, is_begin: bool) -> None:
        if is_begin == bool(self._group):
            raise self._fault(number, "an order begins in another, or ends before it begins")
        self._groups += is_begin
        self._group = self._groups if is_begin else 0

    def _moving(self, number: int, found: re.Match[str]) -> Step:
        session, optional, act, digits = found.groups()
        try:
            data = bytes.fromhex(_REPEATED.sub(_digits, digits or ""))
        except ValueError:
            raise self._fault(number, "what is sent or answered are bytes, of two digits each") from None
        if not data:
            raise self._fault(number, "no bytes are sent or answered")
        if optional and not self._group:
            raise self._fault(number, "what needn't come stands in an order")
        return Step(Act(act), number, int(session or 1), data, "", self._group, bool(optional))

    def dialogue(self) -> Dialogue:
        if self._audience is None or not self._jobs or self._group:
            raise Fault(f"{self._name}: it says for whom it is, and which jobs there are; and each order ends")
        dialogue = Dialogue(self._name, self._audience, tuple(self._jobs), self._speaker, tuple(self._steps))
        if dialogue.is_for_servers and not any(step.act in (Act.ANSWERS, Act.CLOSES) for step in self._steps):
            raise Fault(f"{self._name}: no server has to do anything")
        if dialogue.is_for_clients:
            self._check_for_clients(dialogue)
        return dialogue

    def _check_for_clients(self, dialogue: Dialogue) -> None:
        asked = [step for step in dialogue.steps if step.act is Act.ASKED]
        if not asked or asked[0].words != "hello" or len(asked) != len(dialogue.said()):
            raise Fault(f"{self._name}: a client is asked to do something, first hello, and each time says what came")
        for step in dialogue.steps:
            if step.act is Act.HALF_CLOSES:
                raise self._fault(step.line, "no client is asked to close one direction")
            if step.act is Act.SENDS and step.session == 1 and int.from_bytes(step.data[:4], "big") != len(step.data) - 4:
                raise self._fault(step.line, "a client sends frames, each in a line of its own")

    def _fault(self, number: int, what: str) -> Fault:
        return Fault(f"{self._name}:{number}: {what}")


def _digits(found: re.Match[str]) -> str:
    return found.group(1) * int(found.group(2))


class Exchange(NamedTuple):
    """A command that a client has to send, and what is answered to it. The line, group and option are those of the command."""

    command: Step
    reply: bytes
    # that the server closes after it
    closes: bool


def exchanges(dialogue: Dialogue) -> List[Exchange]:
    """The commands of the client with their replies: replies come in the order of the commands."""
    own = [step for step in dialogue.steps if step.session == 1]
    commands = [step for step in own if step.act is Act.SENDS]
    replies = [step.data for step in own if step.act is Act.ANSWERS]
    closes = any(step.act is Act.CLOSES for step in own)
    if not len(commands) - closes <= len(replies) <= len(commands):
        raise Fault(f"{dialogue.name}: {len(commands)} commands have {len(replies)} replies")
    replies += [b""] * (len(commands) - len(replies))
    last = len(commands) - 1
    return [Exchange(command, reply, closes and place == last) for place, (command, reply) in enumerate(zip(commands, replies))]


def all_dialogues() -> Dict[str, Dialogue]:
    """All dialogues of the kit, by name. `Fault` if one can't be read."""
    return {path.stem: read(path) for path in sorted(FOLDER.glob("*.dialogue"))}
