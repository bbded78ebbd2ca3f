"""The answers of a saved journal's lines: what one says, and how one is printed in each version."""

from __future__ import annotations

import re
from typing import Any, Callable, Dict, List, Tuple

from .ids import NotAStep, read_id, read_long, read_number
from .words import Kind, State

# all refusals that a text may name, by number; a journal's own lines have neither 19 nor 20
NAMES = (
    "NotAdmitted BadId Exists Absent NotSealed AlreadySealed BadSize OutOfBounds Full Pending NotHeld Granted NotGranted "
    "DeviceFailed Damaged Busy TooMany Gone NoMemory Malformed NoRoom NotOwner NotResident Stale"
).split(" ")
STATES = {state.value for state in State}
KINDS = {kind.value for kind in Kind}
DEPTH_OF_ITEM = re.compile(r"(:granted:[0-9]+):[0-9]+")


def in_version(answer: str, version: int) -> str:
    """The answer as a journal of this version has it."""
    if version == 1 and answer.startswith("list"):
        return DEPTH_OF_ITEM.sub(r"\1", answer)
    return answer


def read_answer(text: str, job: int, version: int, is_command: bool) -> Tuple[Any, ...]:
    """What an answer says. What isn't a command has `ok` or a refusal."""
    word, *fields = text.split(" ")
    if word == "list" and is_command:
        return (word, *read_items(fields, job, version))
    if word not in ANSWERS or not (is_command or word in ("ok", "refused")):
        raise NotAStep
    return (word, *ANSWERS[word](fields))


def read_each(*readers: Callable[[str], int]) -> Callable[[List[str]], Tuple[Any, ...]]:
    """So many fields, each read by its own reader."""

    def read(fields: List[str]) -> Tuple[Any, ...]:
        if len(fields) != len(readers):
            raise NotAStep
        return tuple(reader(text) for reader, text in zip(readers, fields))

    return read


def read_count(text: str) -> int:
    if not text.startswith("#"):
        raise NotAStep
    return read_long(text[1:])


def read_refusal(fields: List[str]) -> Tuple[Any, ...]:
    if len(fields) != 2 or fields[1] not in NAMES or read_number(fields[0]) != NAMES.index(fields[1]) + 1:
        raise NotAStep
    return (fields[1],)


def read_items(fields: List[str], job: int, version: int) -> List[Tuple[Any, ...]]:
    """The items of a list: no own one comes after a granted one."""
    items = [read_item(text.split(":"), job, version) for text in fields]
    is_granted = [item[1] == "granted" for item in items]
    if is_granted != sorted(is_granted):
        raise NotAStep
    return items


def read_item(parts: List[str], job: int, version: int) -> Tuple[Any, ...]:
    one, word, rest = read_id(parts[0], job), parts[1] if len(parts) > 1 else "", parts[2:]
    if word == "granted":
        numbers = [read_number(text) for text in rest]
        if len(numbers) != (1 if version == 1 else 2) or numbers[1:] == [0]:
            raise NotAStep
        return (one, word, *numbers)
    if word not in STATES or len(rest) != 2 or rest[0] not in KINDS:
        raise NotAStep
    return one, word, rest[0], read_number(rest[1])


ANSWERS: Dict[str, Callable[[List[str]], Tuple[Any, ...]]] = {
    "ok": read_each(),
    "placed": read_each(read_number, read_number),
    "got": read_each(read_number),
    "bytes": read_each(read_count),
    "usage": read_each(*[read_long] * 6),
    "refused": read_refusal,
}
