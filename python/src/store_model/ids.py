"""Ids of objects and tasks, their texts, and the fields of a line."""

from __future__ import annotations

import re
from typing import NamedTuple

TASK_BYTES = 20
# a task whose bytes begin with these has a short text
SHORT_TASK = bytes(12)

NUMBER = re.compile(r"0|[1-9][0-9]*")
FULL_ID = re.compile(r"[0-9a-f]{56}")
SHORT_ID = re.compile(r"(?:([0-9]+)/)?t([0-9]+)\.([0-9]+)")
FULL_TASK = re.compile(r"[0-9a-f]{40}")
BYTES = re.compile(r"(?:[0-9a-f]{2})+")


class NotAStep(Exception):
    """The line isn't of the grammar."""


class ObjectId(NamedTuple):
    """An object's id. Ids are ordered as these three parts are, which is the order of their bytes."""

    task: bytes
    job: int
    index: int  # type: ignore[assignment]  # nobody asks a tuple for a value's place

    def text(self, speaker: int) -> str:
        """The id as it is printed for a job."""
        if not self.task.startswith(SHORT_TASK):
            return self.full_text()
        short = f"{task_text(self.task)}.{self.index}"
        return short if self.job == speaker else f"{self.job}/{short}"

    def full_text(self) -> str:
        return (self.task + self.job.to_bytes(4, "big") + self.index.to_bytes(4, "big")).hex()


def short_task(number: int) -> bytes:
    """The task whose text is t and this number."""
    return number.to_bytes(TASK_BYTES, "big")


def task_text(task: bytes) -> str:
    return f"t{int.from_bytes(task, 'big')}" if task.startswith(SHORT_TASK) else task.hex()


def read_number(text: str, bits: int = 32) -> int:
    """A decimal number below two to the power of `bits`."""
    # no number of 64 bits has more digits than 20
    if len(text) > 20 or not NUMBER.fullmatch(text):
        raise NotAStep
    number = int(text)
    if number >> bits:
        raise NotAStep
    return number


def read_long(text: str) -> int:
    return read_number(text, 64)


def read_id(text: str, speaker: int) -> ObjectId:
    """The id of a text that a job says."""
    if FULL_ID.fullmatch(text):
        data = bytes.fromhex(text)
        one = ObjectId(data[:20], int.from_bytes(data[20:24], "big"), int.from_bytes(data[24:], "big"))
    else:
        one = read_short_id(text, speaker)
    if one.job == 0 or one.index == 0:
        raise NotAStep
    return one


def read_short_id(text: str, speaker: int) -> ObjectId:
    parts = SHORT_ID.fullmatch(text)
    if parts is None:
        raise NotAStep
    owner, task, index = parts.groups()
    job = speaker if owner is None else read_number(owner)
    if owner is not None and job == speaker:
        raise NotAStep
    return ObjectId(short_task(read_long(task)), job, read_number(index))


def read_task(text: str) -> bytes:
    if FULL_TASK.fullmatch(text):
        return bytes.fromhex(text)
    if not text.startswith("t"):
        raise NotAStep
    return short_task(read_long(text[1:]))


def read_bytes(text: str) -> bytes:
    if text == "-":
        return b""
    if not BYTES.fullmatch(text):
        raise NotAStep
    return bytes.fromhex(text)
