"""Tasks and objects, their bytes, and their texts."""

from __future__ import annotations

import re
import struct
from dataclasses import dataclass
from typing import Any, Union

from .checks import LAST_NUMBER, whole_number

_NUMBERED = bytes(12)
_SHORT_TASK = re.compile(r"t(0|[1-9][0-9]*)")
_SHORT_OBJECT = re.compile(r"(?:(0|[1-9][0-9]*)/)?t(0|[1-9][0-9]*)\.(0|[1-9][0-9]*)")


@dataclass(frozen=True, order=True)
class Task:
    """A task of a job: 20 bytes."""

    value: bytes

    def __post_init__(self) -> None:
        if not isinstance(self.value, bytes):
            raise TypeError(f"a task has 20 bytes, not {type(self.value).__name__}: Task.numbered and Task.parse make one")
        if len(self.value) != 20:
            raise ValueError(f"a task has 20 bytes, not {len(self.value)}")

    @classmethod
    def numbered(cls, number: int) -> Task:
        """The task of this number, 0 to 18,446,744,073,709,551,615: its text is `tN`."""
        return cls(_NUMBERED + struct.pack(">Q", whole_number(number, "a task's number", 0, 2**64 - 1)))

    @classmethod
    def parse(cls, text: str) -> Task:
        """The task of a text: `tN`, or 40 lower-case hexadecimal digits."""
        short = _SHORT_TASK.fullmatch(_text(text, "a task"))
        if short:
            return cls.numbered(int(short.group(1)))
        return cls(_from_hex(text, 20, "task", "t1"))

    def __str__(self) -> str:
        if self.value.startswith(_NUMBERED):
            return f"t{int.from_bytes(self.value[12:], 'big')}"
        return self.value.hex()

    def __repr__(self) -> str:
        return f"Task.parse({str(self)!r})"

    def object(self, index: int, *, job: int) -> ObjectId:
        """The job's object of this index, from 1, in the task."""
        return ObjectId(self, job, index)


@dataclass(frozen=True, order=True)
class ObjectId:
    """An object: its owner task, its job, and its index in the task. Ids are in order of their bytes."""

    task: Task
    job: int
    index: int

    def __post_init__(self) -> None:
        expect_task(self.task)
        for name in ("job", "index"):
            number = whole_number(getattr(self, name), f"the {name} of an object", 1, LAST_NUMBER)
            # an int, also if it was one of numpy's
            object.__setattr__(self, name, number)

    @classmethod
    def from_bytes(cls, value: Union[bytes, bytearray, memoryview]) -> ObjectId:
        """The object of 28 bytes."""
        if not isinstance(value, (bytes, bytearray, memoryview)):
            raise TypeError(f"an id has 28 bytes, not {type(value).__name__}")
        if len(value) != 28:
            raise ValueError(f"an id has 28 bytes, not {len(value)}")
        job, index = struct.unpack(">II", value[20:])
        return cls(Task(bytes(value[:20])), job, index)

    @classmethod
    def parse(cls, text: str, job: int = 0) -> ObjectId:
        """The object of a text, spoken by this job: `tN.I`, `J/tN.I`, or 56 lower-case hexadecimal digits. Without a job the text has to
        name its own, as `repr` and `str` do."""
        short = _SHORT_OBJECT.fullmatch(_text(text, "an id"))
        if short:
            owner, number, index = short.groups()
            if owner is None and job == 0:
                raise ValueError(f"{text!r} doesn't say of which job it is: say which job speaks, or write it like 1/{text}")
            if owner is not None and int(owner) == job:
                raise ValueError(f"{text!r} is no id: the job's own are written without its number")
            return cls(Task.numbered(int(number)), job if owner is None else int(owner), int(index))
        return cls.from_bytes(_from_hex(text, 28, "id", f"t1.1, or {job + 1}/t1.1 of job {job + 1}"))

    def to_bytes(self) -> bytes:
        """Its 28 bytes."""
        return self.task.value + struct.pack(">II", self.job, self.index)

    def text(self, job: int) -> str:
        """Its text, spoken by this job: the short one if there is one."""
        if not self.task.value.startswith(_NUMBERED):
            return self.to_bytes().hex()
        short = f"{self.task}.{self.index}"
        return short if job == self.job else f"{self.job}/{short}"

    def __str__(self) -> str:
        return self.text(0)

    def __repr__(self) -> str:
        return f"ObjectId.parse({str(self)!r})"


def expect_id(value: Any) -> ObjectId:
    """The value, which is an id."""
    if isinstance(value, ObjectId):
        return value
    if isinstance(value, str):
        raise TypeError("an ObjectId was expected, not str: ObjectId.parse reads its text")
    if isinstance(value, (bytes, bytearray)):
        raise TypeError(f"an ObjectId was expected, not {type(value).__name__}: ObjectId.from_bytes reads its 28 bytes")
    raise TypeError(f"an ObjectId was expected, not {type(value).__name__}")


def expect_task(value: Any) -> Task:
    """The value, which is a task."""
    if isinstance(value, Task):
        return value
    raise TypeError(f"a Task was expected, not {type(value).__name__}: Task.numbered and Task.parse make one")


def _text(value: Any, what: str) -> str:
    if not isinstance(value, str):
        raise TypeError(f"the text of {what} was expected, not {type(value).__name__}")
    return value


def _from_hex(text: str, length: int, what: str, like: str) -> bytes:
    if not re.fullmatch(f"[0-9a-f]{{{2 * length}}}", text):
        raise ValueError(f"{text!r} is no {what}: one looks like {like}, or has {2 * length} lower-case hexadecimal digits")
    return bytes.fromhex(text)
