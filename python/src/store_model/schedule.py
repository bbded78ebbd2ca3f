"""The text of schedules: a line is read as a step, and answered by a world."""

from __future__ import annotations

from typing import Any, Callable, Dict, List, NamedTuple, Optional, Tuple

from .ids import NotAStep, read_bytes, read_id, read_long, read_number, read_task
from .messages import DIRECTORY, Place
from .world import World

DEFAULT_MEMORY = 1 << 20

# of each command what its fields are; an id's text depends on who speaks
COMMANDS: Dict[str, Tuple[Callable[..., Any], ...]] = {
    "create": (read_id, read_number),
    "copy": (read_id, read_number),
    "write": (read_id, read_number, read_bytes),
    "seal": (read_id,),
    "get": (read_id,),
    "read": (read_id, read_number, read_number),
    "release": (read_id,),
    "unpin": (read_id, read_task),
    "borrow": (read_id, read_task),
    "giveup": (read_id, read_task),
    "delete": (read_id,),
    "endtask": (read_task,),
    "grant": (read_id, read_number),
    "withdraw": (read_id, read_number),
    "peek": (read_id, read_number, read_number),
    "list": (),
    "usage": (),
    "leave": (),
}


class Transcript(NamedTuple):
    """What a run prints, a line for each step, and the fault that ends it, if there is one."""

    lines: List[str]
    fault: Optional[str]

    @property
    def output(self) -> str:
        return "".join(line + "\n" for line in self.lines)

    @property
    def error(self) -> str:
        return "" if self.fault is None else self.fault + "\n"

    @property
    def status(self) -> int:
        return 0 if self.fault is None else 1


def run(text: str, nodes: int = 1, memory: int = DEFAULT_MEMORY) -> Transcript:
    """The transcript of a schedule."""
    return run_in(World(nodes, memory), text)


def run_in(world: World, text: str) -> Transcript:
    """The same in this world, which keeps the journal."""
    answers: List[str] = []
    *lines, rest = text.split("\n")
    for number, line in enumerate(lines, 1):
        if line == "" or line.startswith("#"):
            continue
        try:
            answers.append(answer(world, line))
        except NotAStep:
            return Transcript(answers, fault_of(number))
    return Transcript(answers, fault_of(len(lines) + 1) if rest else None)


def fault_of(number: int) -> str:
    return f"store: line {number}: not a step"


def answer(world: World, line: str) -> str:
    """What the program prints for a line."""
    word, *fields = line.split(" ")
    if word not in STEPS:
        raise NotAStep
    return STEPS[word](world, fields)


def check_count(fields: List[str], *counts: int) -> None:
    if len(fields) not in counts:
        raise NotAStep


def read_node(world: World, text: str) -> int:
    node = read_number(text)
    if node >= len(world.nodes):
        raise NotAStep
    return node


def read_place(world: World, text: str) -> Place:
    return DIRECTORY if text == DIRECTORY else read_node(world, text)


def admit(world: World, fields: List[str]) -> str:
    check_count(fields, 4)
    return world.admit(read_node(world, fields[0]), read_number(fields[1]), read_long(fields[2]), read_long(fields[3]))


def quota(world: World, fields: List[str]) -> str:
    check_count(fields, 4)
    return world.quota(read_node(world, fields[0]), read_number(fields[1]), read_long(fields[2]), read_long(fields[3]))


def end(world: World, fields: List[str]) -> str:
    check_count(fields, 2)
    return world.end(read_node(world, fields[0]), read_number(fields[1]))


def command(world: World, fields: List[str]) -> str:
    if len(fields) < 4 or fields[3] not in COMMANDS:
        raise NotAStep
    node, job, session = read_node(world, fields[0]), read_number(fields[1]), read_number(fields[2])
    readers, texts = COMMANDS[fields[3]], fields[4:]
    check_count(texts, len(readers))
    if job == 0:
        raise NotAStep
    values = [read(text, job) if read is read_id else read(text) for read, text in zip(readers, texts)]
    return world.command(node, job, session, fields[3], tuple(values))


def take(world: World, fields: List[str]) -> str:
    check_count(fields, 1)
    return world.take(read_node(world, fields[0]))


def finish(world: World, fields: List[str]) -> str:
    check_count(fields, 4)
    if fields[3] not in ("ok", "fail", "damage"):
        raise NotAStep
    return world.finish(read_node(world, fields[0]), read_number(fields[1]), read_long(fields[2]), fields[3])


def deliver(world: World, fields: List[str]) -> str:
    check_count(fields, 4, 5)
    if len(fields) == 5 and fields[4] != "damage":
        raise NotAStep
    sender, receiver = read_place(world, fields[1]), read_place(world, fields[2])
    return world.deliver(read_number(fields[0]), sender, receiver, read_long(fields[3]), len(fields) == 5)


STEPS: Dict[str, Callable[[World, List[str]], str]] = {
    "admit": admit,
    "quota": quota,
    "end": end,
    "cmd": command,
    "take": take,
    "finish": finish,
    "deliver": deliver,
}
