"""The lines that the control socket takes. Nothing reaches the server that it would take for a fault: what is no order of the
server's own grammar, with a node that is there, is refused here."""

from __future__ import annotations

import re
from dataclasses import dataclass, field
from typing import Callable, Dict, Tuple, Union

# a line is cut here: the longest order has fewer than 150
LONGEST_LINE = 4096
_LONGEST_WORD = 20
_MOST_32_BITS = (1 << 32) - 1
_MOST_64_BITS = (1 << 64) - 1


@dataclass(frozen=True)
class Admit:
    node: int
    job: int
    window: int
    device: int
    # never told by accident
    key: str = field(repr=False)


@dataclass(frozen=True)
class Quota:
    node: int
    job: int
    window: int
    device: int


@dataclass(frozen=True)
class End:
    node: int
    job: int


@dataclass(frozen=True)
class Jobs:
    node: int


@dataclass(frozen=True)
class Usage:
    node: int
    job: int


@dataclass(frozen=True)
class Sessions:
    node: int


@dataclass(frozen=True)
class Streams:
    node: int


@dataclass(frozen=True)
class Kick:
    """Ends one session: at each node the numbers of a job's sessions are its own."""

    node: int
    job: int
    session: int


@dataclass(frozen=True)
class Usages:
    """Of all jobs at all nodes."""


@dataclass(frozen=True)
class AskCounts:
    """The server's own, of all nodes and of all jobs at them."""


@dataclass(frozen=True)
class Ping:
    pass


@dataclass(frozen=True)
class Prometheus:
    pass


@dataclass(frozen=True)
class Status:
    pass


@dataclass(frozen=True)
class Close:
    """With a grace period, or at once."""

    at_once: bool


ServerOrder = Union[Admit, Quota, End]
Order = Union[Admit, Quota, End, Jobs, Usage, Usages, AskCounts, Sessions, Streams, Kick, Ping, Prometheus, Status, Close]


class NotAnOrder(Exception):
    """A line that is none; the text says what was expected."""


def server_line(order: ServerOrder) -> str:
    """The line by which the server is given the order."""
    if isinstance(order, Admit):
        return f"admit {order.node} {order.job} {order.window} {order.device} {order.key}"
    if isinstance(order, Quota):
        return f"quota {order.node} {order.job} {order.window} {order.device}"
    return f"end {order.node} {order.job}"


def told(order: ServerOrder) -> str:
    """The order for a log, without the key."""
    return server_line(order).replace(order.key, "KEY") if isinstance(order, Admit) else server_line(order)


def read_order(line: str, nodes: int) -> Order:
    """The order that a line spells, for a server of so many nodes. `NotAnOrder` otherwise."""
    fields = line.split(" ")
    form = _FORMS.get(fields[0])
    if form is None:
        raise NotAnOrder(f"{_first_word(line)}: the orders are {SUMMARY}")
    if line == "close now":
        return Close(True)
    if len(fields) != len(form.fields) + 1:
        raise NotAnOrder(f"{_first_word(line)}: it is {form.text}, with one space between")
    read = (_READERS[name](name, text, nodes) for name, text in zip(form.fields, fields[1:]))
    try:
        return form.make(*read)
    except ValueError as error:
        raise NotAnOrder(f"{_first_word(line)}: {error}") from error


def _first_word(line: str) -> str:
    """The line's first word, quoted: the rest may hold a key."""
    word, _, rest = line.partition(" ")
    shown = ascii(word[:_LONGEST_WORD])[1:-1].replace('"', '\\"')
    return f'"{shown} .."' if rest or len(word) > _LONGEST_WORD else f'"{shown}"'


def _number(name: str, text: str, most: int) -> int:
    if not re.fullmatch("0|[1-9][0-9]{0,19}", text) or int(text) > most:
        raise ValueError(f"{name} isn't a number from 0 to {most} without sign or leading zero")
    return int(text)


def _node(name: str, text: str, nodes: int) -> int:
    if not re.fullmatch("[0-9]", text) or int(text) >= nodes:
        raise ValueError(f"{name} is a node's number, 0 to {nodes - 1}")
    return int(text)


def _key(name: str, text: str, _: int) -> str:
    if not re.fullmatch("[0-9a-f]{64}", text):
        raise ValueError(f"{name} isn't 64 lower-case hexadecimal digits")
    return text


def _bytes(name: str, text: str, _: int) -> int:
    return _number(name, text, _MOST_64_BITS)


def _job(name: str, text: str, _: int) -> int:
    return _number(name, text, _MOST_32_BITS)


_READERS: Dict[str, Callable[[str, str, int], Union[int, str]]] = {
    "NODE": _node, "JOB": _job, "SESSION": _job, "WINDOW": _bytes, "DEVICE": _bytes, "KEY": _key,
}


@dataclass(frozen=True)
class _Form:
    text: str
    fields: Tuple[str, ...]
    make: Callable[..., Order]


def _form(text: str, make: Callable[..., Order]) -> Tuple[str, _Form]:
    word, *fields = text.split(" ")
    return word, _Form(text, tuple(fields), make)


_FORMS: Dict[str, _Form] = dict(
    [
        _form("admit NODE JOB WINDOW DEVICE KEY", Admit),
        _form("quota NODE JOB WINDOW DEVICE", Quota),
        _form("end NODE JOB", End),
        _form("jobs NODE", Jobs),
        _form("usage NODE JOB", Usage),
        _form("usages", Usages),
        _form("counts", AskCounts),
        _form("sessions NODE", Sessions),
        _form("streams NODE", Streams),
        _form("kick NODE JOB SESSION", Kick),
        _form("ping", Ping),
        _form("metrics", Prometheus),
        _form("status", Status),
        _form("close", lambda: Close(False)),
    ]
)
SUMMARY = ", ".join([*(form.text for form in _FORMS.values()), "close now"])
