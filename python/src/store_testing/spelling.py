"""Commands and replies of a session in the words of a schedule (docs/rules/schedule.md)."""

from __future__ import annotations

import dataclasses
from typing import Callable, Dict, NamedTuple, Tuple

import store_client
from store_client import Connection, Kind, ObjectId, Task


class Call(NamedTuple):
    """Of a command the call that sends it, what reads its fields for a job, and the word of a reply that is due."""

    method: Callable[..., object]
    readers: Tuple[Callable[[str, int], object], ...]
    due: str


def read_bytes(text: str) -> bytes:
    return b"" if text == "-" else bytes.fromhex(text)


def alike(read: Callable[[str], object]) -> Callable[[str, int], object]:
    """What reads a field that means the same for each job."""
    return lambda text, _: read(text)


# an id's text depends on the job that speaks
one = ObjectId.parse
number, task, contents = alike(int), alike(Task.parse), alike(read_bytes)
CALLS: Dict[str, Call] = {
    "create": Call(Connection.create, (one, number), "placed"),
    "copy": Call(lambda store, id, length: store.create(id, length, Kind.SECONDARY), (one, number), "placed"),
    "createwait": Call(lambda store, id, length: store.create(id, length, wait=True), (one, number), "placed"),
    "copywait": Call(lambda store, id, length: store.create(id, length, Kind.SECONDARY, True), (one, number), "placed"),
    "write": Call(Connection.write, (one, number, contents), "ok"),
    "seal": Call(Connection.seal, (one,), "ok"),
    "get": Call(Connection.hold, (one,), "got"),
    "getwait": Call(lambda store, id: store.hold(id, wait=True), (one,), "got"),
    "read": Call(Connection.read, (one, number, number), "bytes"),
    "release": Call(Connection.release, (one,), "ok"),
    "unpin": Call(Connection.unpin, (one, task), "ok"),
    "borrow": Call(Connection.borrow, (one, task), "ok"),
    "giveup": Call(Connection.give_up, (one, task), "ok"),
    "delete": Call(Connection.delete, (one,), "ok"),
    "endtask": Call(Connection.end_task, (task,), "ok"),
    "grant": Call(Connection.grant, (one, number), "ok"),
    "withdraw": Call(Connection.withdraw, (one, number), "ok"),
    "peek": Call(Connection.peek, (one, number, number), "bytes"),
    "list": Call(Connection.list, (), "list"),
    "usage": Call(Connection.usage, (), "usage"),
    "leave": Call(Connection.leave, (), "ok"),
}


def call(store: Connection, said: str) -> object:
    """What the command that is so spelled gives, or the refusal."""
    word, *fields = said.split(" ")
    method, readers, _ = CALLS[word]
    try:
        return method(store, *(read(field, store.job) for read, field in zip(readers, fields)))
    except store_client.Refused as refused:
        return refused


def spelled(reply: object, job: int) -> str:
    """What a call gave, as a schedule's answer spells it for this job."""
    if reply is None:
        return "ok"
    if isinstance(reply, bytes):
        return f"bytes {reply.hex() or '-'}"
    if isinstance(reply, store_client.Placed):
        return f"placed {reply.offset} {reply.length}"
    if isinstance(reply, store_client.Usage):
        return " ".join(["usage", *map(str, dataclasses.astuple(reply))])
    if isinstance(reply, store_client.Refused):
        return f"refused {reply.number} {type(reply).__name__}"
    if isinstance(reply, int):
        return f"got {reply}"
    assert isinstance(reply, tuple), f"{reply!r}"
    own = [f" {item.id.text(job)}:{item.state.name.lower()}:{item.kind.name.lower()}:{item.length}" for item in reply[0]]
    granted = [f" {item.id.text(job)}:granted:{item.length}:{item.depth}" for item in reply[1]]
    return "".join(["list", *own, *granted])
