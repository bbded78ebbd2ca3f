"""What nodes and the directory say to each other, and what the directory keeps of one job."""

from __future__ import annotations

from typing import Dict, List, NamedTuple, Optional, Tuple, Union

from .ids import ObjectId

DIRECTORY = "d"
# a node's number, or the directory
Place = Union[int, str]


class AddLocation(NamedTuple):
    one: ObjectId
    node: int
    length: int
    digest: bytes


class RemoveLocation(NamedTuple):
    one: ObjectId
    node: int


class Free(NamedTuple):
    one: ObjectId


class EndJob(NamedTuple):
    node: int


class Locate(NamedTuple):
    one: ObjectId
    node: int
    number: int


class Entry(NamedTuple):
    """A location: a node that has an object, with the object's length and digest."""

    node: int
    length: int
    digest: bytes


class Located(NamedTuple):
    one: ObjectId
    number: int
    entries: Tuple[Entry, ...]


class Pull(NamedTuple):
    one: ObjectId
    number: int
    length: int
    digest: bytes
    indexes: Tuple[int, ...]


class Chunk(NamedTuple):
    one: ObjectId
    number: int
    index: int  # type: ignore[assignment]  # nobody asks a tuple for a value's place
    content: bytes


class NotHere(NamedTuple):
    one: ObjectId
    number: int


Message = Union[AddLocation, RemoveLocation, Free, EndJob, Locate, Located, Pull, Chunk, NotHere]


def damaged(message: Message) -> Message:
    """The message with the low bit of a chunk's first byte turned."""
    if isinstance(message, Chunk) and message.content:
        first = message.content[0] ^ 1
        return message._replace(content=bytes([first]) + message.content[1:])
    return message


class Directory:
    """The locations of one job's objects."""

    def __init__(self) -> None:
        self.locations: Dict[ObjectId, Dict[int, Entry]] = {}

    def take(self, message: Message) -> Optional[Tuple[int, Located]]:
        """What a message does; of a question, the answer and the node that it goes to."""
        if isinstance(message, AddLocation):
            one, node, length, digest = message
            self.locations.setdefault(one, {})[node] = Entry(node, length, digest)
        elif isinstance(message, RemoveLocation):
            self.locations.get(message.one, {}).pop(message.node, None)
        elif isinstance(message, Free):
            self.locations.pop(message.one, None)
        elif isinstance(message, EndJob):
            for entries in self.locations.values():
                entries.pop(message.node, None)
        elif isinstance(message, Locate):
            return message.node, Located(message.one, message.number, tuple(self.entries(message.one)))
        return None

    def entries(self, one: ObjectId) -> List[Entry]:
        """The entries of an object by rising node."""
        return sorted(self.locations.get(one, {}).values())
