"""The saved journal of a run: what each step was to the jobs, without contents, and what was answered."""

from __future__ import annotations

from typing import TYPE_CHECKING, Any, Dict, List, Tuple

from .fetching import chunk_word, pull_matches
from .ids import ObjectId, task_text
from .messages import Chunk, Located, Message, NotHere, Place, Pull

if TYPE_CHECKING:
    from .store import ReceivedGrant, PrivateStore

HEAD = "journal 3"


class Journal:
    """The lines of all jobs at all nodes, in the order of the steps."""

    def __init__(self) -> None:
        self.lines: List[str] = []
        # how many lines a job has at a node
        self.counts: Dict[Tuple[int, int], int] = {}

    def write_step(self, node: int, inputs: List[Tuple[int, str]], answer: str) -> None:
        """Writes what a step was to the jobs. The answer is that to the first; the others are told of grants."""
        for job, said in inputs:
            self.write(node, job, said, without_contents(answer))
            answer = "ok"

    def write(self, node: int, job: int, said: str, answer: str) -> None:
        number = self.counts.get((node, job), 0) + 1
        self.counts[node, job] = number
        self.lines.append(f"n{node} j{job} {number} {said} = {answer}")

    @property
    def text(self) -> str:
        return "".join(line + "\n" for line in [HEAD, *self.lines])


def without_contents(answer: str) -> str:
    """The answer with the number of its bytes in place of them."""
    word, _, content = answer.partition(" ")
    return f"bytes #{0 if content == '-' else len(content) // 2}" if word == "bytes" else answer


def command_text(job: int, session: int, word: str, values: Tuple[Any, ...]) -> str:
    fields = [f"s{session}", word]
    for value in values:
        if isinstance(value, ObjectId):
            fields.append(value.text(job))
        elif isinstance(value, bytes):
            fields.append(f"#{len(value)}" if word == "write" else task_text(value))
        else:
            fields.append(str(value))
    return " ".join(fields)


def message_text(store: PrivateStore, sender: Place, message: Message) -> str:
    """A message that is about to arrive."""
    assert isinstance(message, (Located, Chunk, Pull, NotHere)), f"no node is sent {message}"
    of_fetch = f"{message.one.text(store.job)} {message.number}"
    if isinstance(message, Located):
        entries = [f" {entry.node}:{entry.length}:{entry.digest.hex()}" for entry in message.entries]
        return f"located {of_fetch}{''.join(entries)}"
    if isinstance(message, Chunk):
        return f"chunk {of_fetch} {message.index} {sender} {chunk_word(store, sender, message)}"
    if isinstance(message, Pull):
        copy = store.copies.get(message.one)
        return f"pull {of_fetch} {'match' if copy is not None and pull_matches(copy, message) else 'other'}"
    return f"nothere {of_fetch} {sender}"


def received_text(grantee: int, one: ObjectId, length: int, grant: ReceivedGrant) -> str:
    return f"received {one.text(grantee)} {length} {grant.grantor} {grant.depth}"


def withdrawn_text(grantee: int, one: ObjectId, grant: ReceivedGrant) -> str:
    return f"withdrawn {one.text(grantee)} {grant.grantor} {grant.depth}"
