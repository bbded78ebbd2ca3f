"""A world of nodes with the directory, and each job's messages in it."""

from __future__ import annotations

from typing import Any, Dict, List, Tuple

from .journal import Journal
from .messages import DIRECTORY, Directory, Message, Place, damaged
from .node import Node
from .words import Refused


class World:
    def __init__(self, nodes: int, memory: int) -> None:
        self.nodes = [Node(number, memory) for number in range(nodes)]
        self.directories: Dict[int, Directory] = {}
        # all messages of a job that were ever sent from a place to another
        self.sent: Dict[Tuple[int, Place, Place], List[Message]] = {}
        self.journal = Journal()

    def admit(self, node: int, job: int, window: int, device_quota: int) -> str:
        return self.operate(node, "admit", job, window, device_quota)

    def end(self, node: int, job: int) -> str:
        return self.operate(node, "end", job)

    def quota(self, node: int, job: int, window: int, device_quota: int) -> str:
        return self.operate(node, "requota", job, window, device_quota)

    def operate(self, node: int, word: str, job: int, *values: int) -> str:
        return f"n{node} op {self.step(node, job, word, job, *values)}"

    def command(self, node: int, job: int, session: int, word: str, values: Tuple[Any, ...]) -> str:
        return f"n{node} j{job} s{session} {self.step(node, job, 'command', job, session, word, values)}"

    def take(self, node: int) -> str:
        return f"n{node} dev {self.nodes[node].take()}"

    def finish(self, node: int, job: int, number: int, way: str) -> str:
        return f"n{node} dev {self.step(node, job, 'finish', job, number, way)}"

    def deliver(self, job: int, sender: Place, receiver: Place, number: int, damage: bool) -> str:
        """Hands over the message of this number, counted from 1, of those that the sender sent to the receiver."""
        sent = self.sent.get((job, sender, receiver), [])
        if not 1 <= number <= len(sent):
            return "net none"
        message = damaged(sent[number - 1]) if damage else sent[number - 1]
        if isinstance(receiver, str):
            answer = self.directories.setdefault(job, Directory()).take(message)
            if answer is not None:
                self.post(job, DIRECTORY, *answer)
            return "net ok"
        return f"net {self.step(receiver, job, 'arrive', job, sender, message)}"

    def post(self, job: int, sender: Place, receiver: Place, message: Message) -> None:
        self.sent.setdefault((job, sender, receiver), []).append(message)

    def step(self, node: int, job: int, call: str, *values: object) -> str:
        """The answer of a call of a node, after which what the job's store leaves to others has gone there."""
        try:
            answer: str = getattr(self.nodes[node], call)(*values)
        except Refused as refused:
            answer = str(refused)
        self.collect(node, job)
        self.journal.write_step(node, self.nodes[node].inputs, answer)
        self.nodes[node].inputs = []
        return answer

    def collect(self, node: int, job: int) -> None:
        at = self.nodes[node]
        store = at.store(job)
        for receiver, message in store.sent:
            self.post(job, node, receiver, message)
        at.untaken.extend((job, number) for number in store.asked)
        for key in store.erased:
            at.device.pop((job, key), None)
        store.sent, store.asked, store.erased = [], [], []
