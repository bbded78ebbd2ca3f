"""Sessions with a job for themselves, whose replies have to be those of the plain model of the job."""

from __future__ import annotations

from collections import Counter
from typing import Dict, List, Sequence, Tuple

import store_client
from store_model.choosing import Chooser
from store_model.drawing import TRIES, WEIGHTS, WILD
from store_model.ids import ObjectId as ModelId
from store_model.messages import DIRECTORY, Place
from store_model.schedule import answer
from store_model.world import World
from store_testing.spelling import call, spelled
from store_client import ObjectId, Task

from .shared import MEMORY, NODES, Lane, said_of, same

# what a job's quotas are, its objects' lengths, and how many commands it lives
WINDOWS, DEVICES, LENGTHS, COMMANDS = range(48, 176, 16), range(0, 1_024, 16), range(1, 50), range(100, 600)

# of a job messages from a place to another one
Link = Tuple[int, Place, Place]


class Private(Lane):
    """Jobs of one session each, whose replies are those of the model."""

    def serve(self) -> None:
        self.node = self.lot.randrange(NODES)
        quota = self.draw_quota()
        self.job = self.soak.operator.admit([self.node], *quota)
        self.world = World(NODES, MEMORY)
        self.world.admit(self.node, self.job, *quota)
        self.mine = self.world.nodes[self.node].store(self.job)
        self.chooser = Chooser(self.lot, self.world, LENGTHS)
        self.session = 0
        # how many messages of each link were delivered, and the bytes of each object that was granted
        self.delivered: Counter[Link] = Counter()
        self.shown: Dict[ModelId, bytes] = {}
        store = self.enter()
        for _ in range(self.lot.choice(COMMANDS)):
            if self.soak.over.is_set():
                break
            store = self.step(store)
        same(self.soak.operator.ask(f"end {self.node} {self.job}"), self.world.end(self.node, self.job).partition(" op ")[2])
        self.soak.ended.add(self.job)
        self.ask(store, "list")
        store.close()

    def draw_quota(self) -> Tuple[int, int]:
        """Nothing spills to a disk that may be full, since no model knows when it is."""
        return self.lot.choice(WINDOWS), self.lot.choice((0,) if self.soak.fills_up else DEVICES)

    def enter(self) -> store_client.Connection:
        self.session += 1
        return self.soak.connect(self.node, self.job)

    def step(self, store: store_client.Connection) -> store_client.Connection:
        """A command, mostly. The session, which may be another one then."""
        drawn = self.lot.random()
        if drawn < 0.01:
            # the holds are given up before, so that it doesn't matter when the server sees the end
            self.ask(store, "leave")
            store.close()
            return self.enter()
        if drawn < 0.03:
            self.change_quota()
        elif drawn < 0.06:
            self.grant(store)
        else:
            word, *values = self.draw()
            self.ask(store, str(word), *values)
        return store

    def draw(self) -> Sequence[object]:
        """A command's word and values; mostly it fits what there is."""
        words = self.lot.choices(list(WEIGHTS), list(WEIGHTS.values()), k=TRIES)
        if self.lot.random() > WILD:
            for word in words:
                chosen = self.chooser.fitting(self.mine, word)
                if chosen is not None:
                    return (word, *chosen[1])
        return (words[0], *self.chooser.wild(self.mine, words[0])[1])

    def ask(self, store: store_client.Connection, word: str, *values: object) -> str:
        """The reply, which is the model's. Afterwards nothing is on its way for the job, there or here."""
        said = " ".join([word, *map(self.text_of, values)])
        due = answer(self.world, f"cmd {self.node} {self.job} {self.session} {said}").split(" ", 3)[3]
        told = spelled(call(store, said), self.job)
        same(told, due, f"job {self.job}: {said}")
        self.tally[word, said_of(told)] += 1
        self.count(self.job, self.node)
        self.settle(store)
        return told

    def text_of(self, value: object) -> str:
        if isinstance(value, ModelId):
            return value.text(self.job)
        return (value.hex() or "-") if isinstance(value, bytes) else str(value)

    def settle(self, store: store_client.Connection) -> None:
        """The works that were asked for are done by the program's worker, and the model's; the directory has been told all."""
        self.deliver()
        if self.mine.works:
            while store.usage().works:
                self.count(self.job, self.node)
        node = self.world.nodes[self.node]
        while node.untaken:
            job, number = node.untaken[0]
            self.world.take(self.node)
            self.world.finish(self.node, job, number, "ok")

    def deliver(self) -> None:
        """The messages between the node and the directory, in order, and the answers to them."""
        links: List[Link] = [(self.job, self.node, DIRECTORY), (self.job, DIRECTORY, self.node)]
        moved = True
        while moved:
            moved = False
            for link in links:
                while self.delivered[link] < len(self.world.sent.get(link, [])):
                    self.delivered[link] += 1
                    self.world.deliver(*link, self.delivered[link], False)
                    moved = True

    def change_quota(self) -> None:
        """That the bytes after the window are another job's is the operator's to know, and the model doesn't."""
        old, quota = self.mine.window, self.draw_quota()
        told = self.soak.operator.ask(f"quota {self.node} {self.job} {quota[0]} {quota[1]}")
        if told.startswith("refused 21"):
            assert quota[0] > old, f"no room for a window of {quota[0]} bytes, that has {old}"
        else:
            same(told, self.world.quota(self.node, self.job, *quota).partition(" op ")[2], f"job {self.job}: quota {quota}")

    def grant(self, store: store_client.Connection) -> None:
        """One of the job's objects, to a job that is shared."""
        grantees, objects = list(self.soak.shared), self.chooser.grantable(self.mine)
        if not grantees or not objects:
            return
        one, grantee = self.lot.choice(objects), self.lot.choice(grantees)
        content = bytes(self.mine.copies[one].content)
        # an id that is used again isn't granted with other bytes, since who peeks couldn't know which
        if self.shown.setdefault(one, content) == content and self.ask(store, "grant", one, grantee) == "ok":
            self.soak.grants.add(self.node, grantee, ObjectId(Task(one.task), one.job, one.index), content)
