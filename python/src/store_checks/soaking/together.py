"""Sessions that share a job, at a node each: what is read has to be what was written, and only what the rules allow may be refused."""

from __future__ import annotations

import hashlib
import random
import threading
import time
from typing import Callable, Dict, List, Optional, Sequence, Set, Tuple, TypeVar

from store_model.words import MOST_COPIES, MOST_WORKS
from store_client import ConnectionLost, DeviceFailed, Granted, Kind, NotAdmitted, ObjectId, Pending, Refused, State, Task
from store_client.frames import MOST_BYTES
from store_client.refusals import BY_NUMBER as REFUSALS

from .shared import AFTERWARDS, NODES, Lane, Soak, said_of, same

# never admitted
NOBODY = 4_000_000_000
# what waits for as long as it takes, and after how many seconds a session gives up
WAITING, WAITS = ("createwait", "getwait"), 60
# what is told that the disk is full
SPILLING = ("create", "createwait", "get", "getwait")
# each of a job's objects fits each of its windows several times
WINDOWS, DEVICES = (1 << 20, 3 << 19, 1 << 21), (1 << 20, 1 << 21, 1 << 22)
LENGTHS = (1, 20, 4_000, 30_000, 65_536, 65_537, 100_000, 150_000)
# objects that a session keeps, and grants that it lets stand
MOST_OBJECTS, MOST_GRANTS = 60, 4
OBJECTS_OF_A_TASK = 30
TRIES_TO_GET = 20

T = TypeVar("T")


def content_of(one: ObjectId) -> bytes:
    """What an object of a shared job has: its id says it."""
    digest = hashlib.sha256(one.to_bytes()).digest()
    length = LENGTHS[digest[0] % len(LENGTHS)]
    return (digest * (length // len(digest) + 1))[:length]


def part_of(lot: random.Random, length: int) -> Tuple[int, int]:
    """An offset and a count within a length; one out of five is as much as may be read at once."""
    at = lot.randrange(length)
    most = min(length - at, MOST_BYTES)
    return (0, min(length, MOST_BYTES)) if lot.random() < 0.2 else (at, lot.randint(0, min(most, 1_000)))


class Job:
    """A job that several sessions share: what it has sealed, what it ever created, and what quotas it was to have at each node."""

    def __init__(self, soak: Soak) -> None:
        quota = WINDOWS[-1], DEVICES[-1]
        self.number = soak.operator.admit(range(NODES), *quota)
        self.quotas = [[quota] for _ in range(NODES)]
        self.lock = threading.Lock()
        self.sealed: List[ObjectId] = []
        self.created: Set[ObjectId] = set()
        self.is_ended = False

    def draw(self, lot: random.Random) -> Optional[ObjectId]:
        with self.lock:
            return lot.choice(self.sealed) if self.sealed else None

    def add(self, one: ObjectId) -> None:
        with self.lock:
            self.sealed.append(one)

    def remove(self, one: ObjectId) -> None:
        with self.lock:
            if one in self.sealed:
                self.sealed.remove(one)


class Crew:
    """Sessions with one job after another."""

    def __init__(self, soak: Soak) -> None:
        self.soak = soak
        self.begin()

    def begin(self) -> None:
        self.job = Job(self.soak)
        self.soak.shared.append(self.job.number)

    def end(self, lot: random.Random) -> None:
        """The job ends at one node after the other, and the next one is admitted."""
        self.job.is_ended = True
        self.soak.shared.remove(self.job.number)
        for node in lot.sample(range(NODES), NODES):
            same(self.soak.operator.ask(f"end {node} {self.job.number}"), "ok")
        self.soak.ended.add(self.job.number)
        self.begin()


class Member(Lane):
    """A session of a crew. The one at node 0 tells the operator what to do with the job."""

    def __init__(self, soak: Soak, number: int, crew: Crew, node: int, lives: Tuple[float, float]) -> None:
        super().__init__(soak, number)
        self.crew, self.node = crew, node
        # how many seconds a job lives
        self.lives = lives
        # since when a call waits, and whether another thread has closed its connection for it
        self.waits_since: Optional[float] = None
        self.has_given_up = False
        # of the last call its word and values, and the number of its refusal
        self.asked: Tuple[str, Sequence[object]] = ("", ())
        self.refusal = 0

    def serve(self) -> None:
        """The crew's job, until it ends."""
        self.job = job = self.crew.job
        self.ends_at = time.monotonic() + self.lot.uniform(*self.lives)
        self.mine: List[ObjectId] = []
        self.grants: List[Tuple[ObjectId, int]] = []
        self.made, self.task = 0, (self.node + 1) * 1_000_000
        self.waited_for: Optional[ObjectId] = None
        try:
            while not self.soak.over.is_set():
                self.visit()
        except NotAdmitted:
            assert job.is_ended, f"job {job.number} was not admitted any more"
        while self.crew.job is job and not self.soak.over.wait(0.01):
            self.moved = time.monotonic()

    def visit(self) -> None:
        """A connection, which ends if a call waits in vain."""
        self.has_given_up = False
        with self.soak.connect(self.node, self.job.number) as self.store:
            try:
                if self.waited_for:
                    self.look_for(self.waited_for)
                while not self.soak.over.is_set():
                    self.step()
                self.ask("leave", (), self.store.leave)
            except ConnectionLost:
                if not self.has_given_up:
                    raise
                word, values = self.asked
                if word in WAITING:
                    self.tally[word, "given up"] += 1
                    assert isinstance(values[0], ObjectId), f"{word} {values}"
                    self.waited_for = values[0]
                self.moved = time.monotonic()

    def give_up(self) -> None:
        since = self.waits_since
        if since is not None and time.monotonic() - since > WAITS:
            self.waits_since, self.has_given_up = None, True
            self.store.close()

    def look_for(self, one: ObjectId) -> None:
        """It was waited for in vain: so it isn't here, unless another session gave up just now. Its fetch is deleted."""
        others, self.soak.gave_up_at, self.waited_for = self.soak.gave_up_at, time.monotonic(), None
        if self.ask("get", (4, 9, 10, 16, 17), self.store.hold, one) is not None:
            assert time.monotonic() - others < AFTERWARDS, f"job {self.job.number}: {one} was there, and nobody was told so who waited"
            self.ask("release", (), self.store.release, one)
        elif self.refusal == Pending.number:
            self.drop_fetch(one)

    def drop_fetch(self, one: ObjectId) -> None:
        """Nobody asks any more for what is fetched for this session: it gives up its place. What was put here is only read back."""
        if one not in self.mine:
            self.ask("delete", (4, 12), self.store.delete, one)

    def step(self) -> None:
        if self.node == 0 and self.lot.random() < 0.01:
            self.operate()
        works: Dict[Callable[[], None], int] = {
            self.put: 20, self.get: 30, self.delete: 8, self.end_task: 1, self.borrow: 3, self.grant: 4, self.hand_on: 2,
            self.withdraw: 1, self.peek: 10, self.look: 6, self.leave: 1,
        }  # fmt: skip
        self.lot.choices(list(works), list(works.values()))[0]()

    def operate(self) -> None:
        if time.monotonic() > self.ends_at:
            self.crew.end(self.lot)
            return
        node, quota = self.lot.randrange(NODES), (self.lot.choice(WINDOWS), self.lot.choice(DEVICES))
        self.job.quotas[node].append(quota)
        told = self.soak.operator.ask(f"quota {node} {self.job.number} {quota[0]} {quota[1]}")
        assert said_of(told) in ("ok", "9 Full", "21 NoRoom"), f"quota of job {self.job.number}: {told}"

    def does(self, word: str, may: Sequence[int], method: Callable[..., None], *values: object) -> bool:
        """Whether a call that gives nothing is done. It is refused otherwise, as it may be."""
        self.ask(word, may, method, *values)
        return not self.refusal

    def ask(self, word: str, may: Sequence[int], method: Callable[..., T], *values: object) -> Optional[T]:
        """What a call gives, or nothing if it is refused, as it may be; the number is kept."""
        self.refusal, self.asked = 0, (word, values)
        self.waits_since = time.monotonic() if word in WAITING else None
        told: Optional[T] = None
        try:
            told = method(*values)
        except NotAdmitted:
            raise
        except Refused as refused:
            is_full = self.soak.fills_up and word in SPILLING and isinstance(refused, DeviceFailed)
            assert is_full or refused.number in may, f"job {self.job.number}: {word} {values[:1]}: {refused}"
            self.refusal = refused.number
        self.waits_since = None
        self.tally[word, f"{self.refusal} {REFUSALS[self.refusal].__name__}" if self.refusal else "ok"] += 1
        self.count(self.job.number, self.node)
        return told

    def put(self) -> None:
        """A new object, for which there may be no room. One out of ten is offered as a copy."""
        self.made += 1
        if self.made % OBJECTS_OF_A_TASK == 0:
            self.task += 1
        one = ObjectId(Task.numbered(self.task), self.job.number, self.made)
        content, waits = content_of(one), self.lot.random() < 0.7
        kind = Kind.SECONDARY if self.lot.random() < 0.1 else Kind.PRIMARY
        self.job.created.add(one)
        may = (9, 16, 17) if waits else (9, 10, 16, 17)
        placed = self.ask("createwait" if waits else "create", may, self.store.create, one, len(content), kind, waits)
        if placed is None:
            self.delete()
            return
        for at in range(0, len(content), MOST_BYTES):
            self.ask("write", (), self.store.write, one, at, content[at : at + MOST_BYTES])
        self.ask("seal", (), self.store.seal, one)
        self.mine.append(one)
        self.job.add(one)
        if len(self.mine) > MOST_OBJECTS:
            self.delete()

    def get(self) -> None:
        """An object of any of the sessions. It may be deleted while it is held, and its bytes are there all the same."""
        one = self.job.draw(self.lot)
        if one is None or not self.hold(one):
            return
        content = content_of(one)
        at, count = part_of(self.lot, len(content))
        same(self.ask("read", (), self.store.read, one, at, count), content[at : at + count], f"read {one}")
        if self.lot.random() < 0.1:
            self.forget(one)
            same(self.ask("read", (), self.store.read, one, at, count), content[at : at + count], f"read {one}, deleted")
        self.ask("release", (), self.store.release, one)

    def hold(self, one: ObjectId) -> bool:
        """Whether the session has a hold on the object now: it waits for it, or asks again and again for a while."""
        if self.lot.random() < 0.5:
            length = self.ask("getwait", (4, 9, 16, 17), self.store.hold, one, True)
        else:
            for _ in range(TRIES_TO_GET):
                length = self.ask("get", (4, 9, 10, 16, 17), self.store.hold, one)
                if self.refusal != Pending.number:
                    break
            if self.refusal == Pending.number:
                self.drop_fetch(one)
        assert length in (None, len(content_of(one))), f"got {one} of {length} bytes"
        return length is not None

    def delete(self) -> None:
        if self.mine:
            self.forget(self.lot.choice(self.mine))

    def forget(self, one: ObjectId) -> None:
        """The object is deleted, if it is there and not granted."""
        self.ask("delete", (4, 12), self.store.delete, one)
        if self.refusal != Granted.number and one in self.mine:
            self.mine.remove(one)
            self.job.remove(one)

    def end_task(self) -> None:
        """All that the task had goes, and no more of it is made."""
        if not self.mine:
            return
        task = self.lot.choice(self.mine).task
        gone = [one for one in self.mine if one.task == task]
        for one in gone:
            self.job.remove(one)
        if self.does("endtask", (17,), self.store.end_task, task):
            self.mine = [one for one in self.mine if one.task != task]
            self.grants = [(one, grantee) for one, grantee in self.grants if one.task != task]
            self.task += 1

    def borrow(self) -> None:
        """Another task refers to an object for a while, and its own may let go of it."""
        if not self.mine:
            return
        one, task = self.lot.choice(self.mine), Task.numbered(self.lot.randrange(10))
        if self.does("borrow", (3, 4, 17, 22), self.store.borrow, one, task):
            if self.lot.random() < 0.2:
                self.ask("unpin", (4, 11, 22), self.store.unpin, one, one.task)
            self.ask("giveup", (4, 22), self.store.give_up, one, task)

    def grant(self) -> None:
        grantees = [job for job in list(self.soak.shared) if job != self.job.number]
        if self.mine and grantees and len(self.grants) < MOST_GRANTS:
            one, grantee = self.lot.choice(self.mine), self.lot.choice(grantees)
            if self.does("grant", (3, 4, 17, 23), self.store.grant, one, grantee):
                self.grants.append((one, grantee))
                self.soak.grants.add(self.node, grantee, one, content_of(one))

    def hand_on(self) -> None:
        """What was granted to the job, to another one, or to a number that no job has."""
        given = self.soak.grants.draw(self.lot, self.node, self.job.number)
        if given is None:
            return
        one, content = given
        grantees = [job for job in [*self.soak.shared, NOBODY] if job not in (self.job.number, one.job)]
        grantee = self.lot.choice(grantees)
        if self.does("hand on", (3, 13, 17), self.store.grant, one, grantee):
            self.grants.append((one, grantee))
            self.soak.grants.add(self.node, grantee, one, content)

    def withdraw(self) -> None:
        if self.grants:
            one, grantee = self.grants.pop(self.lot.randrange(len(self.grants)))
            self.ask("withdraw", (13,), self.store.withdraw, one, grantee)

    def peek(self) -> None:
        given = self.soak.grants.draw(self.lot, self.node, self.job.number)
        if given is not None:
            one, content = given
            at, count = part_of(self.lot, len(content))
            told = self.ask("peek", (13,), self.store.peek, one, at, count)
            assert told in (None, content[at : at + count]), f"peeked at other bytes of {one}"
            if told is None:
                self.soak.grants.drop(self.node, self.job.number, one)

    def look(self) -> None:
        """What List and Usage say may be so."""
        if self.lot.random() < 0.5:
            usage = self.ask("usage", (), self.store.usage)
            assert usage is not None
            assert (usage.window, usage.device) in self.job.quotas[self.node], f"{usage}: not a quota of job {self.job.number}"
            within = usage.window_used <= usage.window and usage.device_used <= usage.device
            assert within and usage.copies <= MOST_COPIES and usage.works <= MOST_WORKS, f"{usage}: more than there may be"
            return
        listed = self.ask("list", (), self.store.list)
        assert listed is not None
        own, granted = listed
        for item in own:
            assert item.id in self.job.created, f"job {self.job.number} never created {item.id}"
            lengths = (0, len(content_of(item.id))) if item.state is State.FETCHING else (len(content_of(item.id)),)
            assert item.length in lengths, f"{item} has another length"
        for other in granted:
            assert other.id.job != self.job.number and 1 <= other.depth <= 3, f"{other} is granted"

    def leave(self) -> None:
        self.ask("leave", (), self.store.leave)
