"""A node: its jobs' private stores, their windows in its memory, the line of device works, the grants, and its device."""

from __future__ import annotations

from typing import Any, Dict, List, NamedTuple, Optional, Tuple

from .ids import ObjectId
from .journal import command_text, message_text, received_text, withdrawn_text
from .messages import Message, Place
from .store import ReceivedGrant, PrivateStore
from .words import MOST_JOBS, Refusal, is_quota, refuse_if


class StandingGrant(NamedTuple):
    """A grant that stands. The order is that in which grants that end together are told to their grantees."""

    depth: int
    one: ObjectId
    grantor: int
    grantee: int
    # from whom the grantor has the object; of the grantor's own objects 0, which is no job
    parent: int


class Window(NamedTuple):
    start: int
    length: int

    @property
    def end(self) -> int:
        return self.start + self.length


class TakenWork(NamedTuple):
    """A work that a worker has: the key on the device, and of a write the bytes."""

    key: int
    length: int
    content: Optional[bytes]


class Node:
    def __init__(self, number: int, memory: int) -> None:
        self.number = number
        self.memory = memory
        self.stores: Dict[int, PrivateStore] = {}
        self.windows: Dict[int, Window] = {}
        self.greatest_job = 0
        # works in flight by job and number, in the order in which they were asked for
        self.untaken: List[Tuple[int, int]] = []
        self.taken: List[Tuple[int, int]] = []
        # what workers were given and haven't finished, also of jobs that have ended
        self.kept: Dict[Tuple[int, int], TakenWork] = {}
        self.device: Dict[Tuple[int, int], bytes] = {}
        self.grants: List[StandingGrant] = []
        # what the last step was to the jobs, as a journal has it, its own job first; whoever steps the node takes it from here
        self.inputs: List[Tuple[int, str]] = []

    def store(self, job: int) -> PrivateStore:
        """The job's store, which also those jobs have that were never admitted."""
        if job not in self.stores:
            self.stores[job] = PrivateStore(job, self.number)
        return self.stores[job]

    # the operator

    def admit(self, job: int, window: int, device_quota: int) -> str:
        refuse_if(job == 0, Refusal.BadId)
        refuse_if(not is_quota(window, device_quota), Refusal.BadSize)
        refuse_if(job <= self.greatest_job, Refusal.Exists)
        start = self.place_for(window)
        refuse_if(len(self.windows) >= MOST_JOBS or start is None, Refusal.NoRoom)
        assert start is not None
        self.windows[job] = Window(start, window)
        self.greatest_job = job
        self.store(job).begin(window, device_quota)
        self.inputs.append((job, f"begin {window} {device_quota}"))
        return "ok"

    def place_for(self, length: int) -> Optional[int]:
        """The least offset in the memory at which a window meets no other."""
        start = 0
        for window in sorted(self.windows.values()):
            if start + length <= window.start:
                break
            start = window.end
        return start if start + length <= self.memory else None

    def requota(self, job: int, window: int, device_quota: int) -> str:
        refuse_if(job not in self.windows, Refusal.NotAdmitted)
        refuse_if(not is_quota(window, device_quota), Refusal.BadSize)
        store = self.store(job)
        refuse_if(store.last_used_byte() > window or store.device_bytes() > device_quota, Refusal.Full)
        refuse_if(not self.may_grow(job, window), Refusal.NoRoom)
        self.windows[job] = Window(self.windows[job].start, window)
        store.requota(window, device_quota)
        self.inputs.append((job, f"quota {window} {device_quota}"))
        return "ok"

    def may_grow(self, job: int, length: int) -> bool:
        """Whether nothing is in the way of the job's window of this length."""
        old = self.windows[job]
        if length <= old.length:
            return True
        new = Window(old.start, length)
        others = [window for window in self.windows.values() if window != old]
        return new.end <= self.memory and all(window.end <= new.start or new.end <= window.start for window in others)

    def end(self, job: int) -> str:
        refuse_if(job not in self.windows, Refusal.NotAdmitted)
        del self.windows[job]
        self.untaken = [work for work in self.untaken if work[0] != job]
        self.taken = [work for work in self.taken if work[0] != job]
        self.store(job).end()
        self.inputs.append((job, "end"))
        self.end_grants([grant for grant in self.grants if grant.grantor == job])
        return "ok"

    # workers

    def take(self) -> str:
        if not self.untaken:
            return "none"
        job, number = self.untaken.pop(0)
        self.taken.append((job, number))
        store = self.store(job)
        work = store.works[number]
        copy = store.copies[work.one]
        if work.is_write:
            self.kept[job, number] = TakenWork(number, copy.length, bytes(copy.content))
            return f"work {job} {number} write {copy.length}"
        assert copy.backed_by is not None
        self.kept[job, number] = TakenWork(copy.backed_by, copy.length, None)
        return f"work {job} {number} read {copy.length}"

    def finish(self, job: int, number: int, way: str) -> str:
        work = self.kept.pop((job, number), None)
        content = None if work is None or way == "fail" else self.carry_out(job, work, way == "damage")
        if (job, number) not in self.taken:
            if work is not None and work.content is not None:
                self.device.pop((job, number), None)
            refuse_if(True, Refusal.Stale)
        self.taken.remove((job, number))
        self.inputs.append((job, f"answer {number} {self.store(job).answer_word(number, content)}"))
        self.store(job).answer(number, content)
        return "ok"

    def carry_out(self, job: int, work: TakenWork, damage: bool) -> Optional[bytes]:
        """What the device answers: bytes, of a write any, or nothing if it fails."""
        if work.content is not None:
            self.device[job, work.key] = work.content
            return work.content
        content = self.device.get((job, work.key))
        if content is None or len(content) != work.length:
            return None
        return bytes([content[0] ^ 1]) + content[1:] if damage else content

    # other nodes and the directory

    def arrive(self, job: int, sender: Place, message: Message) -> str:
        refuse_if(job not in self.windows, Refusal.Stale)
        self.inputs.append((job, message_text(self.store(job), sender, message)))
        self.store(job).arrive(sender, message)
        return "ok"

    # sessions

    def command(self, job: int, session: int, word: str, values: Tuple[Any, ...]) -> str:
        self.inputs.append((job, command_text(job, session, word, values)))
        store = self.store(job)
        reply = store.command(session, word, values)
        if reply == "ok":
            self.follow_grants(job, word, values)
        return reply

    def follow_grants(self, job: int, word: str, values: Tuple[Any, ...]) -> None:
        """Tells the grantees of what an accepted command gave them, or took from them."""
        if word == "grant":
            self.add_grant(job, *values)
        elif word == "withdraw":
            self.end_grants([grant for grant in self.grants if (grant.one, grant.grantor, grant.grantee) == (values[0], job, values[1])])
        elif word == "endtask":
            self.end_grants([grant for grant in self.grants if (grant.grantor, grant.one.job, grant.one.task) == (job, job, values[0])])

    def add_grant(self, grantor: int, one: ObjectId, grantee: int) -> None:
        given = self.store(grantor).given[-1]
        self.grants.append(StandingGrant(given.depth, one, grantor, grantee, given.parent or 0))
        content = bytes(self.store(one.job).copies[one].content)
        grant = ReceivedGrant(grantor, given.depth)
        self.inputs.append((grantee, received_text(grantee, one, len(content), grant)))
        self.store(grantee).receive(one, content, grant)

    def end_grants(self, ended: List[StandingGrant]) -> None:
        """Ends these grants, and with each all that hang on it."""
        reached = ended
        while reached:
            ends = {(grant.one, grant.grantor, grant.grantee) for grant in reached}
            reached = [grant for grant in self.grants if grant not in ended and (grant.one, grant.parent, grant.grantor) in ends]
            ended = ended + reached
        self.grants = [grant for grant in self.grants if grant not in ended]
        for grant in sorted(ended):
            told = ReceivedGrant(grant.grantor, grant.depth)
            self.inputs.append((grant.grantee, withdrawn_text(grant.grantee, grant.one, told)))
            self.store(grant.grantee).withdrawn(grant.one, told)
