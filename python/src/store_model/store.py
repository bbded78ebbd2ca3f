"""The private store of one job at one node: what it answers to each command and does at each other input."""

from __future__ import annotations

from typing import Any, Callable, Dict, List, NamedTuple, Optional, Set, Tuple, Union

from . import fetching
from .ids import ObjectId
from .messages import DIRECTORY, AddLocation, EndJob, Free, Message, Place, RemoveLocation
from .room import make_room
from .words import DEEPEST, LONGEST_CALL, LONGEST_OBJECT
from .words import MOST_BORROWERS, MOST_COPIES, MOST_ENDED_TASKS, MOST_GIVEN, MOST_HOLDS
from .words import Copy, Kind, Refusal, Refused, State, digest_of, refuse_if, rounded


class Work(NamedTuple):
    """A device work: a write of a copy, or a read of it."""

    one: ObjectId
    is_write: bool


class Given(NamedTuple):
    """A grant that the store's job gave."""

    one: ObjectId
    grantee: int
    depth: int
    # from whom the job had the object; of its own objects nobody
    parent: Optional[int]


class ReceivedGrant(NamedTuple):
    """A grant to the store's job."""

    grantor: int
    depth: int


class Seen(NamedTuple):
    """An object of another job that the store's job sees, and by which grants, the oldest first."""

    content: bytes
    grants: List[ReceivedGrant]


class PrivateStore:
    """One job's store at one node, which nobody else uses.

    A step leaves the messages that it sends, the numbers of the works that it asks for and the device keys that it erases in
    `sent`, `asked` and `erased`; whoever steps the store takes them from there.
    """

    def __init__(self, job: int, node: int) -> None:
        self.job = job
        self.node = node
        # what grants to the job show, before it begins and after it has ended too
        self.received: Dict[ObjectId, Seen] = {}
        self.is_live = False
        self.sent: List[Tuple[Place, Message]] = []
        self.asked: List[int] = []
        self.erased: List[int] = []
        self.empty()

    def empty(self) -> None:
        self.window = 0
        self.device_quota = 0
        # in order of use, the least recently used first
        self.copies: Dict[ObjectId, Copy] = {}
        self.works: Dict[int, Work] = {}
        self.works_asked = 0
        self.fetches_begun = 0
        self.spill_failed = False
        self.ended_tasks: Set[bytes] = set()
        self.given: List[Given] = []

    # what the rules call its words

    def is_granted(self, one: ObjectId) -> bool:
        return any(given.one == one for given in self.given)

    def window_used(self) -> int:
        return sum(copy.extent for copy in self.copies.values() if copy.offset is not None)

    def device_bytes(self) -> int:
        written = {work.one for work in self.works.values() if work.is_write}
        return sum(copy.extent for one, copy in self.copies.items() if copy.is_backed or one in written)

    def last_used_byte(self) -> int:
        return max((copy.offset + copy.extent for copy in self.copies.values() if copy.offset is not None), default=0)

    # what a step leaves to others

    def send(self, to: Place, message: Message) -> None:
        self.sent.append((to, message))

    def ask(self, one: ObjectId) -> None:
        """Asks for a read of a backed copy, and for a write of any other."""
        copy = self.copies[one]
        self.works_asked += 1
        copy.work = self.works_asked
        self.works[self.works_asked] = Work(one, not copy.is_backed)
        self.asked.append(self.works_asked)

    def use(self, one: ObjectId) -> None:
        """Makes the copy the most recently used."""
        self.copies[one] = self.copies.pop(one)

    def evict(self, one: ObjectId) -> None:
        copy = self.copies[one]
        if copy.is_primary:
            copy.state = State.AWAY
            copy.displace()
        else:
            del self.copies[one]
            self.send(DIRECTORY, RemoveLocation(one, self.node))

    def doom(self, one: ObjectId) -> None:
        """Marks a copy and tells the directory, unless that was done before; removes it if nothing keeps it."""
        copy = self.copies[one]
        if not copy.doomed and copy.state not in (State.CREATED, State.FETCHING):
            self.send(DIRECTORY, Free(one) if copy.is_primary else RemoveLocation(one, self.node))
        copy.doomed = True
        self.sweep(one)

    def sweep(self, one: ObjectId) -> None:
        """Removes a copy that is doomed and that nothing keeps."""
        copy = self.copies[one]
        if copy.doomed and not copy.is_held and not copy.is_working and not self.is_granted(one):
            if copy.backed_by is not None:
                self.erased.append(copy.backed_by)
            del self.copies[one]

    def present(self, one: ObjectId) -> Copy:
        """The copy, if there is one and it isn't doomed."""
        copy = self.copies.get(one)
        if copy is None or copy.doomed:
            raise Refused(Refusal.Absent)
        return copy

    def copy_of(self, one: ObjectId) -> Copy:
        """The copy, if there is one, doomed or not."""
        copy = self.copies.get(one)
        if copy is None:
            raise Refused(Refusal.Absent)
        return copy

    # the operator, devices, messages and grants

    def begin(self, window: int, device_quota: int) -> None:
        self.is_live = True
        self.requota(window, device_quota)

    def requota(self, window: int, device_quota: int) -> None:
        self.window, self.device_quota = window, device_quota

    def end(self) -> None:
        backed = [self.copies[one].backed_by for one in sorted(self.copies)]
        self.erased.extend(key for key in backed if key is not None)
        self.empty()
        self.is_live = False
        self.send(DIRECTORY, EndJob(self.node))

    def answer(self, number: int, content: Optional[bytes]) -> None:
        """The device's answer to a work in flight: of a read the bytes, and of a failed work nothing."""
        work = self.works.pop(number)
        copy = self.copies[work.one]
        copy.work = None
        if work.is_write:
            self.write_ended(copy, number, content is not None)
        else:
            self.read_ended(copy, content)
        self.sweep(work.one)

    def answer_word(self, number: int, content: Optional[bytes]) -> str:
        """What the device's answer to a work in flight comes to."""
        if content is None:
            return "fail"
        work = self.works[number]
        return "ok" if work.is_write or self.copies[work.one].matches(content) else "damage"

    def write_ended(self, copy: Copy, number: int, is_written: bool) -> None:
        if is_written:
            copy.backed_by = number
        else:
            self.spill_failed = True

    def read_ended(self, copy: Copy, content: Optional[bytes]) -> None:
        if content is not None and copy.matches(content):
            copy.state = State.SEALED
            copy.content = bytearray(content)
        else:
            copy.state = State.AWAY
            copy.displace()
            copy.fault = Refusal.DeviceFailed if content is None else Refusal.Damaged

    def arrive(self, sender: Place, message: Message) -> None:
        fetching.arrive(self, sender, message)

    def receive(self, one: ObjectId, content: bytes, grant: ReceivedGrant) -> None:
        older = self.received[one].grants if one in self.received else []
        self.received[one] = Seen(content, [*older, grant])

    def withdrawn(self, one: ObjectId, grant: ReceivedGrant) -> None:
        """A grant to the job has ended; what the job gave by it ends too. A grant stands twice in a forged journal alone, and ends then
        both times at once."""
        seen = self.received[one]
        seen.grants[:] = [other for other in seen.grants if other != grant]
        if not seen.grants:
            del self.received[one]
        self.given = [given for given in self.given if (given.one, given.parent) != (one, grant.grantor)]

    # sessions

    def command(self, session: int, word: str, values: Tuple[Any, ...]) -> str:
        """The reply to a command, as it is printed."""
        try:
            refuse_if(not self.is_live, Refusal.NotAdmitted)
            if values and isinstance(values[0], ObjectId) and values[0].job != self.job:
                return self.foreign_command(word, *values)
            return str(CALLS[word](self, session, *values))
        except Refused as refused:
            return str(refused)

    def foreign_command(self, word: str, one: ObjectId, *values: int) -> str:
        """A command that names another job's object."""
        if word == "peek":
            return self.peek(one, *values)
        if word == "grant":
            return self.grant_on(one, *values)
        if word == "withdraw":
            return self.withdraw(one, *values)
        raise Refused(Refusal.NotGranted)

    def create(self, one: ObjectId, kind: Kind, length: int) -> str:
        refuse_if(not 1 <= length <= LONGEST_OBJECT or rounded(length) > self.window, Refusal.BadSize)
        refuse_if(one.task in self.ended_tasks, Refusal.Gone)
        refuse_if(one in self.copies, Refusal.Exists)
        refuse_if(len(self.copies) >= MOST_COPIES, Refusal.TooMany)
        copy = Copy(kind, length, State.CREATED, pinned=kind is Kind.PRIMARY)
        copy.place(make_room(self, length))
        self.copies[one] = copy
        return f"placed {copy.offset} {copy.extent}"

    def write(self, one: ObjectId, offset: int, content: bytes) -> str:
        refuse_if(len(content) > LONGEST_CALL, Refusal.BadSize)
        copy = self.present(one)
        refuse_if(copy.state is not State.CREATED, Refusal.AlreadySealed)
        refuse_if(offset + len(content) > copy.length, Refusal.OutOfBounds)
        copy.content[offset : offset + len(content)] = content
        return "ok"

    def seal(self, one: ObjectId) -> str:
        copy = self.present(one)
        refuse_if(copy.state is not State.CREATED, Refusal.AlreadySealed)
        copy.state = State.SEALED
        copy.digest = digest_of(copy.content)
        self.send(DIRECTORY, AddLocation(one, self.node, copy.length, copy.digest))
        return "ok"

    def get(self, session: int, one: ObjectId) -> str:
        refuse_if(one.task in self.ended_tasks, Refusal.Gone)
        copy = self.copies.get(one)
        if copy is None:
            fetching.begin(self, one)
            raise Refused(Refusal.Pending)
        refuse_if(copy.doomed, Refusal.Absent)
        if copy.state is State.SEALED:
            return self.hold(session, one, copy)
        raise Refused(self.awaited(one, copy))

    def hold(self, session: int, one: ObjectId, copy: Copy) -> str:
        refuse_if(sum(copy.holds.values()) >= MOST_HOLDS, Refusal.TooMany)
        copy.holds[session] = copy.holds.get(session, 0) + 1
        self.use(one)
        return f"got {copy.length}"

    def awaited(self, one: ObjectId, copy: Copy) -> Refusal:
        """What a Get does for a copy that isn't sealed in memory, and the refusal that it answers."""
        if copy.state is State.CREATED:
            return Refusal.NotSealed
        if copy.fetch is not None:
            return fetching.go_on(self, one, copy, copy.fetch)
        if copy.fault is not None:
            fault, copy.fault = copy.fault, None
            return fault
        if copy.state is State.AWAY:
            fetching.restore(self, one, copy)
        return Refusal.Pending

    def read(self, session: int, one: ObjectId, offset: int, count: int) -> str:
        refuse_if(count > LONGEST_CALL, Refusal.BadSize)
        copy = self.copy_of(one)
        refuse_if(copy.state in (State.CREATED, State.FETCHING), Refusal.NotSealed)
        refuse_if(session not in copy.holds, Refusal.NotHeld)
        return part_of(copy.content, offset, count)

    def release(self, session: int, one: ObjectId) -> str:
        copy = self.copy_of(one)
        refuse_if(session not in copy.holds, Refusal.NotHeld)
        copy.holds[session] -= 1
        if copy.holds[session] == 0:
            del copy.holds[session]
        self.sweep(one)
        return "ok"

    def unpin(self, one: ObjectId, task: bytes) -> str:
        copy = self.present(one)
        refuse_if(not copy.is_primary or task != one.task, Refusal.NotOwner)
        refuse_if(not copy.pinned, Refusal.NotHeld)
        copy.pinned = False
        self.doom_out_of_scope(one, copy)
        return "ok"

    def doom_out_of_scope(self, one: ObjectId, copy: Copy) -> None:
        if not copy.doomed and not copy.in_scope:
            self.doom(one)

    def borrow(self, one: ObjectId, task: bytes) -> str:
        refuse_if(one.task in self.ended_tasks or task in self.ended_tasks, Refusal.Gone)
        copy = self.present(one)
        refuse_if(not copy.is_primary, Refusal.NotOwner)
        refuse_if(task in copy.borrowers, Refusal.Exists)
        refuse_if(len(copy.borrowers) >= MOST_BORROWERS, Refusal.TooMany)
        copy.borrowers.add(task)
        return "ok"

    def giveup(self, one: ObjectId, task: bytes) -> str:
        copy = self.present(one)
        refuse_if(not copy.is_primary, Refusal.NotOwner)
        refuse_if(task not in copy.borrowers, Refusal.Absent)
        copy.borrowers.remove(task)
        self.doom_out_of_scope(one, copy)
        return "ok"

    def delete(self, one: ObjectId) -> str:
        self.present(one)
        refuse_if(self.is_granted(one), Refusal.Granted)
        self.doom(one)
        return "ok"

    def endtask(self, task: bytes) -> str:
        refuse_if(task in self.ended_tasks, Refusal.Gone)
        refuse_if(len(self.ended_tasks) >= MOST_ENDED_TASKS, Refusal.TooMany)
        self.ended_tasks.add(task)
        self.given = [given for given in self.given if not self.is_of(given.one, task)]
        for one in sorted(self.copies):
            if self.is_of(one, task):
                self.doom(one)
        for one in sorted(self.copies):
            copy = self.copies[one]
            if task in copy.borrowers:
                copy.borrowers.remove(task)
                self.doom_out_of_scope(one, copy)
        return "ok"

    def is_of(self, one: ObjectId, task: bytes) -> bool:
        return (one.task, one.job) == (task, self.job)

    def grant(self, one: ObjectId, grantee: int) -> str:
        refuse_if(grantee in (0, self.job), Refusal.BadId)
        refuse_if(one.task in self.ended_tasks, Refusal.Gone)
        copy = self.present(one)
        refuse_if(copy.state is not State.SEALED or not copy.is_primary, Refusal.NotResident)
        refuse_if(self.gave(one, grantee), Refusal.Exists)
        refuse_if(len(self.given) >= MOST_GIVEN, Refusal.TooMany)
        self.given.append(Given(one, grantee, 1, None))
        return "ok"

    def grant_on(self, one: ObjectId, grantee: int) -> str:
        """A grant of another job's object, which hangs on the oldest grant by which this job sees it."""
        refuse_if(grantee in (0, self.job, one.job), Refusal.BadId)
        refuse_if(one not in self.received, Refusal.NotGranted)
        refuse_if(self.gave(one, grantee), Refusal.Exists)
        oldest = self.received[one].grants[0]
        refuse_if(oldest.depth >= DEEPEST or len(self.given) >= MOST_GIVEN, Refusal.TooMany)
        self.given.append(Given(one, grantee, oldest.depth + 1, oldest.grantor))
        return "ok"

    def gave(self, one: ObjectId, grantee: int) -> bool:
        return any((given.one, given.grantee) == (one, grantee) for given in self.given)

    def withdraw(self, one: ObjectId, grantee: int) -> str:
        refuse_if(not self.gave(one, grantee), Refusal.NotGranted)
        self.given = [given for given in self.given if (given.one, given.grantee) != (one, grantee)]
        if one in self.copies:
            self.sweep(one)
        return "ok"

    def peek(self, one: ObjectId, offset: int, count: int) -> str:
        refuse_if(one not in self.received, Refusal.NotGranted)
        refuse_if(count > LONGEST_CALL, Refusal.BadSize)
        return part_of(self.received[one].content, offset, count)

    def list(self) -> str:
        own = [
            f"{one.text(self.job)}:{copy.state.value}:{copy.kind.value}:{copy.length}"
            for one, copy in sorted(self.copies.items(), key=lambda item: item[0])
        ]
        seen = [
            f"{one.text(self.job)}:granted:{len(seen.content)}:{seen.grants[0].depth}"
            for one, seen in sorted(self.received.items(), key=lambda item: item[0])
        ]
        return " ".join(["list", *own, *seen])

    def usage(self) -> str:
        used = (self.window, self.window_used(), self.device_quota, self.device_bytes())
        return " ".join(str(number) for number in ("usage", *used, len(self.copies), len(self.works)))

    def leave(self, session: int) -> str:
        for one in sorted(self.copies):
            self.copies[one].holds.pop(session, None)
            self.sweep(one)
        return "ok"


def part_of(content: Union[bytes, bytearray], offset: int, count: int) -> str:
    refuse_if(offset + count > len(content), Refusal.OutOfBounds)
    return f"bytes {bytes(content[offset : offset + count]).hex() or '-'}"


# what a command with an own id, or with none, calls; the session comes first
CALLS: Dict[str, Callable[..., Any]] = {
    "create": lambda store, _, one, length: store.create(one, Kind.PRIMARY, length),
    "copy": lambda store, _, one, length: store.create(one, Kind.SECONDARY, length),
    "write": lambda store, _, *values: store.write(*values),
    "seal": lambda store, _, one: store.seal(one),
    "get": PrivateStore.get,
    "read": PrivateStore.read,
    "release": PrivateStore.release,
    "unpin": lambda store, _, *values: store.unpin(*values),
    "borrow": lambda store, _, *values: store.borrow(*values),
    "giveup": lambda store, _, *values: store.giveup(*values),
    "delete": lambda store, _, one: store.delete(one),
    "endtask": lambda store, _, task: store.endtask(task),
    "grant": lambda store, _, *values: store.grant(*values),
    "withdraw": lambda store, _, *values: store.withdraw(*values),
    "peek": lambda store, _, *values: store.peek(*values),
    "list": lambda store, _: store.list(),
    "usage": lambda store, _: store.usage(),
    "leave": PrivateStore.leave,
}
