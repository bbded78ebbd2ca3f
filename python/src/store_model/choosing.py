"""Chooses the values of commands: mostly such that the command is accepted, and sometimes any."""

from __future__ import annotations

import random
from typing import Any, Callable, Dict, List, Optional, Sequence, Tuple

from .ids import ObjectId, read_bytes, read_id, read_task, short_task, task_text
from .room import free_offset, is_loose
from .schedule import COMMANDS
from .store import PrivateStore
from .words import CHUNK, Copy, State
from .world import World

TASKS = [short_task(1), short_task(2), short_task(3), bytes(range(1, 21))]
INDEXES = range(1, 5)
SESSIONS = [1, 1, 2, 3, 0]
# jobs below this are named though they weren't admitted
STRAY_JOBS = 9
NUMBERS = [0, 1, 15, 16, 17, 64, 65536, 65537, 16777216, 16777217, 4294967295]


class Chooser:
    """Chooses by lot, in a world that says what exists."""

    def __init__(self, lot: random.Random, world: World, lengths: Sequence[int]) -> None:
        self.lot = lot
        self.world = world
        # of new objects
        self.lengths = lengths

    def likely(self, chance: float) -> bool:
        return self.lot.random() < chance

    def session(self) -> int:
        return self.lot.choice(SESSIONS)

    def fitting(self, store: PrivateStore, word: str) -> Optional[Tuple[int, Sequence[object]]]:
        """A session and values with which the command is mostly accepted, if there are any."""
        choices = FITTING[word](self, store) if word in FITTING else [()]
        if not choices:
            return None
        choice = self.lot.choice(choices)
        return (choice[0], choice[1:]) if word in ("read", "release") else (self.session(), choice)

    def own(self, store: PrivateStore, fits: Callable[[Copy], bool]) -> List[Tuple[ObjectId, Copy]]:
        return [(one, copy) for one, copy in store.copies.items() if fits(copy)]

    def new_objects(self, store: PrivateStore) -> List[Tuple[Any, ...]]:
        ids = [ObjectId(task, store.job, index) for task in TASKS if task not in store.ended_tasks for index in INDEXES]
        length = min(self.lot.choice(self.lengths), store.window)
        return [(one, length) for one in ids if one not in store.copies]

    def away(self, store: PrivateStore) -> List[ObjectId]:
        """Some of the copies that have to be read back."""
        return [one for one, _ in self.own(store, lambda copy: copy.state is State.AWAY) if self.likely(0.5)]

    def most_room(self, store: PrivateStore) -> int:
        """The length for which there would be room, in twelfths of the window, if all went that is neither held nor granted."""
        loose = [one for one in store.copies if is_loose(store, one)]
        lengths = [store.window * part // 12 for part in range(12, 0, -1)]
        return next((length for length in lengths if free_offset(store, length, loose) is not None), 0)

    def writes(self, store: PrivateStore) -> List[Tuple[Any, ...]]:
        choices: List[Tuple[Any, ...]] = []
        for one, copy in self.own(store, lambda copy: copy.state is State.CREATED):
            offset, count = self.part(copy.length)
            choices.append((one, offset, self.lot.randbytes(min(count, 24))))
        return choices

    def seals(self, store: PrivateStore) -> List[Tuple[Any, ...]]:
        return [(one,) for one, _ in self.own(store, lambda copy: copy.state is State.CREATED)]

    def gets(self, store: PrivateStore) -> List[Tuple[Any, ...]]:
        """Copies, each with others of its kind, and what the job has at other nodes."""
        sealed = self.own(store, lambda copy: copy.state is State.SEALED and not copy.doomed)
        coming = self.own(store, lambda copy: copy.state in (State.AWAY, State.RESTORING, State.FETCHING))
        here, later = [one for one, _ in sealed], [one for one, _ in coming]
        groups = [group for group in (here, here, later, later, self.remote(store)) if group]
        return [(one,) for one in self.lot.choice(groups)] if groups else []

    def holds(self, store: PrivateStore) -> List[Tuple[Any, ...]]:
        return [(session, one) for one, copy in store.copies.items() for session in copy.holds]

    def reads(self, store: PrivateStore) -> List[Tuple[Any, ...]]:
        return [(session, one, *self.part(store.copies[one].length)) for session, one in self.holds(store)]

    def part(self, length: int) -> Tuple[int, int]:
        """An offset and a count within a length, now and then with a byte too many."""
        offset = self.lot.randrange(length)
        most = min(length - offset, CHUNK)
        if self.likely(0.03):
            return offset, length - offset + 1
        return offset, self.lot.randint(0, min(most, 64)) if self.likely(0.9) else most

    def unpins(self, store: PrivateStore) -> List[Tuple[Any, ...]]:
        return [(one, task_text(one.task)) for one, _ in self.own(store, lambda copy: copy.pinned and not copy.doomed)]

    def borrows(self, store: PrivateStore) -> List[Tuple[Any, ...]]:
        tasks = [task for task in TASKS if task not in store.ended_tasks]
        primaries = self.own(store, lambda copy: copy.is_primary and not copy.doomed)
        return [(one, task_text(task)) for one, copy in primaries for task in tasks if task not in copy.borrowers]

    def give_ups(self, store: PrivateStore) -> List[Tuple[Any, ...]]:
        borrowed = self.own(store, lambda copy: not copy.doomed)
        return [(one, task_text(task)) for one, copy in borrowed for task in sorted(copy.borrowers)]

    def deletes(self, store: PrivateStore) -> List[Tuple[Any, ...]]:
        return [(one,) for one, copy in store.copies.items() if not copy.doomed]

    def ends(self, store: PrivateStore) -> List[Tuple[Any, ...]]:
        return [(task_text(task),) for task in TASKS if task not in store.ended_tasks]

    def grantable(self, store: PrivateStore) -> List[ObjectId]:
        """The job's own objects that it may grant."""
        primaries = self.own(store, lambda copy: copy.is_primary and copy.state is State.SEALED and not copy.doomed)
        return [one for one, _ in primaries]

    def grants(self, store: PrivateStore) -> List[Tuple[Any, ...]]:
        ids = self.grantable(store) + list(store.received) * 3
        node = self.world.nodes[store.node]
        grantees = [job for job in [*node.windows, *node.windows, self.lot.randrange(STRAY_JOBS)] if job != store.job]
        return [(one, job) for one in ids for job in grantees if job != one.job and not store.gave(one, job)]

    def withdrawals(self, store: PrivateStore) -> List[Tuple[Any, ...]]:
        return [(given.one, given.grantee) for given in store.given]

    def peeks(self, store: PrivateStore) -> List[Tuple[Any, ...]]:
        return [(one, *self.part(len(seen.content))) for one, seen in store.received.items()]

    def remote(self, store: PrivateStore) -> List[ObjectId]:
        """What the job has sealed at other nodes and not at this one."""
        others = [node.stores[store.job] for node in self.world.nodes if store.job in node.stores]
        copies = [item for other in others for item in other.copies.items()]
        found = [(one, copy) for one, copy in copies if copy.digest is not None and one not in store.copies]
        # what has to be read back first is rarer, and chosen as often
        return [one for one, copy in found for _ in range(4 if copy.state is State.AWAY else 1)]

    def wild(self, store: PrivateStore, word: str) -> Tuple[int, Sequence[object]]:
        """A session and values with which the command needn't be accepted."""
        return self.session(), [self.any_value(store, word, read) for read in COMMANDS[word]]

    def any_value(self, store: PrivateStore, word: str, read: Callable[..., Any]) -> object:
        """A value that this reader of a command's field may read."""
        if read is read_id:
            return self.any_id(store, word)
        if read is read_task:
            return task_text(self.lot.choice(TASKS))
        if read is read_bytes:
            return self.lot.randbytes(self.lot.choice([0, 1, 5, 20]))
        return self.lot.choice(NUMBERS) if self.likely(0.5) else self.lot.randrange(8)

    def any_id(self, store: PrivateStore, word: str) -> ObjectId:
        """Mostly an object that the job has or sees, and sometimes any."""
        known = list(store.received) if word == "peek" else [*store.copies, *store.copies, *store.received]
        if known and self.likely(0.7):
            return self.lot.choice(known)
        job = store.job if self.likely(0.7) else self.lot.randrange(1, STRAY_JOBS)
        return ObjectId(self.lot.choice(TASKS), job, self.lot.choice(INDEXES))


# what a command may fit; the commands that aren't here fit anywhere
FITTING: Dict[str, Callable[[Chooser, PrivateStore], List[Tuple[Any, ...]]]] = {
    "create": Chooser.new_objects,
    "copy": Chooser.new_objects,
    "write": Chooser.writes,
    "seal": Chooser.seals,
    "get": Chooser.gets,
    "read": Chooser.reads,
    "release": Chooser.holds,
    "unpin": Chooser.unpins,
    "borrow": Chooser.borrows,
    "giveup": Chooser.give_ups,
    "delete": Chooser.deletes,
    "endtask": Chooser.ends,
    "grant": Chooser.grants,
    "withdraw": Chooser.withdrawals,
    "peek": Chooser.peeks,
}
