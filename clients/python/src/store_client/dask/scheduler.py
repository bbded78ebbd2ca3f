"""What the scheduler keeps: which hosts there are, and which values are to stay."""

from __future__ import annotations

import asyncio
import time
from typing import Any, Dict, Iterable, List, Optional, Set

from distributed import SchedulerPlugin

from .names import Name
from .reference import PLUGIN

# how long released values are gathered before the hosts are told, in seconds
_GATHERING = 0.05
# stands for a key that is never released
_FOREVER = ""


class StoreScheduler(SchedulerPlugin):  # type: ignore[misc]  # Dask's classes have no types
    """On the scheduler: gives out epochs, and has each host remove the values whose keys are released. `attach` registers it.

    A value stays as long as one of its keys does: that of the task that put it, and those of tasks that called `keep`. A key that
    leaves memory since its worker was lost, and that somebody waits for, isn't released: it is computed again, in another epoch, and
    once it is, its earlier epochs go.
    """

    name = PLUGIN

    def __init__(self) -> None:
        self._scheduler: Any = None
        # of each worker the host; each host that ever had one
        self._hosts: Dict[str, str] = {}
        self._known: Set[str] = set()
        # a scheduler that starts later begins later
        self._epoch = int(time.time() * 1000)
        # of each epoch its name, and the keys for which it stays; of each key its epochs, and those of its earlier runs
        self._names: Dict[int, Name] = {}
        self._keys: Dict[int, Set[str]] = {}
        self._epochs: Dict[str, Set[int]] = {}
        self._earlier: Dict[str, Set[int]] = {}
        # of each lost value the keys for which it stayed, and the tasks that said so
        self._lost: Dict[Name, Set[str]] = {}
        self._askers: Dict[Name, Set[str]] = {}
        self._released: List[Name] = []
        self._telling: Set[asyncio.Task[None]] = set()

    async def start(self, scheduler: Any) -> None:
        """The scheduler takes the plugin."""
        self._scheduler = scheduler
        for handler in (self.store_join, self.store_hosts, self.store_begin, self.store_keep, self.store_release, self.store_lost):
            scheduler.handlers[handler.__name__] = handler

    # ---- what workers ask

    async def store_join(self, worker: str, host: str) -> None:
        """A worker has a store, of this host."""
        self._hosts[worker] = host
        self._known.add(host)

    async def store_hosts(self, host: str, mine: str) -> Dict[str, Any]:
        """The workers of a host, one of each other host but the asker's own, and whether the host was ever heard of."""
        others = {other: address for address, other in self._hosts.items() if other not in (host, mine)}
        return {"own": self._workers_of(host), "others": list(others.values()), "known": host in self._known}

    async def store_begin(self, key: str, worker: str, with_key: bool) -> Optional[int]:
        """The epoch of a value that a task is about to put; None if its key was released meanwhile."""
        if key not in self._scheduler.tasks:
            return None
        self._epoch += 1
        self._names[self._epoch] = Name.of(key, self._epoch)
        self._keep(self._epoch, key if with_key else _FOREVER)
        return self._epoch

    async def store_keep(self, name: bytes, key: str) -> bool:
        """The value stays for this key too. False if it is gone already, or another scheduler's."""
        if not self._has(Name(bytes(name))) or key not in self._scheduler.tasks:
            return False
        self._keep(Name(bytes(name)).epoch, key)
        return True

    async def store_release(self, name: bytes) -> None:
        """The value goes, whoever keeps it."""
        self._drop_value(Name(bytes(name)))

    async def store_lost(self, name: bytes, asker: str) -> bool:
        """A task found the value to be lost: the keys for which it stayed are computed again.

        Whether the task is to be run again after them, since it depends on one; each is told so once of a value.
        """
        value = Name(bytes(name))
        keys = self._lost.setdefault(value, self._drop_value(value))
        tasks = [self._scheduler.tasks.get(key) for key in keys if not self._askers.get(value)]
        lost = {task.key: "released" for task in tasks if task is not None and task.state == "memory"}
        if lost:
            self._scheduler.transitions(lost, f"store-lost-{time.time()}")
        task = self._scheduler.tasks.get(asker)
        is_first = asker not in self._askers.setdefault(value, set())
        self._askers[value].add(asker)
        return is_first and task is not None and any(dependency.key in keys for dependency in task.dependencies)

    # ---- what the scheduler tells

    def transition(self, key: str, start: str, finish: str, *args: Any, **more: Any) -> None:
        """A key changes its state."""
        if finish == "processing":
            self._earlier[key] = set(self._epochs.get(key, ()))
        elif start == "processing" and finish == "memory":
            self._let_go(key, self._earlier.pop(key, set()))
        elif finish == "forgotten" or (start == "memory" and finish == "released" and not self._is_wanted(key)):
            self._earlier.pop(key, None)
            self._let_go(key, set(self._epochs.get(key, ())))

    def remove_worker(self, scheduler: Any, worker: str) -> None:
        """A worker is gone."""
        self._hosts.pop(worker, None)

    # ---- what these need

    def _is_wanted(self, key: str) -> bool:
        task = self._scheduler.tasks.get(key)
        return task is not None and bool(task.who_wants or task.waiters)

    def _workers_of(self, host: str) -> List[str]:
        return [address for address, one in self._hosts.items() if one == host]

    def _has(self, value: Name) -> bool:
        """Whether it is one of here: another scheduler, of another job, may have given out the same epoch."""
        return self._names.get(value.epoch) == value

    def _keep(self, epoch: int, key: str) -> None:
        self._keys.setdefault(epoch, set()).add(key)
        self._epochs.setdefault(key, set()).add(epoch)

    def _let_go(self, key: str, epochs: Iterable[int]) -> None:
        """The key keeps these no longer."""
        for epoch in epochs:
            self._forget_pair(epoch, key)
            if not self._keys.get(epoch):
                self._drop(epoch)

    def _drop_value(self, value: Name) -> Set[str]:
        return self._drop(value.epoch) if self._has(value) else set()

    def _drop(self, epoch: int) -> Set[str]:
        """The value goes. The keys that kept it."""
        keys = self._keys.pop(epoch, set())
        for key in set(keys):
            self._forget_pair(epoch, key)
        name = self._names.pop(epoch, None)
        if name:
            self._released.append(name)
            if len(self._released) == 1:
                task = asyncio.ensure_future(self._tell())
                self._telling.add(task)
                task.add_done_callback(self._telling.discard)
        return keys

    def _forget_pair(self, epoch: int, key: str) -> None:
        self._keys.get(epoch, set()).discard(key)
        epochs = self._epochs.get(key, set())
        epochs.discard(epoch)
        if not epochs:
            self._epochs.pop(key, None)

    async def _tell(self) -> None:
        """All workers hear which values are gone, and one of each host removes them."""
        await asyncio.sleep(_GATHERING)
        prefixes = [name.prefix for name in self._released]
        self._released.clear()
        hosts = set(self._hosts.values())
        await self._send(list(self._hosts), prefixes, sweep=False)
        await asyncio.gather(*(self._sweep(host, prefixes) for host in hosts))

    async def _sweep(self, host: str, prefixes: List[bytes]) -> None:
        """One worker of the host removes them; another one if the first is gone."""
        for address in self._workers_of(host):
            answers = await self._send([address], prefixes, sweep=True)
            if isinstance(answers.get(address), int):
                return

    async def _send(self, workers: List[str], prefixes: List[bytes], sweep: bool) -> Dict[str, Any]:
        words = {"op": "store_forget", "prefixes": prefixes, "sweep": sweep}
        answers: Dict[str, Any] = await self._scheduler.broadcast(msg=words, workers=workers, on_error="return")
        return answers
