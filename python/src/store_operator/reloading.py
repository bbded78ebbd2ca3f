"""Reads the settings again while the server runs, and makes its jobs what they say."""

from __future__ import annotations

import asyncio
import dataclasses
import logging
from typing import Callable, List, Optional

from .checks import faults_of
from .orders import Admit, Quota, ServerOrder, told
from .refusals import explained
from .settings import Settings, SettingsFault
from .supervisor import NotDone, Supervisor


class Reloading:
    """Each `ask` is one more reading, after the one that goes on."""

    def __init__(self, supervisor: Supervisor, read: Callable[[], Settings], log: logging.Logger) -> None:
        self._supervisor = supervisor
        self._read = read
        self._log = log
        self._jobs = supervisor.settings.jobs
        self._asked = asyncio.Event()

    def ask(self) -> None:
        self._asked.set()

    async def run(self) -> None:
        """Until it is cancelled."""
        while True:
            await self._asked.wait()
            self._asked.clear()
            settings = self._right_settings()
            if settings:
                await self._take(settings)

    def _right_settings(self) -> Optional[Settings]:
        try:
            settings = self._read()
            faults = faults_of(settings)
            if faults:
                raise SettingsFault(faults[0])
            self._supervisor.running()
        except (SettingsFault, NotDone, OSError) as fault:
            self._log.error("the settings were read again, and nothing is changed: %s", fault)
            return None
        return settings

    async def _take(self, settings: Settings) -> None:
        # the server would take an order for a node that it hasn't as a fault, and end
        nodes = self._supervisor.settings.nodes
        orders = [order for job in settings.jobs if job.node < nodes for order in self._orders(job)]
        for order in orders:
            try:
                answer = await self._supervisor.carry_out(order)
            except NotDone as fault:
                self._log.error("not done: %s: %s", told(order), fault)
                continue
            if not answer.endswith(" op ok"):
                self._log.error("not done: %s: %s", told(order), explained(answer))
        self._tell_rest(settings)
        self._jobs = settings.jobs
        self._log.info("the settings were read again: %d orders", len(orders))

    def _orders(self, job: Admit) -> List[ServerOrder]:
        """By which it has what the settings say, if it hasn't."""
        live = self._supervisor.jobs.get(job.node, job.job)
        if live is None:
            return [job]
        if live.key != job.key:
            self._log.warning("job %d at node %d keeps its key: another one wants a job of another number", job.job, job.node)
        if (live.window, live.device) == (job.window, job.device):
            return []
        return [Quota(job.node, job.job, job.window, job.device)]

    def _tell_rest(self, settings: Settings) -> None:
        """What isn't done: jobs that have gone from the settings, and other options that have changed."""
        named = {(job.node, job.job) for job in settings.jobs}
        for job in self._jobs:
            if (job.node, job.job) not in named and self._supervisor.jobs.get(job.node, job.job):
                said = "job %d at node %d has gone from the settings, and is left alone: storectl end %d"
                self._log.info(said, job.job, job.node, job.job)
        names = (field.name for field in dataclasses.fields(settings) if field.name != "jobs")
        changed = [name for name in names if getattr(settings, name) != getattr(self._supervisor.settings, name)]
        if changed:
            self._log.warning("these options have changed, and want a restart: %s", ", ".join(changed))
