"""What can be seen to be wrong with settings before a server is started: ranges, sums, and what the machine has."""

from __future__ import annotations

import os
from pathlib import Path
from typing import Dict, List

from .orders import Admit
from .settings import Settings
from .sizes import size_text

_LEAST_WINDOW, _MOST_WINDOW, _MOST_DEVICE, _UNIT = 16, 1 << 28, 1 << 40, 16


def faults_of(settings: Settings) -> List[str]:
    """What the server would refuse, each in a line with section and option."""
    found = [fault for job in settings.jobs for fault in _of_job(job, settings.memory)]
    found += [fault for node in range(settings.nodes) for fault in _of_node(settings, node)]
    # a job has the same fault at all its nodes
    return list(dict.fromkeys(found))


def _of_job(job: Admit, memory: int) -> List[str]:
    section, window = f"[job {job.job}]", size_text(job.window)
    found = []
    if not _LEAST_WINDOW <= job.window <= _MOST_WINDOW or job.window % _UNIT:
        found.append(f"{section} window: {window} isn't {_LEAST_WINDOW} to {size_text(_MOST_WINDOW)} and a multiple of {_UNIT}")
    if job.window > memory:
        found.append(f"{section} window: {window} is more than a node's memory, {size_text(memory)}")
    if job.device > _MOST_DEVICE:
        found.append(f"{section} device: {size_text(job.device)} is more than {size_text(_MOST_DEVICE)}")
    return found


def _of_node(settings: Settings, node: int) -> List[str]:
    windows = sum(job.window for job in settings.jobs if job.node == node)
    if windows <= settings.memory:
        return []
    sizes = f"{size_text(windows)}, and its memory is {size_text(settings.memory)}"
    return [f"[store] memory: the windows of the jobs at node {node} are {sizes}"]


def warnings_of(settings: Settings) -> List[str]:
    """What the machine hasn't: a server may be started all the same, and fail."""
    found = []
    machine = os.sysconf("SC_PAGE_SIZE") * os.sysconf("SC_PHYS_PAGES")
    if settings.nodes * settings.memory > machine:
        sizes = f"{size_text(settings.memory)} are more than the machine has, {size_text(machine)}"
        found.append(f"[store] memory: {settings.nodes} nodes of {sizes}")
    return [*found, *_full_disks(settings)]


def _full_disks(settings: Settings) -> List[str]:
    quotas: Dict[int, int] = {}
    free: Dict[int, int] = {}
    for job in settings.jobs:
        there = _first_there(settings.folders()[job.node])
        disk, room = there.stat().st_dev, os.statvfs(there)
        quotas[disk] = quotas.get(disk, 0) + job.device
        free[disk] = room.f_bavail * room.f_frsize
    return [
        f"[store] spill: the device quotas of the jobs there are {size_text(quota)} in all, and {size_text(free[disk])} are free"
        for disk, quota in quotas.items()
        if quota > free[disk]
    ]


def _first_there(folder: Path) -> Path:
    """The folder, or the first one above it that was made yet."""
    return next(place for place in (folder, *folder.parents) if place.exists())
