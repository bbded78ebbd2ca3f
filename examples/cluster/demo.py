#!/usr/bin/env python3
"""A computation of several gigabytes over three hosts, one of which is lost in the middle: make cluster-demo.

It is done by plain Dask first, and then by way of the stores, where a second job grants an array to the first and host C is killed
when a third of the arrays are made. Both results have to be equal, bit for bit. It prints what moved where. STORE_CLUSTER_UNIT is the
length of the shortest array in bytes (64 MiB): arrays have one to eight of them. It needs Debian's python3-distributed and
python3-numpy, and says so if they aren't there.
"""

from __future__ import annotations

import os
import sys
import time
from pathlib import Path
from typing import Any, Dict, List

import inside

# seconds, for all of it
LIMIT = 1200
UNIT = int(os.environ.get("STORE_CLUSTER_UNIT", 2**26))
MIB = 2**20


def run(folder: Path) -> int:
    """Both computations, and what came of them. The status."""
    import computation
    from hosts import Hosts, Job, timed

    # a window and a device of each of the two nodes of a host's store
    window, count = min(2**28, 4 * UNIT), len(computation.SIZES)
    total = computation.LAYERS * sum(computation.SIZES) * UNIT / MIB
    print(f"{computation.LAYERS} layers of {count} arrays of {UNIT / MIB:g} to {8 * UNIT / MIB:g} MiB, {total:g} MiB in all")
    print(f"the first job has windows of {2 * window / MIB:g} MiB a host", flush=True)
    small = min(2**16, UNIT // 8)
    with Hosts(folder, "ABC", {1: Job(window, 64 * UNIT, 2), 2: Job(window, 0, 1)}, small=small) as hosts:
        one, two = hosts.clients[1], hosts.clients[2]
        links = Links(hosts)
        with timed("plain Dask, and no host is lost"):
            same = one.submit(computation.make, UNIT // 8, 99)
            due = one.gather(computation.submit(one, computation.plain, UNIT, same)[-1])
            del same
        links.show()
        with timed("the second job puts an array on host B, and grants it to the first"):
            extra = two.submit(computation.granted, UNIT // 8, 99, 1, workers=["B2.0"]).result()
        with timed("by way of the stores, and host C is lost"):
            layers = computation.submit(one, computation.stored, UNIT, extra)
            lose(hosts, layers, links)
            # from now on an array goes when no task needs it any more
            del layers[:-1]
            told = one.gather(layers[-1])
        show_stores(one)
        links.show()
        print(f"tasks that were run: {computation.ran(folder)}; if no host is lost: make {count}, combine {2 * count}, describe {count}")
        print("equal to plain Dask, bit for bit" if told == due else f"NOT EQUAL: {told} and {due}")
    return 0 if told == due else 1


def lose(hosts: Any, layers: List[List[Any]], links: Links) -> None:
    """Waits until a third of the arrays are made, and kills host C."""
    arrays = [future for layer in layers[:-1] for future in layer]
    while sum(future.done() for future in arrays) < len(arrays) // 3:
        time.sleep(0.05)
    show_stores(hosts.clients[1])
    links.show()
    print(f"host C is killed when {sum(future.done() for future in arrays)} of {len(arrays)} arrays are made", flush=True)
    hosts.kill_host("C")


class Links:
    """What came over the link of each host since it was last shown."""

    def __init__(self, hosts: Any) -> None:
        self._hosts = hosts
        self._before: Dict[str, int] = {}
        self._look()

    def _look(self) -> Dict[str, int]:
        if not inside.has_network():
            return {}
        now = {name: self._hosts.delivered(name) for name, host in self._hosts.hosts.items() if not host.is_lost}
        since = {name: count - self._before.get(name, 0) for name, count in now.items()}
        self._before = now
        return since

    def show(self) -> None:
        """Prints it."""
        for name, count in self._look().items():
            print(f"  over the link to {name}: {count / MIB:.1f} MiB", flush=True)


def show_stores(client: Any) -> None:
    """Prints what the first job's workers moved, and what the stores have of it."""
    from store_client import dask as store

    usages = store.usage(client)
    for host, told in sorted(store.counts(client).items()):
        moved = ", ".join(f"{what} {count / MIB:.1f}" for what, count in told.items())
        memory, device = (sum(getattr(usage, name) for usage in usages[host]) / MIB for name in ("window_used", "device_used"))
        print(f"  host {host}, MiB: {moved}; its store has {memory:.1f} in memory, and wrote {device:.1f} to the device", flush=True)


if __name__ == "__main__":
    sys.exit(inside.main(run, LIMIT))
