"""The store under Dask: values lie in the store of each host, once, and tasks pass references to them.

    from store_client import dask as store

    store.attach(client, "/run/store/store", job=1, key_file="/etc/store/job1.key")
    ref = client.submit(lambda: store.put(numpy.zeros(10**8)))            # a task's result is a small reference
    client.submit(lambda ref: ref.load().sum(), ref).result()             # on any host: the array, read-only

A value is read from the host's own store. What another host has is fetched once for all workers of a host, by Dask's own connections,
and offered to the host's store as a copy. `docs/CLUSTER.md` says when that is worth it, and what is lost when. It needs `distributed`.
"""

from __future__ import annotations

from typing import Any, Dict, List, Optional, Tuple

from ..items import Usage
from .errors import HostUnknown, KeyReleased, ValueLost
from .names import Name
from .reference import PLUGIN, StoreRef, put
from .scheduler import StoreScheduler
from .worker import MOVES, PART, RETURN, SMALL, StoreWorkers

__all__ = [
    "HostUnknown",
    "KeyReleased",
    "Name",
    "StoreRef",
    "StoreScheduler",
    "StoreWorkers",
    "ValueLost",
    "attach",
    "counts",
    "put",
    "usage",
]


def attach(
    client: Any,
    socket: str,
    job: int = 1,
    key_file: Optional[str] = None,
    nodes: int = 1,
    part: int = PART,
    small: int = SMALL,
    lease: float = 5.0,
    patience: float = RETURN,
) -> None:
    """Gives all workers of the client's scheduler a store, those that join later too.

    The socket is that of a node without its number: that of node K is `SOCKET.K`. `nodes` is how many a host's server has, the key file
    has the job's key as 64 hexadecimal digits. A worker's environment goes before that: `STORE_SOCKET`, `STORE_NODES`, `STORE_JOB`,
    `STORE_KEY`, `STORE_KEY_FILE`, and `STORE_HOST`, the name of its host, which is its hostname by itself.

    Values of more than `small` bytes are stored, in parts of at most `part` bytes, the others lie in their references. A worker that
    fetches something, and shows no progress for `lease` seconds, is taken for dead by the others of its host.

    A store may be away for a while, as `store-daemon` starts it again after a crash. A task that puts, or that loads what nobody else has,
    waits for it for `patience` seconds. Only then a put is `ConnectionLost`, and a value lost.

    Raises what a worker meets: `ConnectionLost` if its host has no store, `NotAdmitted` if the job isn't live
    there or the key isn't its own, `ValueError` or `OSError` if the key file isn't right there. A worker that meets it stays, also one
    that joins later. A task of it that puts or loads looks for the store again, after a pause that grows from half a second to 30 seconds;
    otherwise it raises `RuntimeError`, which says why there is none.
    """
    client.register_scheduler_plugin(StoreScheduler(), idempotent=True)
    client.register_worker_plugin(StoreWorkers(socket, job, key_file, nodes, part, small, lease, patience))


def counts(client: Any) -> Dict[str, Dict[str, int]]:
    """Of each host what its workers have moved since they began, in bytes: `put`; `local`, read from the host's store; `fetched` from
    other hosts, and `served` to them."""
    sums: Dict[str, Dict[str, int]] = {}
    for host, told in _answers(client, _counts):
        sums[host] = {what: sums.get(host, {}).get(what, 0) + told.get(what, 0) for what in MOVES}
    return sums


def usage(client: Any) -> Dict[str, List[Usage]]:
    """Of each host what the job has and uses of each node of its store. `ConnectionLost` if one is away just now."""
    return dict(_answers(client, _usage))


def _answers(client: Any, asked: Any) -> List[Tuple[str, Any]]:
    """What the workers that have a store answer, each with its host."""
    return [answer for answer in client.run(asked).values() if answer is not None]


def _counts(dask_worker: Any) -> Optional[Tuple[str, Dict[str, int]]]:
    plugin = dask_worker.plugins[PLUGIN]
    return None if plugin.fault else (plugin.host, plugin.counts())


def _usage(dask_worker: Any) -> Optional[Tuple[str, List[Usage]]]:
    plugin = dask_worker.plugins[PLUGIN]
    return None if plugin.fault else (plugin.host, plugin.usage())
