"""How a worker asks those of other hosts for a part: the handler of one, and what the other does with its answers."""

from __future__ import annotations

import asyncio
from dataclasses import dataclass
from typing import Any, AsyncIterator, Dict, List, Optional, Set

from distributed.core import send_recv
from distributed.protocol import to_serialize

from ..ids import ObjectId
from ..memory import blank
from ..refusals import ConnectionLost, Damaged, DeviceFailed, ServerSilent, StoreError, TimedOut
from ..steps import Deadline
from .errors import HostUnknown, StoreAway, ValueLost
from .host import HostStore
from .names import Name
from .reference import StoreRef, digest_of

# a store that is lost or can't give these bytes back: another host may
GONE = (ConnectionLost, Damaged, DeviceFailed)
# why a value is lost
RESTARTED = "its store was restarted since it was put"
# how long a worker has to take a connection, and to answer before it is asked whether it lives, in seconds
_CONNECT, _ANSWER = 3.0, 10.0
# how long a part is looked for in the host's own store
_PATIENCE = 30.0


@dataclass
class Route:
    """Whom to ask for the parts of a value, found out once, and who didn't answer."""

    own: List[str]
    others: List[str]
    is_known: bool
    silent: Set[str]

    def addresses(self, turn: int) -> List[str]:
        """The workers of the value's host, from another one on each turn, and then one of each other host."""
        first = turn % max(1, len(self.own))
        return [one for one in [*self.own[first:], *self.own[:first], *self.others] if one not in self.silent]


def answer_part(store: HostStore, name: Name, part: int, id: ObjectId, length: int) -> Dict[str, Any]:
    """What a worker answers who asks for a part: its bytes, that it isn't here, or a fault."""
    into, deadline = blank(length), Deadline(_PATIENCE)
    try:
        here = store.read_into(id, into, deadline)
        if not here:
            here = any(store.read_into(copy, into, deadline) for copy in store.sealed_copies_of(name, part))
        return {"status": "OK", "data": to_serialize(into)} if here else {"status": "absent", "epoch": store.epoch(id)}
    except StoreError as error:
        return {"status": "error", "error": to_serialize(error)}


def is_store_away(error: Exception) -> bool:
    """Whether this says that a store isn't there just now. One that is silent is there."""
    return isinstance(error, ConnectionLost) and not isinstance(error, ServerSilent)


class Peers:
    """The workers of other hosts. All is to be called on the worker's event loop."""

    def __init__(self, worker: Any, host: str) -> None:
        self._worker = worker
        self._host = host

    async def route(self, ref: StoreRef) -> Route:
        """Whom the scheduler knows."""
        told = await self._worker.scheduler.store_hosts(host=ref.host, mine=self._host)
        own = [address for address in told["own"] if address != self._worker.address]
        return Route(own, list(told["others"]), told["known"], set())

    async def part(self, route: Route, ref: StoreRef, part: int, deadline: Deadline) -> memoryview:
        """The part's bytes, of the digest that the reference has. `ValueLost`, `StoreAway`, `HostUnknown`, `TimedOut`."""
        why, is_away, at_restart = f"no worker of {ref.host} is left", False, False
        async for address, answer in self._answers(route, ref, part, deadline):
            if answer is None:
                why = f"{address} doesn't answer"
            elif answer["status"] == "OK":
                data = memoryview(answer["data"]).cast("B")
                # the event loop has other parts to read meanwhile
                digest = await asyncio.get_running_loop().run_in_executor(None, digest_of, data)
                if digest == ref.digests[part]:
                    return data
                why = f"{address} sent other bytes"
            elif answer["status"] == "absent":
                at_restart = at_restart or (address in route.own and ref.is_older_than(answer.get("epoch")))
                why = f"it was removed there, {address} says"
            elif isinstance(answer["error"], GONE):
                is_away = is_away or (address in route.own and is_store_away(answer["error"]))
                why = f"{address} says: {answer['error']}"
            else:
                raise answer["error"]
        if not route.is_known:
            raise HostUnknown(ref.host, ref.about)
        if at_restart:
            raise ValueLost(ref.host, ref.about, RESTARTED, at_restart)
        raise (StoreAway if is_away else ValueLost)(ref.host, ref.about, why)

    async def _answers(self, route: Route, ref: StoreRef, part: int, deadline: Deadline) -> AsyncIterator[Any]:
        for address in route.addresses(part):
            answer = await self._ask(address, ref, part, deadline)
            if answer is None:
                route.silent.add(address)
            yield address, answer

    async def _ask(self, address: str, ref: StoreRef, part: int, deadline: Deadline) -> Optional[Dict[str, Any]]:
        """What the worker answers; None if it is gone. One that is busy is waited for as long as it lives."""
        words = {
            "op": "store_part",
            "name": ref.name.prefix,
            "part": part,
            "id": ref.primary(part).to_bytes(),
            "length": ref.place(part).stop - ref.place(part).start,
        }
        while True:
            try:
                return await self._send(address, words, _ANSWER)
            except asyncio.TimeoutError:
                lives = await self._lives(address)
            except OSError:
                lives = False
            if not lives:
                return None
            if deadline.is_over:
                raise TimedOut(f"{address} lives, and didn't send part {part} of {ref.about} in time")

    async def _lives(self, address: str) -> bool:
        try:
            await self._send(address, {"op": "store_ping"}, _CONNECT)
        except (OSError, asyncio.TimeoutError):
            return False
        return True

    async def _send(self, address: str, words: Dict[str, Any], seconds: float) -> Dict[str, Any]:
        # by itself Dask tries for half a minute to connect to a worker that is gone
        comm = await self._worker.rpc.connect(address, timeout=_CONNECT)
        try:
            answer: Dict[str, Any] = await asyncio.wait_for(send_recv(comm, **words), seconds)
            return answer
        finally:
            self._worker.rpc.reuse(address, comm)
