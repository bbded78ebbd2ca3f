"""What always holds of a private store and of a node's grants, by the rules. The drawing looks at it now and then."""

from __future__ import annotations

from typing import Dict, List

from .ids import ObjectId
from .node import Node
from .store import ReceivedGrant, PrivateStore
from .words import MOST_COPIES, MOST_WORKS, UNIT, Copy, Phase, State
from .world import World

ON_DEVICE = (State.SEALED, State.RESTORING, State.AWAY)


def check_world(world: World) -> None:
    for node in world.nodes:
        for store in node.stores.values():
            check_store(store)
        check_grants(node)


def check_store(store: PrivateStore) -> None:
    check_extents(store)
    assert store.device_bytes() <= store.device_quota, "more on the device than its quota"
    assert len(store.copies) <= MOST_COPIES and len(store.works) <= MOST_WORKS, "more than the limits"
    assert {one: number for number, (one, _) in store.works.items()} == {
        one: copy.work for one, copy in store.copies.items() if copy.is_working
    }, "a work without its copy"
    for one, copy in store.copies.items():
        check_work(store, copy)
        check_keepers(store, one, copy)
        check_content(copy)


def check_extents(store: PrivateStore) -> None:
    end = 0
    for offset, extent in sorted((copy.offset, copy.extent) for copy in store.copies.values() if copy.offset is not None):
        assert offset % UNIT == 0 and offset >= end, "extents that meet"
        end = offset + extent
    assert end <= store.window, "an extent out of the window"


def check_work(store: PrivateStore, copy: Copy) -> None:
    """What is written is sealed and not backed; what is read back is backed and Restoring."""
    is_read = copy.work is not None and not store.works[copy.work].is_write
    is_written = copy.is_working and not is_read
    assert (copy.state is State.RESTORING) == is_read, "a read of a copy that isn't Restoring"
    assert not is_written or (copy.state is State.SEALED and copy.is_primary and not copy.is_backed), "a write in vain"
    assert not copy.is_backed or (copy.is_primary and copy.state in ON_DEVICE), "a backed copy that isn't a sealed primary"
    assert copy.is_backed or copy.state not in (State.RESTORING, State.AWAY), "an Away copy that isn't backed"
    assert copy.fault is None or copy.state is State.AWAY, "a fault of a copy that isn't Away"


def check_keepers(store: PrivateStore, one: ObjectId, copy: Copy) -> None:
    """Pins, borrowers, holds and grants keep only what they may."""
    is_granted = store.is_granted(one)
    assert copy.state is State.SEALED or not (copy.is_held or is_granted), "held or granted, and not sealed"
    assert copy.is_primary or not (is_granted or copy.in_scope), "a secondary that is granted, pinned or borrowed"
    assert not copy.doomed or copy.is_held or is_granted or copy.is_working, "doomed, and kept by nothing"
    assert copy.doomed or not copy.is_primary or copy.in_scope, "out of scope, and not doomed"
    assert copy.doomed or one.task not in store.ended_tasks, "of an ended task, and not doomed"
    assert not copy.borrowers & store.ended_tasks, "an ended task that borrows"


def check_content(copy: Copy) -> None:
    is_pulling = copy.fetch is not None and copy.fetch.phase is Phase.PULLING
    is_resident = copy.state in (State.CREATED, State.SEALED, State.RESTORING) or is_pulling
    assert (copy.offset is not None) == is_resident, "an extent of what isn't in the window"
    assert (copy.fetch is not None) == (copy.state is State.FETCHING), "a fetch of what isn't fetched"
    assert not is_pulling or (copy.fetch is not None and copy.fetch.missing), "a pull of nothing"
    assert copy.state is not State.SEALED or copy.matches(copy.content), "sealed bytes of another digest"


def check_grants(node: Node) -> None:
    """Each store knows of the grants from and to its job what the node does, and sees the owner's bytes."""
    for job, store in node.stores.items():
        given = sorted((grant.one, grant.grantee, grant.depth, grant.parent) for grant in node.grants if grant.grantor == job)
        assert given == sorted((one, grantee, depth, grantor or 0) for one, grantee, depth, grantor in store.given), "grants given"
        received: Dict[ObjectId, List[ReceivedGrant]] = {}
        for grant in node.grants:
            if grant.grantee == job:
                received.setdefault(grant.one, []).append(ReceivedGrant(grant.grantor, grant.depth))
        assert received == {one: seen.grants for one, seen in store.received.items()}, "grants received"
        for one, seen in store.received.items():
            assert seen.content == node.stores[one.job].copies[one].content, "other bytes than the owner's"
