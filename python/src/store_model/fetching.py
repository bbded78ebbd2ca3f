"""Both ends of a fetch, as steps of a private store."""

from __future__ import annotations

from typing import TYPE_CHECKING, Optional

from .ids import ObjectId
from .messages import DIRECTORY, AddLocation, Chunk, Locate, Located, Message, NotHere, Place, Pull, RemoveLocation
from .room import make_room
from .words import CHUNK, LONGEST_OBJECT, MOST_COPIES, MOST_WORKS
from .words import Copy, Fetch, Kind, Phase, Refusal, Refused, State, chunks, refuse_if

if TYPE_CHECKING:
    from .store import PrivateStore


def begin(store: PrivateStore, one: ObjectId) -> None:
    """Enters a fetch of an object that the store doesn't have."""
    refuse_if(len(store.copies) >= MOST_COPIES, Refusal.TooMany)
    store.fetches_begun += 1
    fetch = Fetch(store.fetches_begun)
    store.copies[one] = Copy(Kind.SECONDARY, 0, State.FETCHING, fetch=fetch)
    locate(store, one, fetch)


def locate(store: PrivateStore, one: ObjectId, fetch: Fetch) -> None:
    store.send(DIRECTORY, Locate(one, store.node, fetch.number))


def go_on(store: PrivateStore, one: ObjectId, copy: Copy, fetch: Fetch) -> Refusal:
    """What a Get does for a fetch that stands, and the refusal that it answers."""
    if fetch.phase is Phase.FAILED:
        del store.copies[one]
        assert fetch.failure is not None
        return fetch.failure
    if fetch.phase is Phase.LOCATING:
        locate(store, one, fetch)
        return Refusal.Pending
    if fetch.phase is Phase.SIZED:
        refuse_if(not 1 <= copy.length <= LONGEST_OBJECT or copy.extent > store.window, Refusal.BadSize)
        copy.place(make_room(store, copy.length))
        fetch.phase = Phase.PULLING
        fetch.missing = list(range(chunks(copy.length)))
    assert fetch.source is not None and copy.digest is not None
    store.send(fetch.source, Pull(one, fetch.number, copy.length, copy.digest, tuple(fetch.missing)))
    return Refusal.Pending


def arrive(store: PrivateStore, sender: Place, message: Message) -> None:
    """What an arriving message does; one that nobody waits for does nothing."""
    if isinstance(message, Located):
        choose_source(store, message)
    elif isinstance(message, Chunk):
        take_chunk(store, sender, message)
    elif isinstance(message, NotHere):
        give_up(store, sender, message)
    elif isinstance(message, Pull):
        serve(store, sender, message)


def fetch_in(store: PrivateStore, one: ObjectId, number: int, phase: Phase) -> Optional[Copy]:
    """The copy that is being fetched under this number and has come to this phase."""
    copy = store.copies.get(one)
    if copy is None or copy.fetch is None or copy.fetch.number != number or copy.fetch.phase is not phase:
        return None
    return copy


def choose_source(store: PrivateStore, message: Located) -> None:
    copy = fetch_in(store, message.one, message.number, Phase.LOCATING)
    if copy is None or copy.fetch is None:
        return
    elsewhere = [entry for entry in message.entries if entry.node != store.node]
    if not elsewhere:
        fail(copy, Refusal.Absent)
        return
    copy.fetch.source, copy.length, copy.digest = elsewhere[0]
    copy.fetch.phase = Phase.SIZED


def fail(copy: Copy, failure: Refusal) -> None:
    assert copy.fetch is not None
    copy.displace()
    copy.digest = None
    copy.fetch.phase, copy.fetch.failure, copy.fetch.missing = Phase.FAILED, failure, []


def chunk_word(store: PrivateStore, sender: Place, message: Chunk) -> str:
    """What a chunk is to the fetch that it names: ignored, a part, the last part of a whole, or of what is damaged."""
    copy = fetch_in(store, message.one, message.number, Phase.PULLING)
    if copy is None or copy.fetch is None or copy.fetch.source != sender or message.index not in copy.fetch.missing:
        return "ignored"
    if len(message.content) != min(CHUNK, copy.length - message.index * CHUNK):
        return "ignored"
    if len(copy.fetch.missing) > 1:
        return "part"
    return "whole" if copy.matches(with_chunk(copy, message)) else "damaged"


def with_chunk(copy: Copy, message: Chunk) -> bytearray:
    content = bytearray(copy.content)
    start = message.index * CHUNK
    content[start : start + len(message.content)] = message.content
    return content


def take_chunk(store: PrivateStore, sender: Place, message: Chunk) -> None:
    word = chunk_word(store, sender, message)
    if word == "ignored":
        return
    copy = store.copies[message.one]
    assert copy.fetch is not None and copy.digest is not None
    copy.content = with_chunk(copy, message)
    copy.fetch.missing.remove(message.index)
    if word == "damaged":
        fail(copy, Refusal.Damaged)
    elif word == "whole":
        copy.state, copy.fetch = State.SEALED, None
        store.send(DIRECTORY, AddLocation(message.one, store.node, copy.length, copy.digest))


def give_up(store: PrivateStore, sender: Place, message: NotHere) -> None:
    copy = fetch_in(store, message.one, message.number, Phase.PULLING)
    if copy is None or copy.fetch is None or copy.fetch.source != sender:
        return
    store.send(DIRECTORY, RemoveLocation(message.one, copy.fetch.source))
    fail(copy, Refusal.Absent)


def serve(store: PrivateStore, asker: Place, message: Pull) -> None:
    """Sends what is asked for, or has it read back, or says that it isn't here."""
    copy = store.copies.get(message.one)
    if copy is None or not is_served(copy, message):
        store.send(asker, NotHere(message.one, message.number))
    elif copy.state is State.SEALED:
        send_chunks(store, asker, copy, message)
    elif copy.state is State.AWAY:
        restore_silently(store, message.one, copy)


def is_served(copy: Copy, message: Pull) -> bool:
    return pull_matches(copy, message) and not copy.doomed and copy.fault is None


def pull_matches(copy: Copy, message: Pull) -> bool:
    """Whether the copy was sealed with what a Pull names."""
    fits = (copy.length, copy.digest) == (message.length, message.digest)
    return fits and copy.state in (State.SEALED, State.RESTORING, State.AWAY)


def send_chunks(store: PrivateStore, asker: Place, copy: Copy, message: Pull) -> None:
    for index in message.indexes:
        if index < chunks(copy.length):
            content = bytes(copy.content[index * CHUNK : (index + 1) * CHUNK])
            store.send(asker, Chunk(message.one, message.number, index, content))


def restore(store: PrivateStore, one: ObjectId, copy: Copy) -> None:
    """Asks for a read of a copy that is Away, once there is room for it."""
    refuse_if(len(store.works) >= MOST_WORKS, Refusal.Busy)
    copy.place(make_room(store, copy.length))
    copy.state = State.RESTORING
    store.ask(one)


def restore_silently(store: PrivateStore, one: ObjectId, copy: Copy) -> None:
    """Restores a copy for another node, which isn't told of a refusal; and neither is the spill flag cleared."""
    spill_failed = store.spill_failed
    try:
        restore(store, one, copy)
    except Refused:
        store.spill_failed = spill_failed
