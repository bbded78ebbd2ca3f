"""A saved journal read, and a job's private store that takes its lines as a replay has to.

A journal has no contents. So each object is zeros here and has the digest of so many zeros, and the words that were judged
when the journal was written decide where contents would.
"""

from __future__ import annotations

from typing import Any, Callable, Dict, Iterator, List, NamedTuple, Tuple

from .answers import in_version, read_answer, read_count
from .fetching import choose_source, give_up, serve, take_chunk
from .ids import NotAStep, ObjectId, read_id, read_long, read_number
from .journal import without_contents
from .messages import Chunk, Entry as Location, Located, NotHere, Pull
from .schedule import COMMANDS
from .store import ReceivedGrant, PrivateStore
from .words import CHUNK, LONGEST_CALL, LONGEST_OBJECT, Refusal, Refused, digest_of, is_quota, refuse_if

MOST_NODES = 8
# a journal's first line, and the version that it says
HEADS = {f"journal {version}": version for version in (1, 2, 3)}


class NotAnEntry(Exception):
    """A line, counted from 1, that isn't of the journal's grammar."""

    def __init__(self, line: int) -> None:
        super().__init__(f"line {line}: not an entry")


class Entry(NamedTuple):
    """A line after the first: the job and node that it is of, its input as a call of a store, and the answer that it has."""

    version: int
    line: int
    node: int
    job: int
    number: int
    word: str
    values: Tuple[Any, ...]
    answer: str


class Lines:
    """Reads lines, each of which has to have the next number of its job at its node."""

    def __init__(self, version: int) -> None:
        self.version = version
        self.counts: Dict[Tuple[int, int], int] = {}

    def read(self, line: int, text: str) -> Entry:
        said, equals, answer = text.partition(" = ")
        fields = said.split(" ")
        if not equals or not answer or len(fields) < 4:
            raise NotAStep
        node, job, number = read_marked("n", fields[0]), read_marked("j", fields[1]), read_long(fields[2])
        if node >= MOST_NODES or job == 0 or number != self.counts.get((node, job), 0) + 1:
            raise NotAStep
        self.counts[node, job] = number
        word, values = read_input(self.version, job, fields[3], fields[4:])
        read_answer(answer, job, self.version, word == "command")
        return Entry(self.version, line, node, job, number, word, values, answer)


def read_journal(text: str) -> List[Entry]:
    """The entries of a journal, or `NotAnEntry` of its first line that isn't one."""
    *lines, rest = text.split("\n")
    if not lines or lines[0] not in HEADS:
        raise NotAnEntry(1)
    reader, entries = Lines(HEADS[lines[0]]), []
    for line, said in enumerate(lines[1:], 2):
        try:
            entries.append(reader.read(line, said))
        except NotAStep:
            raise NotAnEntry(line) from None
    if rest:
        raise NotAnEntry(len(lines) + 1)
    return entries


def read_marked(mark: str, text: str) -> int:
    if not text.startswith(mark):
        raise NotAStep
    return read_number(text[len(mark) :])


def read_input(version: int, job: int, word: str, fields: List[str]) -> Tuple[str, Tuple[Any, ...]]:
    if word.startswith("s"):
        return "command", (read_marked("s", word), *read_command(version, job, fields))
    if word == "located":
        return word, (*read_fields(job, (read_id, read_long), fields[:2]), tuple(map(read_location, fields[2:])))
    if word not in INPUTS or (word == "quota" and version < 3):
        raise NotAStep
    if word in GRANTS and version == 1:
        one, *numbers = read_fields(job, INPUTS[word][:-2], fields)
        return word, (one, *numbers, one.job, 1)
    return word, read_fields(job, INPUTS[word], fields)


def read_fields(job: int, readers: Tuple[Callable[..., Any], ...], fields: List[str]) -> Tuple[Any, ...]:
    if len(fields) != len(readers):
        raise NotAStep
    return tuple(read(text, job) if read is read_id else read(text) for read, text in zip(readers, fields))


def read_command(version: int, job: int, fields: List[str]) -> Tuple[str, Tuple[Any, ...]]:
    word, texts = fields[0] if fields else "", fields[1:]
    if word not in COMMANDS:
        raise NotAStep
    readers = COMMANDS[word]
    if word == "write":
        readers = (read_id, read_number, read_zeros)
    values = read_fields(job, readers, texts)
    if version == 1 and word == "grant" and values[0].job != job:
        # in version 1 it is refused as any other command on a foreign object
        return "get", values[:1]
    return word, values


def read_zeros(text: str) -> bytes:
    """So many zeros as were bytes written, or one more than may be."""
    return bytes(min(read_count(text), LONGEST_CALL + 1))


def read_location(text: str) -> Location:
    node, _, rest = text.partition(":")
    length, _, digest = rest.partition(":")
    if len(digest) != 64 or not set(digest) <= set("0123456789abcdef"):
        raise NotAStep
    bytes_of = bytes(min(read_number(length), LONGEST_OBJECT))
    return Location(read_number(node), read_number(length), digest_of(bytes_of))


def read_positive(text: str) -> int:
    number = read_number(text)
    if number == 0:
        raise NotAStep
    return number


def one_of(*words: str) -> Callable[[str], str]:
    def read(text: str) -> str:
        if text not in words:
            raise NotAStep
        return text

    return read


# of each input that is neither a command nor a Located, what its fields are
INPUTS: Dict[str, Tuple[Callable[..., Any], ...]] = {
    "begin": (read_long, read_long),
    "quota": (read_long, read_long),
    "end": (),
    "answer": (read_long, one_of("ok", "damage", "fail")),
    "chunk": (read_id, read_long, read_number, read_number, one_of("ignored", "part", "whole", "damaged")),
    "pull": (read_id, read_long, one_of("match", "other")),
    "nothere": (read_id, read_long, read_number),
    "received": (read_id, read_number, read_positive, read_positive),
    "withdrawn": (read_id, read_positive, read_positive),
}


class Replay:
    """The store of one job at one node, as it was after the entries that were taken."""

    def __init__(self, store: PrivateStore) -> None:
        self.store = store
        self.has_begun = False

    def take(self, entry: Entry) -> str:
        """The right answer to the entry, as a journal of its version has it."""
        try:
            answer = self.step(entry.word, entry.values)
        except Refused as refused:
            answer = str(refused)
        self.store.sent, self.store.asked, self.store.erased = [], [], []
        return in_version(without_contents(answer), entry.version)

    def step(self, word: str, values: Tuple[Any, ...]) -> str:
        if word == "command":
            return self.store.command(*values)
        if word == "begin":
            refuse_if(self.has_begun, Refusal.Stale)
            begin(self.store, *values)
            self.has_begun = True
        elif word in GRANTS:
            GRANTS[word](self.store, *values)
        else:
            refuse_if(not self.store.is_live, Refusal.Stale)
            LIVE[word](self.store, *values)
        return "ok"


def differences(entries: List[Entry]) -> Iterator[Tuple[Entry, str]]:
    """The entries that have another answer than the right one, each with that."""
    stores: Dict[Tuple[int, int], Replay] = {}
    for entry in entries:
        due = stores.setdefault((entry.node, entry.job), Replay(PrivateStore(entry.job, entry.node))).take(entry)
        said = [read_answer(answer, entry.job, entry.version, True) for answer in (entry.answer, due)]
        if said[0] != said[1]:
            yield entry, due


def replayed(text: str) -> Tuple[str, str, int]:
    """What a replay of a text prints, the fault that it tells, and its status."""
    try:
        entries = read_journal(text)
    except NotAnEntry as fault:
        return "", f"store: {fault}\n", 1
    for entry, due in differences(entries):
        place = f"entry {entry.number} of j{entry.job} at n{entry.node}"
        return f"{place}: had {entry.answer}, should be {due}\n", "", 1
    return f"replayed {len(entries)}\n", "", 0


def begin(store: PrivateStore, window: int, device_quota: int) -> None:
    refuse_if(not is_quota(window, device_quota), Refusal.BadSize)
    store.begin(window, device_quota)


def quota(store: PrivateStore, window: int, device_quota: int) -> None:
    refuse_if(not is_quota(window, device_quota), Refusal.BadSize)
    refuse_if(store.last_used_byte() > window or store.device_bytes() > device_quota, Refusal.Full)
    store.requota(window, device_quota)


def answer(store: PrivateStore, number: int, word: str) -> None:
    refuse_if(number not in store.works, Refusal.Stale)
    work = store.works[number]
    if word == "fail":
        store.answer(number, None)
    elif word == "damage" and not work.is_write:
        store.answer(number, b"")
    else:
        store.answer(number, bytes(store.copies[work.one].length))


def chunk(store: PrivateStore, one: ObjectId, number: int, index: int, sender: int, word: str) -> None:
    copy = store.copies.get(one)
    if word == "ignored" or copy is None or copy.fetch is None:
        return
    is_last = copy.fetch.missing == [index]
    byte = b"\1" if is_last and word == "damaged" else b"\0"
    take_chunk(store, sender, Chunk(one, number, index, byte * min(CHUNK, copy.length - index * CHUNK)))


def pull(store: PrivateStore, one: ObjectId, number: int, word: str) -> None:
    copy = store.copies.get(one)
    if word == "match" and copy is not None and copy.digest is not None:
        serve(store, store.node, Pull(one, number, copy.length, copy.digest, ()))


def withdrawn(store: PrivateStore, one: ObjectId, grantor: int, depth: int) -> None:
    if one in store.received and ReceivedGrant(grantor, depth) in store.received[one].grants:
        store.withdrawn(one, ReceivedGrant(grantor, depth))


# what is told of grants, to stores that aren't live too
GRANTS: Dict[str, Callable[..., Any]] = {
    "received": lambda store, one, length, grantor, depth: store.receive(one, bytes(length), ReceivedGrant(grantor, depth)),
    "withdrawn": withdrawn,
}

LIVE: Dict[str, Callable[..., Any]] = {
    "quota": quota,
    "end": PrivateStore.end,
    "answer": answer,
    "located": lambda store, one, number, entries: choose_source(store, Located(one, number, entries)),
    "chunk": chunk,
    "pull": pull,
    "nothere": lambda store, one, number, sender: give_up(store, sender, NotHere(one, number)),
}
