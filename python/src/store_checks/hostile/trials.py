"""The trials: each makes its own servers, and says what it measured. The first line of what is written of a trial is its question."""

from __future__ import annotations

import contextlib
import socket
import tempfile
import threading
import time
from typing import Callable, Dict, Iterator, List, NamedTuple, Sequence

import store_client
from store_client import ObjectId, Task
from store_testing.daemon import Supervised
from store_testing.frames import ask, frame, hello, key, numbers, receive

from .findings import ALLOCATORS_SHARE, JOURNAL, Check, compared, given_back
from .host import PATIENCE, Host, attacked, close_all, raw_streams

# the numbers of jobs; the third one's window is as large as one of its objects
ATTACKER, VICTIM, CROWDED = 1, 2, 3
KIB, MIB = 1 << 10, 1 << 20
SMALL = bytes(KIB)
LARGEST = 16 * MIB
# of a job at a node, at most; and what they have in a trial of larger ones
COPIES, LARGER = 1024, 64 * KIB
# milliseconds that a call may wait for the end of another job
MOST_MILLISECONDS = 15.0
# of what another job's call takes beside a flood to what it takes beside one at another server, in the median and on a busy machine
MOST_P50 = 4.0
# milliseconds that a large object's seal takes at least, if there is one so large
LARGE_ENOUGH = 60.0
OK = frame(0x80)
# bytes of the answer to a Usage
USAGE = len(frame(0x85, bytes(48)))
# eight times what a job's list in a node's journal has before it is folded
LINES = 65_536
# what a session takes, with its thread's stack and an allocator's arena
SESSION = 512 * KIB


class Scale(NamedTuple):
    """The words that start the program, how long a round takes, and how many there are."""

    words: Sequence[str]
    seconds: float
    rounds: int


Trial = Callable[[Scale], List[Check]]


@contextlib.contextmanager
def hosts(scale: Scale, count: int, nodes: int = 1, memory: int = MIB, descriptors: int = 0) -> Iterator[List[Host]]:
    made: List[Host] = []
    try:
        for _ in range(count):
            made.append(Host(scale.words, nodes, memory, descriptors))
        yield made
    finally:
        for host in made:
            host.remove()


def gets_of(session: store_client.Connection) -> Callable[[], None]:
    """A small object, got, read and released."""
    one = session.put(SMALL)

    def call() -> None:
        session.hold(one)
        session.read(one, 0, len(SMALL))
        session.release(one)

    return call


def large(host: Host, job: int) -> int:
    """The length of an object whose seal takes a while."""
    with host.session(job) as session:
        length = 64 * KIB
        while length < LARGEST and _seal_milliseconds(session, length) < LARGE_ENOUGH:
            length *= 2
    return length


def _seal_milliseconds(session: store_client.Connection, length: int) -> float:
    one = session.new_id()
    session.create(one, length)
    began = time.perf_counter()
    session.seal(one)
    taken = 1000 * (time.perf_counter() - began)
    session.delete(one)
    return taken


# ---- memory


def grants_to_nobody(scale: Scale) -> List[Check]:
    """Does a job that grants to numbers that no job has take memory that is never given back?"""
    with hosts(scale, 1) as (host,):
        host.admit(ATTACKER, 64 * KIB)
        host.admit(VICTIM, 64 * KIB)
        with host.session(VICTIM) as session:
            gets_of(session)()
            before = host.figures()
            count = _grant_on(host, 6 * scale.seconds)
            grown = host.figures().resident - before.resident
            host.end_job(ATTACKER)
            return [Check("grantees", count), Check("bytes for each of them", grown / count), *given_back(host, before)]


def _grant_on(host: Host, seconds: float, most: int = 100_000, burst: int = 200) -> int:
    """One object to ever new numbers, each time withdrawn. How many there were."""
    with host.session(ATTACKER) as session:
        one = session.put(b"x").to_bytes()
    grantee, end = 10, time.monotonic() + seconds
    with socket.socket(socket.AF_UNIX) as stream:
        stream.settimeout(PATIENCE)
        stream.connect(host.path())
        stream.sendall(hello(ATTACKER))
        assert receive(stream, len(OK)) == OK
        while time.monotonic() < end and grantee < most:
            grantees = range(grantee, grantee + burst)
            stream.sendall(b"".join(frame(kind, one + numbers(job)) for job in grantees for kind in (0x0D, 0x0E)))
            assert receive(stream, 2 * burst * len(OK)) == 2 * burst * OK, "a grant was refused"
            grantee += burst
    return grantee - 10


def never_read_without_key(scale: Scale) -> List[Check]:
    """How much does a connection take that never says who it is, sends, and never reads?"""
    return _never_read(scale, 200, b"")


def never_read_with_key(scale: Scale) -> List[Check]:
    """How much does a session take that sends and never reads?"""
    return _never_read(scale, 200, hello(ATTACKER))


def _never_read(scale: Scale, count: int, hello: bytes) -> List[Check]:
    with hosts(scale, 1) as (host,):
        host.admit(ATTACKER, 64 * KIB)
        host.admit(VICTIM, 64 * KIB)
        with host.session(VICTIM) as session:
            session.usage()
            before = host.figures()
            streams = raw_streams(host.path(), count)
            _send_until_full(streams, hello, 3 * scale.seconds)
            taken = host.figures().resident - before.resident
            close_all(streams)
            # with its journal
            host.end_job(ATTACKER)
            # what tests/attack bounds a connection at
            return [Check("KiB for each of them", taken / count / KIB, 256.0), *given_back(host, before)]


def _send_until_full(streams: "List[socket.socket]", hello: bytes, seconds: float) -> None:
    """Frames as short as there are, until no stream takes any more for a while."""
    for stream in streams:
        stream.send(hello or frame(0x11))
    end, burst = time.monotonic() + seconds, 4_096 * frame(0x11)
    while time.monotonic() < end:
        for stream in streams:
            with contextlib.suppress(BlockingIOError, ConnectionError):
                # whole frames or not: each stream goes on where it stopped
                stream.send(burst)
        time.sleep(0.05)


def journals_of_small_jobs(scale: Scale, jobs: int = 4) -> List[Check]:
    """How much memory does a job's journal take, however small its window?"""
    those = range(CROWDED + 1, CROWDED + 1 + jobs)
    with hosts(scale, 1) as (host,):
        for job in those:
            host.admit(job, 64 * KIB)
            with host.session(job) as session:
                session.usage()
        before = host.figures()
        for job in those:
            _fill_journal(host, job)
        taken = host.figures().resident - before.resident
        for job in those:
            host.end_job(job)
        return [Check("MiB for each job", taken / jobs / MIB, JOURNAL / MIB), *given_back(host, before)]


def _fill_journal(host: Host, job: int, burst: int = 200) -> None:
    """Many more steps than a list has before it is folded."""
    with socket.socket(socket.AF_UNIX) as stream:
        stream.settimeout(PATIENCE)
        stream.connect(host.path())
        ask(stream, hello(job), OK)
        for _ in range(LINES // burst - 1):
            stream.sendall(burst * frame(0x11))
            assert len(receive(stream, burst * USAGE)) == burst * USAGE, "a Usage wasn't answered"


# ---- waits


def waiters_that_went_away(scale: Scale, count: int = 100) -> List[Check]:
    """Does a session whose client has gone while it waited go too?"""
    with hosts(scale, 1, 2) as (host,):
        one = _never_comes(host)
        with host.session(VICTIM) as session:
            gets_of(session)()
            before = host.figures()
            streams = [_waiting(host, one) for _ in range(count)]
            close_all(streams)
            return given_back(host, before)


def _never_comes(host: Host) -> ObjectId:
    """An object of the attacker's that lies spilled at node 1, whose window is full of a copy that is never sealed."""
    host.admit(ATTACKER, 64 * KIB, 256 * KIB)
    host.admit(VICTIM, 64 * KIB)
    with host.session(ATTACKER, 1) as session:
        one = session.put(bytes(40 * KIB))
        session.create(session.new_id(), 60 * KIB, wait=True)
    return one


def _waiting(host: Host, one: ObjectId) -> socket.socket:
    """A session at node 0 that waits for the object."""
    stream = socket.socket(socket.AF_UNIX)
    stream.settimeout(PATIENCE)
    stream.connect(host.path())
    stream.sendall(hello(ATTACKER))
    assert receive(stream, len(OK)) == OK
    stream.sendall(frame(0x13, one.to_bytes()))
    return stream


def waiters_100(scale: Scale) -> List[Check]:
    """Do 100 sessions of a job that wait slow another job's calls?"""
    return _waiters(scale, 100)


def waiters_400(scale: Scale) -> List[Check]:
    """Do 400 sessions of a job that wait slow another job's calls?"""
    return _waiters(scale, 400)


def waiters_at_another_node(scale: Scale) -> List[Check]:
    """Do 400 sessions of a job that wait slow another job's calls at a node where nobody waits?"""
    return _waiters(scale, 400, 1)


def _waiters(scale: Scale, count: int, victims_node: int = 0) -> List[Check]:
    with hosts(scale, 2, 2) as (host, other):
        found = {place.folder: _never_comes(place) for place in (host, other)}

        def wait(place: Host, _: int, is_over: Callable[[], bool]) -> None:
            streams = [_waiting(place, found[place.folder]) for _ in range(count)]
            while not is_over():
                time.sleep(0.05)
            close_all(streams)

        with host.session(VICTIM, victims_node) as session:
            return compared(gets_of(session), host, other, wait, 1, scale.rounds, scale.seconds)


# ---- time


def seals_of_1_session(scale: Scale) -> List[Check]:
    """Does a session that seals large objects slow another job's calls?"""
    return _seals(scale, 1)


def seals_of_4_sessions(scale: Scale) -> List[Check]:
    """Do four sessions that seal large objects slow another job's calls?"""
    return _seals(scale, 4)


def seals_beside_a_writer(scale: Scale) -> List[Check]:
    """Does a session that seals large objects slow another job's calls, if a second one writes to what is being sealed?"""
    return _seals(scale, 1, writers=1)


def _seals(scale: Scale, sessions: int, writers: int = 0) -> List[Check]:
    with hosts(scale, 2, memory=5 * LARGEST) as (host, other):
        for place in (host, other):
            place.admit(ATTACKER, 4 * LARGEST)
            place.admit(VICTIM, 64 * KIB)
        length = large(host, ATTACKER)

        def seal(place: Host, number: int, is_over: Callable[[], bool]) -> None:
            with place.session(ATTACKER) as session:
                one = session.task(1 + number % sessions).object(1)
                while not is_over():
                    if number < sessions:
                        session.create(one, length)
                        session.seal(one)
                        session.delete(one)
                    else:
                        _whatever(session.write, one, 0, b"x")

        attackers = sessions + writers
        with host.session(VICTIM) as session:
            call = gets_of(session)
            with attacked(host, seal, attackers):
                time.sleep(scale.seconds)
            before = host.figures()
            checks = compared(call, host, other, seal, attackers, scale.rounds, scale.seconds)
            return [Check("KiB that are sealed", length / KIB), *checks, *given_back(host, before, journals=2)]


def _whatever(call: Callable[..., object], *words: object) -> None:
    """The call is made, and may be refused."""
    with contextlib.suppress(store_client.Refused):
        call(*words)


def versions_of_a_copy(scale: Scale, sessions: int = 48) -> List[Check]:
    """How much memory do 48 sessions take that seal one large copy, with a Write of a byte before each Seal?"""
    with hosts(scale, 1, memory=2 * LARGEST) as (host,):
        host.admit(ATTACKER, LARGEST)
        length = large(host, ATTACKER)

        def seal(place: Host, number: int, is_over: Callable[[], bool]) -> None:
            with place.session(ATTACKER) as session:
                one = session.task(1).object(1)
                while not is_over():
                    _whatever(session.create, one, length)
                    _whatever(session.write, one, number, b"x")
                    _whatever(session.seal, one)
                    if number == 0:
                        _whatever(session.delete, one)

        before = most = host.figures().resident
        with attacked(host, seal, sessions):
            end = time.monotonic() + 3 * scale.seconds
            while time.monotonic() < end:
                most = max(most, host.figures().resident)
                time.sleep(0.02)
        # the window, and what sessions may have beside it, of which those of one job are one at a time
        beside = before + LARGEST + 2 * length + sessions * SESSION + ALLOCATORS_SHARE
        return [Check(f"MiB of memory at most, {before / MIB:.1f} before", most / MIB, beside / MIB)]


def floods_of_32_sessions(scale: Scale) -> List[Check]:
    """Do 32 sessions of one job slow another job's calls, each with 16 small commands on their way?"""
    with hosts(scale, 2) as (host, other):
        for place in (host, other):
            place.admit(ATTACKER, 64 * KIB)
            place.admit(VICTIM, 64 * KIB)

        def flood(place: Host, _: int, is_over: Callable[[], bool]) -> None:
            (stream,) = raw_streams(place.path(), 1)
            stream.setblocking(True)
            with stream:
                ask(stream, hello(ATTACKER), OK)
                while not is_over():
                    stream.sendall(16 * frame(0x11))
                    receive(stream, 16 * USAGE)

        with host.session(VICTIM) as session:
            call = gets_of(session)
            return compared(call, host, other, flood, 32, scale.rounds, scale.seconds, MOST_P50)


def restores_of_1_session(scale: Scale) -> List[Check]:
    """Does a session whose large objects come back from the device in turns slow another job's calls?"""
    with hosts(scale, 2, memory=5 * LARGEST) as (host, other):
        for place in (host, other):
            place.admit(ATTACKER, 2 * LARGEST)
            place.admit(VICTIM, 64 * KIB)
        length = large(host, ATTACKER)
        for place in (host, other):
            place.admit(CROWDED, length, 4 * length)

        def restore(place: Host, _: int, is_over: Callable[[], bool]) -> None:
            with place.session(CROWDED) as session:
                ids = [session.new_id() for _ in range(2)]
                for one in ids:
                    session.create(one, length, wait=True)
                    session.seal(one)
                while not is_over():
                    for one in ids:
                        session.hold(one, True)
                        session.release(one)
                for one in ids:
                    session.delete(one)

        with host.session(VICTIM) as session:
            call = gets_of(session)
            with attacked(host, restore, 1):
                time.sleep(scale.seconds)
            before = host.figures()
            checks = compared(call, host, other, restore, 1, scale.rounds, scale.seconds)
            return [Check("KiB that are restored", length / KIB), *checks, *given_back(host, before, journals=2)]


def fetches_of_1_session(scale: Scale) -> List[Check]:
    """Does a session that fetches large objects from another node slow another job's fetches of small ones?"""
    return _fetches(scale, 1)


def fetches_of_4_sessions(scale: Scale) -> List[Check]:
    """Do four sessions that fetch large objects from another node slow another job's fetches of small ones?"""
    return _fetches(scale, 4)


def _fetches(scale: Scale, sessions: int) -> List[Check]:
    with hosts(scale, 2, 2, memory=5 * LARGEST) as (host, other):
        for place in (host, other):
            place.admit(ATTACKER, 4 * LARGEST)
            place.admit(VICTIM, 64 * KIB)
        length = large(host, ATTACKER)
        for place in (host, other):
            with place.session(ATTACKER, 1) as far:
                for number in range(sessions):
                    one = far.task(number + 1).object(1)
                    far.create(one, length)
                    far.seal(one)
        with host.session(VICTIM, 1) as far, host.session(VICTIM) as session:
            one = far.put(SMALL)
            call = _fetches_of(session, one)
            call()
            with attacked(host, _fetch_on, sessions):
                time.sleep(scale.seconds)
            before = host.figures()
            checks = compared(call, host, other, _fetch_on, sessions, scale.rounds, scale.seconds)
            checks += given_back(host, before, journals=4)
        return [Check("KiB that are fetched", length / KIB), *checks, Check("messages lost", host.lost())]


def _fetches_of(session: store_client.Connection, one: ObjectId) -> Callable[[], None]:
    """An object of another node, got, and removed here again."""

    def call() -> None:
        session.hold(one, True)
        session.release(one)
        session.delete(one)

    return call


def _fetch_on(place: Host, number: int, is_over: Callable[[], bool]) -> None:
    with place.session(ATTACKER) as session:
        call = _fetches_of(session, ObjectId(Task.numbered(number + 1), ATTACKER, 1))
        while not is_over():
            call()


def ends_of_large_jobs(scale: Scale) -> List[Check]:
    """How long does another job wait beside the end of a job whose copies have much memory?"""
    with hosts(scale, 1, memory=2 * COPIES * LARGER) as (host,):
        host.admit(VICTIM, 64 * KIB)
        with host.session(VICTIM) as session:
            small = min(_longest_beside_an_end(host, session, 10 + number, 16) for number in range(5))
            larger = min(_longest_beside_an_end(host, session, 20 + number, LARGER) for number in range(5))
    return [
        Check(f"the longest ms of a call beside the end of a job of {COPIES} copies of 16 bytes", small, MOST_MILLISECONDS),
        Check(f"beside that of one of {COPIES} copies of {LARGER // KIB} KiB", larger, MOST_MILLISECONDS),
    ]


def _longest_beside_an_end(host: Host, session: store_client.Connection, job: int, length: int) -> float:
    host.admit(job, COPIES * length)
    with host.session(job) as ending:
        for index in range(COPIES):
            ending.create(ending.task(1).object(index + 1), length)
    ended = threading.Event()
    longest: List[float] = [0.0]

    def call() -> None:
        while not ended.is_set():
            began = time.perf_counter()
            session.usage()
            longest[0] = max(longest[0], 1000 * (time.perf_counter() - began))

    caller = threading.Thread(target=call)
    caller.start()
    time.sleep(0.05)
    host.end_job(job)
    # what it had may be given back a moment later
    time.sleep(0.05)
    ended.set()
    caller.join()
    return longest[0]


# ---- descriptors


def connections_without_key(scale: Scale) -> List[Check]:
    """Do connections that never say who they are make other jobs' spills and restores fail, or leave others without an answer?"""
    with hosts(scale, 1, descriptors=64) as (host,):
        host.admit(VICTIM, 64 * KIB, MIB)
        with host.session(VICTIM) as session:
            ids = [session.put(bytes(20_000), timeout=PATIENCE) for _ in range(5)]
            assert _failed(session, ids) == 0, "a spilled object didn't come back before"
            before = host.figures()
            streams = raw_streams(host.path(), 100)
            host.settled(lambda now: now.descriptors >= 64)
            checks = [Check("restores that failed", _failed(session, ids), 0), Check("a connection without an answer", _is_silent(host), 0)]
            close_all(streams)
            return [*checks, *given_back(host, before), Check("restores that failed afterwards", _failed(session, ids), 0)]


def connections_that_come_and_go(scale: Scale) -> List[Check]:
    """Do connections that come and go, while few descriptors are left, make other jobs' spills and restores fail?"""
    with hosts(scale, 1, descriptors=96) as (host,):
        host.admit(VICTIM, 64 * KIB, MIB)

        def come_and_go(place: Host, _: int, is_over: Callable[[], bool]) -> None:
            while not is_over():
                with contextlib.suppress(OSError):
                    close_all(raw_streams(place.path(), 1))

        with host.session(VICTIM) as session:
            ids = [session.put(bytes(20_000), timeout=PATIENCE) for _ in range(5)]
            streams = raw_streams(host.path(), 70)
            asked = failed = 0
            with attacked(host, come_and_go, 1):
                end = time.monotonic() + 3 * scale.seconds
                while time.monotonic() < end:
                    failed += _failed(session, ids)
                    asked += len(ids)
            close_all(streams)
            return [Check("restores", asked), Check("restores that failed", failed, 0)]


def _failed(session: store_client.Connection, ids: "List[ObjectId]") -> int:
    """How many of the objects can't be got, of which some are spilled whenever others are there."""
    failed = 0
    for one in ids:
        try:
            session.get(one, PATIENCE).release()
        except store_client.DeviceFailed:
            failed += 1
    return failed


def _is_silent(host: Host, seconds: float = 5.0) -> int:
    """1 if a new session is neither served nor turned away."""
    try:
        store_client.connect(host.path(), VICTIM, key(VICTIM), seconds).close()
    except store_client.ServerSilent:
        return 1
    except store_client.ConnectionLost:
        pass
    return 0


# ---- the end


def a_close_by_the_daemon(scale: Scale) -> List[Check]:
    """Does store-daemon end its server while a session is open that asks for nothing?"""
    with tempfile.TemporaryDirectory(prefix="hostile-") as folder:
        store = Supervised(scale.words, folder, 1, MIB, grace=2.0)
        try:
            store.say(f"admit 0 {VICTIM} 65536 0 {key(VICTIM).hex()}")
            with store_client.connect(f"{folder}/store.0", VICTIM, key(VICTIM), PATIENCE) as session:
                session.usage()
                began = time.monotonic()
                store.kill()
                return [Check("seconds to the end", time.monotonic() - began, 12.0)]
        finally:
            store.kill()


_TRIALS: Sequence[Trial] = (
    grants_to_nobody, never_read_without_key, never_read_with_key, journals_of_small_jobs, waiters_that_went_away, waiters_100, waiters_400,
    waiters_at_another_node, seals_of_1_session, seals_of_4_sessions, seals_beside_a_writer, versions_of_a_copy, floods_of_32_sessions,
    restores_of_1_session, fetches_of_1_session, fetches_of_4_sessions, ends_of_large_jobs, connections_without_key,
    connections_that_come_and_go, a_close_by_the_daemon,
)
ALL: Dict[str, Trial] = {getattr(trial, "__name__"): trial for trial in _TRIALS}
