"""Attacks a program that serves, while two jobs work whose answers may not show it.

Of a node with 64 jobs, two run scripts that are fixed: one draws commands from a seed, refusals among them, and the other
spills and restores with each object. Both were run alone before, and have to be answered byte for byte as they were then.
Meanwhile the other jobs are filled up to their limits, and their clients send frames that are drawn by lot: commands with
ids of their own, of other jobs and of none, of all lengths at their borders, changed and cut; streams that are no frames; keys
that are guessed. Some clients never read, some send a byte at a time, some wait for what never comes, and some only connect.
Each answer has to be a frame, there has to be one for each command, and none may hold bytes of the two jobs.

At the end come more connections than a node serves, and as many as it serves that ask for parts of one large object and take none; the
program has to close with nothing disagreeing, and to have kept within its bound of memory. The seed is printed. It takes the program that operate/program finds;
or give the words that start another one.
"""

import argparse
import random
import select
import socket
import struct
import subprocess
import sys
import tempfile
import threading
import time
from typing import Callable, Dict, List, NamedTuple, Sequence, Tuple

from store_testing.frames import ask, enter, exchange, frame, hello, ident, key, numbers, receive
from store_testing.processes import memory_of
from store_testing.program import program_or_end
from store_testing.server import Server

FRAMES = 1_000_000
JOBS = 64
VICTIM, PATIENT = 1, 2
WINDOW = 1 << 20
VICTIMS_COMMANDS = 5_000
PATIENTS_OBJECTS = 40
# what the two jobs' objects hold, and no other job's
SECRET = b"the victim's bytes "
# replies to commands are of these kinds
REPLIES = (0x80, 0x81, 0x82, 0x83, 0x84, 0x85, 0x8F)
# commands in a stream
STREAM = 500
# connections that only stand open, and the sessions that a node has at most
OPEN = 500
MOST_SESSIONS = 1_024
# of an object that is shared: its bytes, what is asked for at once, and how often, which is more than a socket takes
LARGEST, PIECE, ASKED = 1 << 24, 65_536, 16
# its owner, and the job that it is granted to
OWNER, GRANTEE = JOBS + 1, JOBS + 2
# seconds that an answer may take
PATIENCE = 60
# what a node may take beside its windows: what it keeps of a job, journals among it, and what it keeps of a connection
BYTES_A_JOB = 24 << 20
BYTES_A_CONNECTION = 256 << 10

# what makes a command of an id
Maker = Callable[[bytes], bytes]


class Work(NamedTuple):
    """What a thread does, and with which words."""

    call: Callable[..., None]
    words: Tuple[object, ...]


# ---- the two jobs


def victims_commands(seed: int) -> List[bytes]:
    """Commands of one job by itself: of few ids and all lengths, so that many are refused."""
    draw = random.Random(seed)
    ids = [ident(VICTIM, n + 1) for n in range(60)]
    task = ids[0][:20]

    def create(one: bytes) -> bytes:
        return frame(0x02, one + bytes([draw.random() < 0.3]) + numbers(draw.choice([0, 1, 16, 20, 4_000, 60_000, 200_000, WINDOW + 1])))

    def write(one: bytes) -> bytes:
        return frame(0x03, one + numbers(draw.choice([0, 0, 5, 70_000])) + SECRET * draw.choice([1, 1, 100]))

    def read(one: bytes) -> bytes:
        return frame(0x06, one + numbers(draw.choice([0, 3])) + numbers(draw.choice([0, 1, 17, 60_000, 65_537])))

    def plain(kind: int) -> Maker:
        return lambda one: frame(kind, one)

    def of_task(kind: int) -> Maker:
        return lambda one: frame(kind, one + draw.choice([task, bytes(20), b"\1" * 20]))

    def to_job(kind: int) -> Maker:
        return lambda one: frame(kind, one + numbers(draw.choice([0, VICTIM, 3, 4, JOBS + 9])))

    makers: List[Maker] = [create] * 3 + [write] * 2 + [plain(0x04)] * 3 + [plain(0x05)] * 3 + [read] * 3 + [plain(0x07)] * 2
    makers += [plain(0x0B), of_task(0x08), of_task(0x09), of_task(0x0A), to_job(0x0D), to_job(0x0E)]
    makers += [lambda _: frame(0x10), lambda _: frame(0x11), lambda _: frame(0x05, ident(draw.choice([3, 99]), 1))]
    return [draw.choice(makers)(draw.choice(ids)) for _ in range(VICTIMS_COMMANDS)]


def victims_replies(path: str, seed: int) -> List[bytes]:
    with socket.socket(socket.AF_UNIX) as stream:
        stream.settimeout(PATIENCE)
        enter(stream, path, VICTIM)
        return [exchange(stream, sent) for sent in victims_commands(seed)]


def patients_replies(path: str) -> List[bytes]:
    """More objects than room, each waited for."""
    with socket.socket(socket.AF_UNIX) as stream:
        stream.settimeout(PATIENCE)
        enter(stream, path, PATIENT)
        sent = []
        for n in range(PATIENTS_OBJECTS):
            one = ident(PATIENT, n + 1)
            sent += [frame(0x14, one + b"\0" + numbers(20)), frame(0x03, one + numbers(0) + SECRET + bytes([n])), frame(0x04, one)]
        for n in range(PATIENTS_OBJECTS):
            one = ident(PATIENT, n + 1)
            sent += [frame(0x13, one), frame(0x06, one + numbers(0) + numbers(20)), frame(0x07, one)]
        return [exchange(stream, each) for each in sent]


def admit(program: Server, job: int) -> None:
    window, device = (64, 4_096) if job == PATIENT else (WINDOW, 0)
    program.admit(0, job, window, device)


def alone(words: Sequence[str], job: int, script: Callable[[str], List[bytes]]) -> List[bytes]:
    """The replies of a script on a node that no other job uses."""
    with tempfile.TemporaryDirectory() as folder:
        program = Server(words, folder, 1, WINDOW)
        admit(program, job)
        replies = script(f"{folder}/store.0")
        program.close()
        return replies


# ---- the others


class Attack:
    """What attackers share: where the socket is, what went wrong, and when to stop."""

    def __init__(self, path: str, seed: int, frames: int) -> None:
        self.path = path
        self.seed = seed
        self.left = frames
        self.faults: List[str] = []
        self.over = threading.Event()
        self.lock = threading.Lock()
        self.held: List[socket.socket] = []

    def take(self, count: int) -> int:
        """So many frames of those that are left to be sent."""
        with self.lock:
            taken = min(count, self.left)
            self.left -= taken
            return taken

    def connect(self) -> socket.socket:
        stream = socket.socket(socket.AF_UNIX)
        stream.settimeout(PATIENCE)
        stream.connect(self.path)
        return stream

    def keep(self, stream: socket.socket) -> None:
        """The connection stays open until the end."""
        with self.lock:
            self.held.append(stream)

    def release(self) -> None:
        for stream in self.held:
            stream.close()


def pump(stream: socket.socket, data: bytes) -> bytes:
    """Sends it all, ends the stream, and gives what comes back until the other side ends it."""
    stream.setblocking(False)
    at, end = 0, time.monotonic() + PATIENCE
    back: List[bytes] = []
    while time.monotonic() < end:
        readable, writable, _ = select.select([stream], [stream] if at < len(data) else [], [], 1)
        if writable:
            try:
                at += stream.send(data[at : at + (1 << 18)])
            except BlockingIOError:
                pass
            except (BrokenPipeError, ConnectionResetError):
                at = len(data)
            if at == len(data):
                stream.shutdown(socket.SHUT_WR)
        if readable:
            try:
                piece = stream.recv(1 << 18)
            except ConnectionResetError:
                piece = b""
            if not piece:
                return b"".join(back)
            back.append(piece)
    raise AssertionError("a session doesn't end")


def frames_in(back: bytes) -> List[bytes]:
    """The bodies of whole frames, kinds first."""
    at, found = 0, []
    while at < len(back):
        length = int.from_bytes(back[at : at + 4], "big")
        assert 1 <= length <= 262_144 and at + 4 + length <= len(back), "an answer is no frame"
        found.append(back[at + 4 : at + 4 + length])
        at += 4 + length
    return found


def check(back: bytes, least: int, most: int) -> None:
    replies = frames_in(back)
    assert least <= len(replies) <= most, f"{len(replies)} answers to {least} to {most} commands"
    assert all(reply[0] in REPLIES for reply in replies), "an answer of no kind"
    assert SECRET not in back, "an answer has another job's bytes"


def commands(draw: random.Random, job: int, count: int) -> List[bytes]:
    """Commands that are each one frame, of ids of all kinds."""

    def one() -> bytes:
        owner = draw.choice([job, job, job, job, VICTIM, PATIENT, draw.randint(3, JOBS), 0])
        return ident(owner, draw.choice([0, 1, 2, 3, 7, draw.randint(1, 1_100), 2**32 - 1]))

    def task() -> bytes:
        return draw.choice([bytes(12) + struct.pack(">Q", 1), bytes(20), draw.randbytes(20)])

    def size() -> bytes:
        return numbers(draw.choice([0, 1, 16, 17, 4_096, 65_535, 65_536, 65_537, 16_777_216, 16_777_217, 2**32 - 1]))

    made = []
    for _ in range(count):
        kind = draw.choice([2, 3, 3, 4, 4, 5, 5, 6, 6, 7, 7, 8, 9, 10, 11, 12, 13, 14, 15, 15, 16, 17, 18])
        if kind == 2:
            body = one() + bytes([draw.randrange(2)]) + draw.choice([numbers(16), numbers(20), size()])
        elif kind == 3:
            body = one() + numbers(draw.choice([0, 1, 2**32 - 1])) + bytes(draw.choice([0, 1, 16, 300]))
        elif kind in (6, 15):
            body = one() + draw.choice([numbers(0), size()]) + draw.choice([numbers(16), size()])
        elif kind in (8, 9, 10):
            body = one() + task()
        elif kind == 12:
            body = draw.randbytes(20)
        elif kind in (13, 14):
            body = one() + numbers(draw.choice([0, VICTIM, job, draw.randint(3, JOBS + 5)]) if kind == 14 else draw.randint(3, JOBS))
        else:
            body = b"" if kind in (16, 17, 18) else one()
        made.append(frame(kind, body))
    return made


def noise(draw: random.Random) -> bytes:
    """What is no frame of a command, or only the beginning of one."""
    length = draw.choice([0, 65_601, 2**31, 2**32 - 1, draw.randint(1, 60)])
    return draw.choice(
        [
            numbers(length) + draw.randbytes(draw.randint(0, 80)),
            frame(draw.choice([0, 0x15, 0x7F, 0x80, 0xFF]), draw.randbytes(draw.randint(0, 40))),
            frame(draw.randint(1, 0x14), draw.randbytes(draw.choice([0, 1, 19, 27, 30, 65_599]))),
            draw.randbytes(draw.randint(1, 3)),
        ]
    )


def drawn_frames(attack: Attack, lane: int) -> None:
    """Streams of commands, some of which end in noise, or have a bit changed."""
    draw = random.Random(f"{attack.seed} {lane}")
    while count := attack.take(STREAM):
        job = draw.randint(3, JOBS)
        made = commands(draw, job, count)
        data = hello(job) + b"".join(made)
        least = most = count + 1
        if draw.random() < 0.5:
            data += noise(draw)
            most += 1
        if draw.random() < 0.2:
            changed = bytearray(data)
            changed[draw.randrange(len(data))] ^= 1 << draw.randrange(8)
            data = bytes(changed)
            # it may have become other frames, even longer ones or waiting ones
            least, most = 0, len(data)
        if draw.random() < 0.1:
            data = data[: draw.randrange(len(data))]
            least, most = 0, len(data)
        with attack.connect() as stream:
            check(pump(stream, data), least, most)


def streams_of_noise(attack: Attack, lane: int) -> None:
    draw = random.Random(f"{attack.seed} noise {lane}")
    while not attack.over.is_set():
        with attack.connect() as stream:
            check(pump(stream, noise(draw)), 0, 65_600)


def guessed_keys(attack: Attack, lane: int) -> None:
    """Keys that are off by a bit, or drawn. Each is refused, and the right one is taken afterwards."""
    draw = random.Random(f"{attack.seed} keys {lane}")
    while not attack.over.is_set():
        job = draw.choice([VICTIM, PATIENT, draw.randint(3, JOBS), JOBS + 9])
        guesses = []
        for _ in range(STREAM):
            guess = bytearray(key(job))
            guess[draw.randrange(32)] ^= 1 << draw.randrange(8)
            guesses.append(bytes(guess) if draw.random() < 0.5 else draw.randbytes(32))
        with attack.connect() as stream:
            back = pump(stream, b"".join(hello(job, guess) for guess in guesses))
            assert back == frame(0x8F, b"\1") * STREAM, f"a guessed key of job {job} was answered otherwise than 1"


def byte_by_byte(attack: Attack, lane: int) -> None:
    job = 3 + lane
    one = ident(job, 1)
    sent = frame(0x05, one) + frame(0x07, one)
    with attack.connect() as stream:
        enter_as(stream, job)
        while not attack.over.is_set():
            for byte in sent:
                stream.sendall(bytes([byte]))
                time.sleep(0.005)
            check(exchange(stream, b"") + exchange(stream, b""), 2, 2)


def enter_as(stream: socket.socket, job: int) -> None:
    ask(stream, hello(job), frame(0x80))


def never_reads(attack: Attack, lane: int) -> None:
    """Asks for much more than a socket holds, and reads none of it."""
    job = 3 + lane
    one = ident(job, 1)
    stream = attack.connect()
    attack.keep(stream)
    enter_as(stream, job)
    stream.setblocking(False)
    asked = frame(0x10) * 1_000 + frame(0x06, one + numbers(0) + numbers(16)) * 10_000
    try:
        while asked:
            asked = asked[stream.send(asked) :]
    except BlockingIOError:
        pass


def waits(attack: Attack, lane: int) -> None:
    """For an object that no node has, to the end."""
    stream = attack.connect()
    attack.keep(stream)
    enter_as(stream, 3 + lane)
    stream.sendall(frame(0x13, ident(3 + lane, 2**32 - 1)))


def stands_open(attack: Attack, lane: int) -> None:
    """Connections that say nothing, or no more than Hello."""
    for n in range(OPEN):
        stream = attack.connect()
        attack.keep(stream)
        if n % 2:
            enter_as(stream, 3)


def too_many(attack: Attack) -> None:
    """Of more connections than a node serves the rest are closed without an answer, and there is room again afterwards."""
    end = time.monotonic() + PATIENCE
    # sessions that ended just before may still be counted, and those that wait for what never comes are
    while (count := served_at_once(attack)) < MOST_SESSIONS - 10:
        assert time.monotonic() < end, f"no more than {count} sessions are served at once"
    assert count <= MOST_SESSIONS, f"{count} sessions are served at once"
    while not served_at_once(attack):
        assert time.monotonic() < end, "nobody is served any more"


def served_at_once(attack: Attack) -> int:
    """How many of more connections than a node serves are served."""
    streams = [attack.connect() for _ in range(MOST_SESSIONS + 100)]
    count = sum(served(stream) for stream in streams)
    for stream in streams:
        stream.close()
    return count


def served(stream: socket.socket) -> bool:
    """Whether the connection is: it is closed otherwise."""
    try:
        stream.sendall(hello(3))
        told = receive(stream, 5)
    except (BrokenPipeError, ConnectionResetError):
        return False
    assert told in (b"", frame(0x80)), f"a connection among many was answered {told.hex()}"
    return told != b""


def take_no_answers(program: Server, attack: Attack) -> None:
    """As many sessions as a node serves ask for parts of one large object, and take none: each has its own buffers, and not the object."""
    for job in range(JOBS // 2, JOBS + 1):
        program.end_job(0, job)
    for job, window in ((OWNER, LARGEST), (GRANTEE, 16)):
        program.admit(0, job, window)
    with attack.connect() as owner:
        enter_as(owner, OWNER)
        grant_large(owner, ident(OWNER, 1))
        before = memory_of(program.pid)
        grantees = [attack.connect() for _ in range(MOST_SESSIONS - 1)]
        count = sum(asks_for_parts(stream, ident(OWNER, 1)) for stream in grantees)
        time.sleep(1)
        each = (memory_of(program.pid) - before) // max(count, 1)
        for stream in grantees:
            stream.close()
        ask(owner, frame(0x11), frame(0x85, struct.pack(">6Q", LARGEST, LARGEST, 0, 0, 1, 0)))
    print(f"{count:,} sessions that take no answers, {each:,} bytes of memory each")
    assert count >= MOST_SESSIONS - 10, f"no more than {count} sessions are served at once"
    assert each <= BYTES_A_CONNECTION, f"{each:,} bytes of memory for a session that takes no answers"


def grant_large(owner: socket.socket, one: bytes) -> None:
    sent = frame(0x02, one + b"\0" + numbers(LARGEST))
    assert exchange(owner, sent)[4] == 0x81, "no room for a large object"
    for offset in range(0, LARGEST, PIECE):
        ask(owner, frame(0x03, one + numbers(offset) + bytes(PIECE)), frame(0x80))
    ask(owner, frame(0x04, one), frame(0x80))
    ask(owner, frame(0x0D, one + numbers(GRANTEE)), frame(0x80))


def asks_for_parts(stream: socket.socket, one: bytes) -> bool:
    """Whether the session is served: it then has asked for many parts of the object."""
    try:
        stream.sendall(hello(GRANTEE))
        told = receive(stream, 5)
    except (BrokenPipeError, ConnectionResetError):
        return False
    if told == b"":
        return False
    assert told == frame(0x80), f"a connection among many was answered {told.hex()}"
    stream.sendall(frame(0x0F, one + numbers(0) + numbers(PIECE)) * ASKED)
    return True


def fill(path: str, job: int) -> None:
    """A job at its limits: 1,024 copies, 64 holds of one, 64 grants, and one more of each."""
    copies = [frame(0x02, ident(job, n + 1) + b"\0" + numbers(16)) for n in range(1_025)]
    sealed = [frame(0x04, ident(job, n + 1)) for n in range(1_024)]
    holds = [frame(0x05, ident(job, 1))] * 65
    others = [3 + (job - 3 + n) % (JOBS - 2) for n in range(1, 3)]
    grants = [frame(0x0D, ident(job, n // 2 + 1) + numbers(others[n % 2])) for n in range(65)]
    with socket.socket(socket.AF_UNIX) as stream:
        stream.connect(path)
        back = frames_in(pump(stream, hello(job) + b"".join(copies + sealed + holds + grants)))
    full = bytes([0x8F, 17])
    limits = [back[1_025], back[1_025 + 1_024 + 65], back[-1]]
    assert limits == [full] * 3, f"job {job} has no limits: {[each.hex() for each in limits]}"
    assert back.count(full) == 3, f"job {job} met {back.count(full)} limits"


# ---- the program's end


def guarded(attack: Attack, call: Callable[..., None], *words: object) -> None:
    try:
        call(*words)
    except (AssertionError, OSError, ValueError, IndexError) as fault:
        attack.faults.append(f"{call.__name__}: {fault!r}")


def start_threads(attack: Attack, works: Sequence[Work]) -> List[threading.Thread]:
    threads = [threading.Thread(target=guarded, args=(attack, work.call, *work.words)) for work in works]
    for thread in threads:
        thread.start()
    return threads


def crowd(program: Server, path: str, attack: Attack, seed: int) -> Dict[str, List[bytes]]:
    """The replies of the two jobs among all others."""
    for job in range(1, JOBS + 1):
        admit(program, job)
    for job in range(3, JOBS + 1):
        fill(path, job)
    told: Dict[str, List[bytes]] = {}

    def keep(name: str, script: Callable[[], List[bytes]]) -> None:
        told[name] = script()

    works = [Work(call, (attack, lane)) for call in (never_reads, waits) for lane in range(4)] + [Work(stands_open, (attack, 0))]
    works += [Work(drawn_frames, (attack, lane)) for lane in range(4)]
    others = start_threads(attack, works)
    until = [Work(call, (attack, lane)) for call in (streams_of_noise, guessed_keys, byte_by_byte) for lane in range(2)]
    endless = start_threads(attack, until)
    scripts = {"victim": lambda: victims_replies(path, seed), "patient": lambda: patients_replies(path)}
    for thread in start_threads(attack, [Work(keep, named) for named in scripts.items()]) + others:
        thread.join()
    attack.over.set()
    for thread in endless:
        thread.join()
    return told


def attacked(program: Server, attack: Attack, expected: Dict[str, List[bytes]]) -> str:
    """Attacks the program to its end. What there was of it; what is wrong is among the attack's faults."""
    told = crowd(program, attack.path, attack, attack.seed)
    attack.faults += [f"the {name} is answered otherwise than alone" for name in expected if told.get(name) != expected[name]]
    attack.release()
    guarded(attack, too_many, attack)
    guarded(attack, take_no_answers, program, attack)
    memory, bound = memory_of(program.pid, most=True), JOBS * (WINDOW + BYTES_A_JOB) + MOST_SESSIONS * BYTES_A_CONNECTION
    if memory > bound:
        attack.faults.append(f"{memory:,} bytes of memory, more than {bound:,}")
    entries, _ = program.close()
    return f"{entries:,} entries, {memory:,} bytes of memory"


def main() -> int:
    parser = argparse.ArgumentParser(description=__doc__, formatter_class=argparse.RawDescriptionHelpFormatter)
    parser.add_argument("--seed", type=int, default=int(time.time()), help="what is drawn by lot follows from it")
    parser.add_argument("--frames", type=int, default=FRAMES, help=f"how many commands are drawn ({FRAMES:,})")
    parser.add_argument("program", nargs="*", help="the words that start another program")
    options = parser.parse_args()
    options.program = options.program or [program_or_end()]
    print(f"seed {options.seed}")
    began = time.monotonic()
    expected = {
        "victim": alone(options.program, VICTIM, lambda path: victims_replies(path, options.seed)),
        "patient": alone(options.program, PATIENT, patients_replies),
    }
    with tempfile.TemporaryDirectory() as folder:
        program = Server(options.program, folder, 1, JOBS * WINDOW)
        attack = Attack(f"{folder}/store.0", options.seed, options.frames)
        try:
            said = attacked(program, attack, expected)
            print(f"{options.frames:,} frames, {said}, {time.monotonic() - began:.0f} s")
        except (AssertionError, OSError, ValueError, subprocess.TimeoutExpired) as fault:
            attack.faults.append(repr(fault))
        finally:
            attack.over.set()
            program.kill()
    for line in attack.faults:
        print(f"FAILED: {line}")
    return 1 if attack.faults else 0


if __name__ == "__main__":
    sys.exit(main())
