"""Looks at each byte of objects whose bytes a program shares once they are sealed, and hashes before it locks a node.

Answers lie in the server while their object is deleted, spilled, or its job ends and others write into its place: they have to hold
the bytes that were there when they were asked for. Objects are written while they are sealed, and sealed by two sessions at once;
what is read afterwards has to be the writes that were answered Ok, here and at a node that compares the digest. Objects of all sizes
at a border are read in pieces, spilled, restored, made anew and fetched. Files of spilled objects are changed. What would remove an
object waits while it is sealed. Peeks go on while the owner makes room. At last come objects in turn, and clients that never take what
they asked for: the server's memory is bounded.

All bytes are drawn, so that each place has its own. It takes the program that operate/program finds; or give the words that start
another one.
"""

from __future__ import annotations

import contextlib
import fcntl
import random
import select
import socket
import struct
import subprocess
import sys
import tempfile
import termios
import threading
import time
from pathlib import Path
from typing import Callable, Dict, Iterator, List, Optional, Sequence, Set, Tuple

from store_testing import PATIENCE
from store_testing.frames import exchange, frame, ident, numbers, read_frame, session
from store_testing.processes import memory_of
from store_testing.program import program_or_end
from store_testing.server import Server
from store_testing.waiting import until

MEBI = 1 << 20
PIECE = 65_536
LARGEST = 16 * MEBI
# on both sides of a rounded length, of the fewest bytes that are shared, of a chunk, and of two
SIZES = (1, 15, 16, 17, 32_767, 32_768, 32_769, 65_535, 65_536, 65_537, 131_071, MEBI + 5, LARGEST)
# lengths of reads, of which a few make up a large object
LENGTHS = (1, 3, 17, 4_095, 32_767, 32_769, 65_535, 65_536)
# reads that are asked for at once: a socket holds the answers to a few
ASKED = 40
# how often a race is tried
ROUNDS = 2
# what may remove a copy, how often each is tried at most, a task that owns nothing, and seconds in which a session that needn't wait is answered
UNPIN, BORROW, GIVE_UP, DELETE, END_TASK = 0x08, 0x09, 0x0A, 0x0B, 0x0C
REMOVALS, REMOVALS_TRIED, LAST_TASK, A_WHILE = (DELETE, UNPIN, GIVE_UP, END_TASK), 100, 1 << 40, 0.005
OK, EXISTS, SEALED_ALREADY = frame(0x80), frame(0x8F, b"\3"), frame(0x8F, b"\6")
NOT_ADMITTED, NOT_HELD, NOT_GRANTED = frame(0x8F, b"\1"), frame(0x8F, b"\x0b"), frame(0x8F, b"\x0d")
DEVICE_FAILED, DAMAGED = frame(0x8F, b"\x0e"), frame(0x8F, b"\x0f")


def drawn(name: str, length: int) -> bytes:
    """So many bytes that follow from the name."""
    return random.Random(name).randbytes(length)


def rounded(length: int) -> int:
    return -(-length // 16) * 16


# ---- a program, and what its clients ask


@contextlib.contextmanager
def serving(words: Sequence[str], folder: str, jobs: Sequence[int], nodes: int = 1, device: int = 0, reason: str = "") -> Iterator[Server]:
    """A program at whose nodes jobs 1, 2, .. are live, each with a window of its own. It ends with a right report, and device calls fail
    for this reason alone."""
    with Server(words, folder, nodes, sum(jobs)) as program:
        for job, window in enumerate(jobs, 1):
            program.admit_everywhere(job, window, device)
        yield program
        program.close(reason)


def ask(stream: socket.socket, sent: bytes, expected: bytes) -> None:
    """One frame, so that an answer that is shorter than it should be is seen at once."""
    got = exchange(stream, sent)
    assert got == expected, f"sent {sent[:60].hex()}: got {got[:60].hex()}, should be {expected[:60].hex()}"


def write(one: bytes, offset: int, data: bytes) -> bytes:
    return frame(0x03, one + numbers(offset) + data)


def part(kind: int, one: bytes, offset: int, length: int) -> bytes:
    """A Read or a Peek."""
    return frame(kind, one + numbers(offset) + numbers(length))


def create(stream: socket.socket, one: bytes, length: int) -> None:
    """A primary of zeros, for which room is waited for."""
    stream.sendall(frame(0x14, one + b"\0" + numbers(length)))
    got = read_frame(stream)
    assert got[4] == 0x81, f"create of {length} bytes: got {got.hex()}"


def fill(stream: socket.socket, one: bytes, data: bytes) -> None:
    create(stream, one, len(data))
    for offset in range(0, len(data), PIECE):
        ask(stream, write(one, offset, data[offset : offset + PIECE]), OK)


def seal(stream: socket.socket, one: bytes) -> None:
    ask(stream, frame(0x04, one), OK)


def put(stream: socket.socket, one: bytes, data: bytes) -> None:
    fill(stream, one, data)
    seal(stream, one)


def hold(stream: socket.socket, one: bytes, length: int) -> None:
    ask(stream, frame(0x13, one), frame(0x82, numbers(length)))


def release(stream: socket.socket, one: bytes) -> None:
    ask(stream, frame(0x07, one), OK)


def delete(stream: socket.socket, one: bytes) -> None:
    ask(stream, frame(0x0B, one), OK)


def same(got: bytes, expected: bytes, what: str) -> None:
    """Says the first byte that isn't as it should be, and not all of them."""
    if got != expected:
        at = next((n for n, pair in enumerate(zip(got, expected)) if pair[0] != pair[1]), min(len(got), len(expected)))
        found, due = got[at : at + 8].hex(), expected[at : at + 8].hex()
        raise AssertionError(f"{what}: {len(got)} bytes of {len(expected)}, the first that differ at {at}: {found}, should be {due}")


def pieces(length: int) -> List[Tuple[int, int]]:
    """Offsets and lengths that meet each byte: of a short object all, of a longer one drawn ones that lie close or overlap."""
    if length <= 17:
        return [(at, n) for at in range(length + 1) for n in range(length - at + 1)]
    draw, at, found = random.Random(length), 0, []
    while at < length:
        n = min(draw.choice(LENGTHS if length < LARGEST else LENGTHS[-3:]), length - at)
        found.append((at, n))
        at += max(1, n - draw.choice((0, 0, 1)))
    return found + [(length, 0), (0, 1), (length - 1, 1)]


def check_held(stream: socket.socket, one: bytes, data: bytes) -> None:
    """Each byte of an object that the session holds."""
    for offset, length in pieces(len(data)):
        stream.sendall(part(0x06, one, offset, length))
        same(read_frame(stream), frame(0x83, data[offset : offset + length]), f"{len(data)} bytes from {offset}")


def check(stream: socket.socket, one: bytes, data: bytes) -> None:
    """Each byte of an object, for which its copy is waited for. It isn't held afterwards."""
    hold(stream, one, len(data))
    check_held(stream, one, data)
    release(stream, one)


# ---- answers that nobody takes


def waiting_in(stream: socket.socket) -> int:
    """How many bytes of answers lie in the client's socket."""
    return int(struct.unpack("i", fcntl.ioctl(stream, termios.FIONREAD, bytes(4)))[0])


def ask_many(stream: socket.socket, kind: int, one: bytes, length: int) -> List[Tuple[int, int]]:
    """Asks for many parts of an object at once, and waits until the server can hand over no more. The parts."""
    asked = [(n * 40_961 % (length - PIECE + 1), PIECE - n % 2) for n in range(ASKED)]
    stream.sendall(b"".join(part(kind, one, *each) for each in asked))
    lie, end = 0, time.monotonic() + PATIENCE
    while not lie or lie != waiting_in(stream):
        assert time.monotonic() < end, "no answers, or no end of them"
        lie = waiting_in(stream)
        time.sleep(0.2)
    assert lie < PIECE * ASKED // 2, "a socket holds all the answers"
    return asked


def take_answers(stream: socket.socket, data: bytes, asked: Sequence[Tuple[int, int]], refusal: Optional[bytes] = None) -> None:
    """All answers are the parts of these bytes; or the last ones are the refusal, but not the first, which lay there already."""
    refused = 0
    for n, (offset, length) in enumerate(asked):
        got = read_frame(stream)
        refused += got == refusal
        if not refused:
            same(got, frame(0x83, data[offset : offset + length]), f"answer {n}, from {offset}")
        assert not refused or got == refusal, f"answer {n} comes after a refusal: {got[:16].hex()}"
    assert refused < len(asked) - 1, f"{refused} answers of {len(asked)} are refused"
    assert refused or refusal is None, "nothing was asked for too late"


def a_reader_of_what_is_deleted(words: Sequence[str], folder: str) -> None:
    """Another session deletes the object, or ends its task, and makes others: the reader holds it, so all its answers are the object's.
    Then its id is made anew, in the same place."""
    data, other = drawn("deleted", MEBI), drawn("anew", MEBI)
    with serving(words, folder, [3 * MEBI]), session(folder, 0, 1) as owner, session(folder, 0, 1) as reader:
        one = ident(1, 1)
        put(owner, one, data)
        hold(reader, one, MEBI)
        asked = ask_many(reader, 0x06, one, MEBI)
        delete(owner, one)
        ask(owner, frame(0x02, one + b"\0" + numbers(MEBI)), EXISTS)
        for n in (2, 3):
            put(owner, ident(1, n), other)
        take_answers(reader, data, asked)
        asked = ask_many(reader, 0x06, one, MEBI)
        ask(owner, frame(0x0C, one[:20]), OK)
        take_answers(reader, data, asked)
        release(reader, one)
    with tempfile.TemporaryDirectory() as anew, serving(words, anew, [MEBI]), session(anew, 0, 1) as owner, session(anew, 0, 1) as reader:
        for text in (data, other, data):
            put(owner, one, text)
            hold(reader, one, MEBI)
            asked = ask_many(reader, 0x06, one, MEBI)
            delete(owner, one)
            take_answers(reader, text, asked)
            release(reader, one)


def a_reader_whose_job_ends(words: Sequence[str], folder: str) -> None:
    """The job ends, and another one writes into all of its window. What was answered before is right, the rest is refused."""
    data, other = drawn("ended", MEBI), drawn("next", MEBI)
    with serving(words, folder, [MEBI]) as program, session(folder, 0, 1) as reader:
        put(reader, ident(1, 1), data)
        hold(reader, ident(1, 1), MEBI)
        asked = ask_many(reader, 0x06, ident(1, 1), MEBI)
        program.end_job(0, 1)
        program.admit(0, 2, MEBI)
        with session(folder, 0, 2) as owner:
            put(owner, ident(2, 1), other)
            take_answers(reader, data, asked, NOT_ADMITTED)
            check(owner, ident(2, 1), other)


def a_slow_peeker(words: Sequence[str], folder: str) -> None:
    """A peek takes no hold: its object is deleted or spilled, and another lies in its place, before the answers are taken."""
    texts = [drawn(f"peeked {n}", MEBI) for n in range(3)]
    with serving(words, folder, [MEBI, MEBI], device=4 * MEBI), session(folder, 0, 1) as owner:
        for n, text in enumerate(texts):
            one, last = ident(1, 2 * n + 1), ident(1, 2 * n + 2)
            put(owner, one, text)
            ask(owner, frame(0x0D, one + numbers(2)), OK)
            with session(folder, 0, 2) as peeker:
                asked = ask_many(peeker, 0x0F, one, MEBI)
                ask(owner, frame(0x0E, one + numbers(2)), OK)
                if n != 1:
                    delete(owner, one)
                # of the second one the copy is spilled, and its place given away
                put(owner, last, drawn(f"other {n}", MEBI))
                take_answers(peeker, text, asked, NOT_GRANTED)
            check(owner, last, drawn(f"other {n}", MEBI))
        check(owner, ident(1, 3), texts[1])


# ---- objects that are sealed while they are written, or twice


class Race:
    """What several sessions do at once. Their faults are kept."""

    def __init__(self, *works: Callable[[], object]) -> None:
        self.faults: List[str] = []
        threads = [threading.Thread(target=self._guarded, args=(work,)) for work in works]
        for thread in threads:
            thread.start()
        for thread in threads:
            thread.join(2 * PATIENCE)
        assert not self.faults, "; ".join(self.faults)

    def _guarded(self, work: Callable[[], object]) -> None:
        try:
            work()
        except (AssertionError, OSError, struct.error) as fault:
            self.faults.append(f"{fault}")


def write_until_sealed(stream: socket.socket, one: bytes, content: bytearray, name: str, written: List[float]) -> float:
    """Writes drawn bytes at drawn offsets, until that is refused: those that were answered Ok are the content's. How long the refusal
    took, in seconds."""
    draw, end = random.Random(name), time.monotonic() + PATIENCE
    while time.monotonic() < end:
        offset = draw.randrange(len(content) - PIECE)
        data = draw.randbytes(draw.choice(LENGTHS))
        asked = time.monotonic()
        stream.sendall(write(one, offset, data))
        got = read_frame(stream)
        if got == SEALED_ALREADY:
            return time.monotonic() - asked
        assert got == OK, f"a write was answered {got.hex()}"
        content[offset : offset + len(data)] = data
        written.append(time.monotonic())
    raise AssertionError("nobody seals what is written")


def written_while_sealed(words: Sequence[str], folder: str) -> None:
    """One session seals while another one writes. A write that comes while the bytes are hashed waits, and then is refused."""
    with serving(words, folder, [2 * LARGEST, MEBI], nodes=2), contextlib.ExitStack() as streams:
        sealer, writer = (streams.enter_context(session(folder, 0, 1)) for _ in range(2))
        far = streams.enter_context(session(folder, 1, 1))
        waited: List[float] = []
        took: List[float] = []
        for n in range(ROUNDS):
            one, content = ident(1, n + 1), bytearray(drawn(f"race {n}", LARGEST))
            written: List[float] = []
            fill(sealer, one, bytes(content))

            def seal_at_last() -> None:
                until(lambda: len(written) > 3, "writes")
                began = time.monotonic()
                seal(sealer, one)
                took.append(time.monotonic() - began)

            Race(seal_at_last, lambda: waited.append(write_until_sealed(writer, one, content, f"writes {n}", written)))
            ask(writer, write(one, 0, b"too late"), SEALED_ALREADY)
            check(writer, one, bytes(content))
            check(far, one, bytes(content))
            delete(sealer, one)
        assert any(2 * wait > seconds for wait, seconds in zip(waited, took)), f"writes waited {waited} s, and seals took {took} s"


def removed_while_sealed(words: Sequence[str], folder: str) -> None:
    """One session seals a large object, and another one asks for what would remove it, as soon as the write of a third one has to wait: that
    waits too, until the object is sealed. Asked for before the Seal it would remove the copy, and the Seal would be refused."""
    with serving(words, folder, [2 * LARGEST]), contextlib.ExitStack() as streams:
        three = [streams.enter_context(session(folder, 0, 1)) for _ in range(3)]
        task = 0
        for kind in REMOVALS:
            for _ in range(REMOVALS_TRIED):
                task += 1
                if has_waited(three, kind, task):
                    break
            else:
                raise AssertionError(f"a removal of kind {kind:02x} never waited for a seal")


def has_waited(streams: Sequence[socket.socket], kind: int, task: int) -> bool:
    """Whether what removes an object of this task was asked for while its bytes were hashed, and came after its Seal."""
    sealer, writer, remover = streams
    owner, borrower = (bytes(12) + struct.pack(">Q", number) for number in (task, LAST_TASK))
    one = owner + numbers(1, 1)
    fill(sealer, one, drawn(f"removal {task}", LARGEST))
    if kind == GIVE_UP:
        ask(sealer, frame(BORROW, one + borrower), OK)
        ask(sealer, frame(UNPIN, one + owner), OK)
    removal = {UNPIN: one + owner, GIVE_UP: one + borrower, DELETE: one, END_TASK: owner}[kind]
    hashing, sealed, asked_at = threading.Event(), [], []

    def seal_it() -> None:
        sealed.append((exchange(sealer, frame(0x04, one)), time.monotonic()))

    def write_on() -> None:
        answer = OK
        while answer == OK and not hashing.is_set():
            writer.sendall(write(one, 0, b"1"))
            if not select.select([writer], [], [], A_WHILE)[0]:
                hashing.set()
            answer = read_frame(writer)
        hashing.set()

    def remove() -> None:
        assert hashing.wait(PATIENCE), "no write waited"
        asked_at.append(time.monotonic())
        ask(remover, frame(kind, removal), OK)

    Race(write_on, seal_it, remove)
    (answer, sealed_at), = sealed
    return answer == OK and asked_at[0] + A_WHILE < sealed_at


def sealed_at_once(words: Sequence[str], folder: str) -> None:
    """Two sessions seal one object: one is answered Ok, the other that it is sealed. Two objects of a job at once have each its digest,
    which another node compares."""
    length = 4 * MEBI
    with serving(words, folder, [16 * MEBI], nodes=2), contextlib.ExitStack() as streams:
        both = [streams.enter_context(session(folder, 0, 1)) for _ in range(2)]
        far = streams.enter_context(session(folder, 1, 1))
        for n in range(ROUNDS):
            one, answers = ident(1, 3 * n + 1), []
            data = drawn(f"twice {n}", length)
            fill(both[0], one, data)
            Race(*(lambda s=stream: answers.append(exchange(s, frame(0x04, one))) for stream in both))
            assert sorted(answers) == [OK, SEALED_ALREADY], f"two seals: {[each.hex() for each in answers]}"
            check(far, one, data)
            ones = [ident(1, 3 * n + 2 + k) for k in range(2)]
            # as long as each other, and different in few bytes
            texts = [data[:-k] + b"!" * k for k in (1, 2)]
            for stream, each, text in zip(both, ones, texts):
                fill(stream, each, text)
            Race(*(lambda s=stream, o=each: seal(s, o) for stream, each in zip(both, ones)))
            for each, text in zip(ones, texts):
                check(far, each, text)
                check(both[0], each, text)
            for each in [one, *ones]:
                delete(both[0], each)
                delete(far, each)


# ---- sizes at the borders


def sparse(stream: socket.socket, one: bytes, length: int, seed: str) -> bytes:
    """A sealed primary of which a few bytes are written, and zeros are the rest. Its bytes."""
    create(stream, one, length)
    content, draw = bytearray(length), random.Random(seed)
    for _ in range(2):
        offset = draw.randrange(length)
        data = draw.randbytes(min(3, length - offset))
        ask(stream, write(one, offset, data), OK)
        content[offset : offset + len(data)] = data
    seal(stream, one)
    return bytes(content)


def sizes_at_borders(words: Sequence[str], folder: str) -> None:
    """Of each size two objects in a window for one: each is spilled and restored for the other. One is made anew with few bytes, and
    both are fetched by another node."""
    with serving(words, folder, [LARGEST], nodes=2, device=4 * LARGEST) as program:
        with session(folder, 0, 1) as owner, session(folder, 1, 1) as far:
            for n, length in enumerate(SIZES):
                program.tell(f"quota 0 1 {rounded(length)} {4 * LARGEST}", "n0 op ok")
                one, two = ident(1, 2 * n + 1), ident(1, 2 * n + 2)
                first, second = drawn(f"first {length}", length), drawn(f"second {length}", length)
                put(owner, one, first)
                put(owner, two, second)
                check(owner, one, first)
                check(owner, two, second)
                delete(owner, one)
                anew = sparse(owner, one, length, f"few {length}")
                check(owner, one, anew)
                # its window has room for one of them
                for each, data in ((two, second), (one, anew)):
                    check(far, each, data)
                    delete(far, each)
                    delete(owner, each)


def zeros_of_others(words: Sequence[str], folder: str) -> None:
    """Where another job's objects lay, whose job has ended, a new job's are zeros but for what it writes."""
    lengths = (17, 32_769, 65_536, MEBI + 5)
    with serving(words, folder, [2 * MEBI]) as program:
        for job in range(1, 4):
            if job > 1:
                program.end_job(0, job - 1)
                program.admit(0, job, 2 * MEBI)
            with session(folder, 0, job) as owner:
                for n, length in enumerate(lengths):
                    check(owner, ident(job, n + 1), sparse(owner, ident(job, n + 1), length, f"{job} {n}"))
                    delete(owner, ident(job, n + 1))
                for n, length in enumerate(lengths):
                    put(owner, ident(job, n + 9), b"\xff" * length)


# ---- files that are changed


def files_changed(words: Sequence[str], folder: str) -> None:
    """A spilled object whose file has other bytes is damaged, one whose file is cut or longer fails, and neither shows a byte. With the
    file as it was it is read back."""
    spill = Path(folder) / "spill/0"
    device = 4 * MEBI
    with serving(words, folder, [MEBI + 16], device=device, reason=OTHER_LENGTH) as program, session(folder, 0, 1) as owner:
        for n, length in enumerate((20, 4_096, 65_537, MEBI, MEBI + 5)):
            program.tell(f"quota 0 1 {rounded(length)} {device}", "n0 op ok")
            one, other = ident(1, 2 * n + 1), ident(1, 2 * n + 2)
            data = drawn(f"on disk {length}", length)
            put(owner, one, data)
            put(owner, other, drawn(f"in its place {length}", length))
            file = only_file(spill)
            for kind in CHANGES:
                broken(owner, one, file, data, kind)
            # the read that is answered at last spills the other one, which is then deleted
            check(owner, one, data)
            delete(owner, other)
            delete(owner, one)
            until(lambda: not list(spill.iterdir()), "erased")


# what is said of a file that is cut or longer
OTHER_LENGTH = "the file has another length"


def only_file(folder: Path) -> Path:
    (file,) = [path for path in folder.iterdir() if not path.name.endswith(".part")]
    return file


# what becomes of a file, and the answer
CHANGES: Dict[str, Tuple[Callable[[bytes], bytes], bytes]] = {
    "a bit": (lambda data: bytes([data[0] ^ 1]) + data[1:], DAMAGED),
    "the last byte": (lambda data: data[:-1] + bytes([data[-1] ^ 128]), DAMAGED),
    "all": (lambda data: drawn("of another", len(data)), DAMAGED),
    "zeros": (lambda data: bytes(len(data)), DAMAGED),
    "cut": (lambda data: data[:-1], DEVICE_FAILED),
    "longer": (lambda data: data + b"\0", DEVICE_FAILED),
    "empty": (lambda data: b"", DEVICE_FAILED),
}


def broken(owner: socket.socket, one: bytes, file: Path, data: bytes, kind: str) -> None:
    """The file is changed so, which is answered; then it is as it was."""
    same(file.read_bytes(), data, f"the file {file.name}")
    change, answer = CHANGES[kind]
    file.write_bytes(change(data))
    got = exchange(owner, frame(0x13, one))
    assert got == answer, f"{kind} of {len(data)} bytes: got {got.hex()}, should be {answer.hex()}"
    ask(owner, part(0x06, one, 0, 1), NOT_HELD)
    file.write_bytes(data)


# ---- grants


def peeked_while_owned(words: Sequence[str], folder: str) -> None:
    """Peeks at odd offsets, while the owner fills its window, has what it can spilled, and makes the id anew with other bytes; and until
    its job ends. What is answered is the bytes of what was granted at some moment, and never a mixture."""
    texts = [drawn(f"granted {n}", MEBI + 5) for n in range(4)]
    window = 3 * MEBI
    with serving(words, folder, [window, MEBI], device=16 * MEBI) as program, session(folder, 0, 1) as owner, session(folder, 0, 2) as peeker:
        over = threading.Event()
        seen: Set[int] = set()

        def own() -> None:
            try:
                for n, text in enumerate(texts):
                    own_turn(owner, n, text, lambda: n in seen or over.is_set())
                program.end_job(0, 1)
            finally:
                over.set()

        def peek() -> None:
            try:
                peek_until(over, peeker, texts, seen)
            finally:
                over.set()

        Race(own, peek)
        ask(peeker, part(0x0F, ident(1, 1), 0, 1), NOT_GRANTED)


def own_turn(owner: socket.socket, n: int, text: bytes, is_seen: Callable[[], bool]) -> None:
    """The owner grants an object of these bytes, makes others, and deletes it once it was seen."""
    one = ident(1, 1)
    put(owner, one, text)
    ask(owner, frame(0x0D, one + numbers(2)), OK)
    for k in range(3):
        put(owner, ident(1, 10 + 3 * n + k), drawn(f"beside {n} {k}", MEBI))
    ask(owner, frame(0x0B, one), frame(0x8F, b"\x0c"))
    until(is_seen, "a peek")
    ask(owner, frame(0x0E, one + numbers(2)), OK)
    delete(owner, one)


def peek_until(over: threading.Event, peeker: socket.socket, texts: Sequence[bytes], seen: Set[int]) -> None:
    draw = random.Random("peeks")
    while not over.is_set():
        length = draw.choice(LENGTHS)
        offset = draw.randrange(MEBI + 5 - length)
        got = exchange(peeker, part(0x0F, ident(1, 1), offset, length))
        if got != NOT_GRANTED:
            found = [n for n, text in enumerate(texts) if got == frame(0x83, text[offset : offset + length])]
            assert found, f"a peek of {length} bytes from {offset}: {len(got)} bytes that nobody granted"
            if length > 16:
                seen.update(found)


# ---- memory

# the program without a job, and a connection, as tests/attack has it
BYTES_ITSELF, BYTES_A_CONNECTION = 16 * MEBI, 512 << 10
TURNS, LIVE = 200, 48


def bound(windows: int, connections: int) -> int:
    """The windows and a quarter: bytes that were read back are taken over as the device gave them, and what was freed of these may stay."""
    return BYTES_ITSELF + windows * 5 // 4 + connections * BYTES_A_CONNECTION


def within(program: Server, windows: int, connections: int, what: str) -> None:
    has, most = memory_of(program.pid), bound(windows, connections)
    print(f"{what}: {has / MEBI:.0f} MiB of {most / MEBI:.0f}", flush=True)
    assert has <= most, f"{what}: {has:,} bytes of memory, more than {most:,}"


def objects_in_turn(words: Sequence[str], folder: str) -> None:
    """Many objects by many sessions, each read and at last deleted, in a window that is nearly full. Then the job ends."""
    window = 64 * MEBI
    with serving(words, folder, [window]) as program:
        with contextlib.ExitStack() as streams:
            owners = [streams.enter_context(session(folder, 0, 1)) for _ in range(8)]
            data, most = drawn("in turn", MEBI), 0
            for n in range(TURNS):
                owner, one = owners[n % len(owners)], ident(1, n + 1)
                put(owner, one, data)
                hold(owner, one, MEBI)
                same(exchange(owner, part(0x06, one, n, PIECE)), frame(0x83, data[n : n + PIECE]), f"object {n}")
                release(owner, one)
                if n >= LIVE:
                    delete(owners[(n + 3) % len(owners)], ident(1, n + 1 - LIVE))
                most = max(most, memory_of(program.pid))
            print(f"most: {most / MEBI:.0f} MiB")
            assert most <= bound(window, len(owners)), f"{most:,} bytes of memory"
        program.end_job(0, 1)
        within(program, window, 0, "after the end of the job")


def sessions_in_turn(words: Sequence[str], folder: str) -> None:
    """One session after another fills the window and deletes it all. What one has freed is given back, or used by the next one, whatever
    thread frees it: an object of 16 MiB that was freed before makes glibc keep what it got."""
    window, count = 32 * MEBI, 8
    with serving(words, folder, [window]) as program, contextlib.ExitStack() as streams:
        owners = [streams.enter_context(session(folder, 0, 1)) for _ in range(count)]
        put(owners[0], ident(1, 1), bytes(LARGEST))
        delete(owners[0], ident(1, 1))
        for n, owner in enumerate(owners):
            ones = [ident(1, 2 + 32 * n + k) for k in range(window // MEBI)]
            for one in ones:
                put(owner, one, bytes(MEBI))
            for one in ones:
                delete(owner, one)
        within(program, window, count, f"{count} sessions that filled the window in turn")


def small_objects_are_kept_once(words: Sequence[str], folder: str) -> None:
    """Each is shorter than what is shared. What was hashed of one that is sealed isn't kept beside it: so all of them take their window."""
    count, length = 1_000, 32_000
    window = count * rounded(length)
    with serving(words, folder, [window]) as program, session(folder, 0, 1) as owner:
        for n in range(count):
            put(owner, ident(1, n + 1), drawn(f"small {n}", length))
        check(owner, ident(1, count), drawn(f"small {count - 1}", length))
        within(program, window, 1, f"{count:,} small objects")


def refused_creates(words: Sequence[str], folder: str) -> None:
    """Sessions ask again and again for a large object that is there. Nothing is made for it, and nothing kept."""
    count = 16
    with serving(words, folder, [LARGEST]) as program, contextlib.ExitStack() as streams:
        askers = [streams.enter_context(session(folder, 0, 1)) for _ in range(count)]
        create(askers[0], ident(1, 1), 16)
        again = frame(0x02, ident(1, 1) + b"\0" + numbers(LARGEST))
        for _ in range(ROUNDS):
            for asker in askers:
                asker.sendall(again)
            for asker in askers:
                ask(asker, b"", EXISTS)
        within(program, LARGEST, count, f"{count} sessions that were refused")


def readers_of_an_ended_job(words: Sequence[str], folder: str) -> None:
    """Each has an object for itself, and takes no answer. Once their job has ended and they are gone their memory is given back."""
    window, count = 32 * MEBI, 16
    with serving(words, folder, [window]) as program:
        with contextlib.ExitStack() as streams:
            for n in range(count):
                reader, one = streams.enter_context(session(folder, 0, 1)), ident(1, n + 1)
                put(reader, one, drawn(f"unread {n}", MEBI))
                hold(reader, one, MEBI)
                ask_many(reader, 0x06, one, MEBI)
            program.end_job(0, 1)
            within(program, window, count, "readers of a job that has ended")
        most = bound(0, count)
        until(lambda: memory_of(program.pid) <= most, "memory falls")
        within(program, 0, count, "after they are gone")


def peekers_keep_no_object(words: Sequence[str], folder: str) -> None:
    """Peekers take no answer, each to an object for itself, which is then deleted: they keep what they are to be sent, and no object."""
    count = 12
    with serving(words, folder, [LARGEST, MEBI]) as program, contextlib.ExitStack() as streams:
        owner, data = streams.enter_context(session(folder, 0, 1)), drawn("kept", LARGEST)
        for n in range(count):
            one = ident(1, n + 1)
            put(owner, one, data)
            ask(owner, frame(0x0D, one + numbers(2)), OK)
            ask_many(streams.enter_context(session(folder, 0, 2)), 0x0F, one, LARGEST)
            ask(owner, frame(0x0E, one + numbers(2)), OK)
            delete(owner, one)
        within(program, LARGEST, count + 1, f"{count} objects that were deleted while they were peeked at")


CASES = (
    a_reader_of_what_is_deleted,
    a_reader_whose_job_ends,
    a_slow_peeker,
    written_while_sealed,
    removed_while_sealed,
    sealed_at_once,
    sizes_at_borders,
    zeros_of_others,
    files_changed,
    peeked_while_owned,
    objects_in_turn,
    sessions_in_turn,
    small_objects_are_kept_once,
    refused_creates,
    readers_of_an_ended_job,
    peekers_keep_no_object,
)


def main() -> int:
    words = sys.argv[1:] or [program_or_end()]
    # no answer is waited for without end
    socket.setdefaulttimeout(PATIENCE)
    failed = 0
    for case in CASES:
        began = time.monotonic()
        with tempfile.TemporaryDirectory() as folder:
            try:
                case(words, folder)
                print(f"passed: {case.__name__}, {time.monotonic() - began:.1f} s", flush=True)
            except (AssertionError, OSError, ValueError, struct.error, subprocess.TimeoutExpired) as fault:
                failed += 1
                print(f"FAILED: {case.__name__}: {fault!r}", flush=True)
    print(f"{len(CASES) - failed} passed, {failed} failed")
    return 1 if failed else 0


if __name__ == "__main__":
    sys.exit(main())
