"""Runs sessions of two jobs at a program that serves, and compares each answer's bytes.

Starts `store serve`, admits two jobs by the operator's lines, and lets a client of each job work at the same time over the
node's Unix socket, while a third one sends what is no frame, ends inside a frame, and goes away without reading. Then come
objects that are spilled and read back, devices that fail and what is said of it, a device whose erase takes seconds and one without memory
(if strace can make it so; otherwise these cases aren't run), objects that other nodes fetch, a node that is answered while another one seals
a large object, a session that waits while the program closes, a socket's file that was left by an earlier process, what ends the program
otherwise, 100,000 orders, clients that go while they wait, what is kept of jobs that aren't there, whose the folders and the sockets are,
folders that are moved, files in whose place something else comes, and paths that are empty.
The expected answers were written by hand from the rules. It takes the program that operate/program finds; or give the words that
start another one.
"""

import contextlib
import ctypes
import itertools
import os
import queue
import shutil
import socket
import stat
import struct
import subprocess
import sys
import tempfile
import threading
import time
from pathlib import Path
from typing import Iterator, List, Sequence, Set, Tuple, Union

from store_testing import PATIENCE
from store_testing.frames import ask, enter, exchange, frame, hello, ident, key, numbers, receive, session
from store_testing.processes import memory_of
from store_testing.program import program_or_end
from store_testing.server import FAILED_CALL, READY, Server, report_of

ROUNDS = 200
OBJECTS = 30
PIECE = 65_536
LARGEST = 1 << 24
APART = 50
# so many device calls fail at a node in so many seconds
FAILING, FAILING_SECONDS = 200, 3
# how often a file is read whose place is a pipe's now and then
COMING = 2000
# far more than an operator gives
MANY_ORDERS = 100_000
# of the system, for what Python has no call
C_LIBRARY = ctypes.CDLL(None, use_errno=True)
# runs a program in which a call of the system that erases a file takes seconds; and the numbers of these calls
SLOWLY = ["strace", "-f", "-qq", "-o", "/dev/null", "-e", "trace=unlink,unlinkat", "-e", "inject=unlink,unlinkat:delay_enter=4s"]
UNLINKS = ("87", "263")
# runs a program of which each thread's first call that gives a file its name finds no memory
SHORT_OF_MEMORY = [
    "strace", "-f", "-qq", "-o", "/dev/null", "-e", "trace=rename,renameat,renameat2",
    "-e", "inject=rename,renameat,renameat2:error=ENOMEM:when=1",
]
# of a device call that failed: node, job, work, call, reason, and how many more
Told = Tuple[int, int, int, str, str, int]


def client(path: str, job: int, faults: List[str]) -> None:
    """The six commands of one object, round after round: each job's offsets are its own."""
    try:
        with socket.socket(socket.AF_UNIX) as stream:
            stream.connect(path)
            ok = frame(0x80)
            ask(stream, frame(0x01, numbers(job) + key(3 - job)), frame(0x8F, bytes([1])))
            ask(stream, hello(job), ok)
            for n in range(ROUNDS):
                one = ident(job, n + 1)
                ask(stream, frame(0x02, one + b"\0" + numbers(20)), frame(0x81, numbers(32 * n, 32)))
                ask(stream, frame(0x03, one + numbers(0) + b"Hello"), ok)
                ask(stream, frame(0x04, one), ok)
                ask(stream, frame(0x05, one), frame(0x82, numbers(20)))
                ask(stream, frame(0x06, one + numbers(0, 20)), frame(0x83, b"Hello" + bytes(15)))
                ask(stream, frame(0x07, one), ok)
            # another job's object, and the end of a task that made nothing
            ask(stream, frame(0x05, ident(3 - job, 1)), frame(0x8F, bytes([13])))
            ask(stream, frame(0x0C, bytes(20)), ok)
    except (AssertionError, OSError) as fault:
        faults.append(f"job {job}: {fault}")


def stray(path: str, faults: List[str]) -> None:
    """What is no frame is answered once, and ends its own session alone."""
    try:
        with socket.socket(socket.AF_UNIX) as stream:
            stream.connect(path)
            ask(stream, bytes(4), frame(0x8F, bytes([20])))
            assert stream.recv(1) == b"", "the session goes on"
        with socket.socket(socket.AF_UNIX) as stream:
            stream.connect(path)
            stream.sendall(bytes([0, 0]))
        with socket.socket(socket.AF_UNIX) as stream:
            stream.connect(path)
            stream.sendall(frame(0x11) * 1000)
    except (AssertionError, OSError) as fault:
        faults.append(f"stray: {fault}")


def two_jobs(words: Sequence[str], folder: str) -> None:
    program = Server(words, folder)
    path = f"{folder}/store.0"
    program.admit(0, 1, 16384)
    program.admit(0, 2, 16384)
    program.tell(f"admit 0 2 16384 0 {key(2).hex()}", "n0 op refused 3 Exists")
    program.admit(1, 1, 16384)
    faults: List[str] = []
    threads = [threading.Thread(target=client, args=(path, job, faults)) for job in (1, 2)]
    threads.append(threading.Thread(target=stray, args=(path, faults)))
    for thread in threads:
        thread.start()
    for thread in threads:
        thread.join()
    assert not faults, "; ".join(faults)
    program.end_job(0, 1)
    # of each client six commands a round, one that is refused, the end of a task, and its Leave; of the operator five lines
    entries = 2 * (6 * ROUNDS + 3) + 5
    program.ended(f"report {entries} {entries} 0 0 0\n", 0, sent="close\n")
    assert not Path(path).exists(), "the socket's file is still there"
    assert Path(f"{folder}/spill/1").is_dir(), "no folder to spill into"


def create_wait(stream: socket.socket, one: bytes, expected: bytes) -> None:
    ask(stream, frame(0x14, one + b"\0" + numbers(20)), expected)


def put(stream: socket.socket, one: bytes, offset: int, text: bytes) -> None:
    """A sealed primary of 20 bytes, for which room is waited for."""
    create_wait(stream, one, frame(0x81, numbers(offset, 32)))
    ask(stream, frame(0x03, one + numbers(0) + text.ljust(20)), frame(0x80))
    ask(stream, frame(0x04, one), frame(0x80))


def check_get(stream: socket.socket, one: bytes, text: bytes) -> None:
    """The bytes of an object, for which its copy is waited for. It isn't held afterwards."""
    ask(stream, frame(0x13, one), frame(0x82, numbers(20)))
    ask(stream, frame(0x06, one + numbers(0, 20)), frame(0x83, text.ljust(20)))
    ask(stream, frame(0x07, one), frame(0x80))


def spilled(folder: Path) -> List[str]:
    """The names in a spill folder."""
    return sorted(path.name for path in folder.iterdir())


def await_names(folder: Path, expected: Sequence[str]) -> None:
    """Waits until the folder has these spilled objects: a key is erased after the command is answered."""
    end = time.monotonic() + PATIENCE
    while (names := spilled(folder)) != expected:
        assert time.monotonic() < end, f"the folder has {names}, should have {expected}"
        time.sleep(0.01)


def reported(program: Server, erase_failures: int) -> int:
    """Each entry has a receipt at the close, and each receipt that was looked for its entry. Nothing was said but that it is ready."""
    entries, said = reported_and_said(program, erase_failures)
    assert said == READY, f"said {said!r}"
    return entries


def reported_and_said(program: Server, erase_failures: int) -> Tuple[int, str]:
    """The same, and what was said."""
    out, err, status = program.ending("close\n")
    word, entries, receipts, disagreeing, lost, failures = out.split()
    assert (word, status) == ("report", 0), f"got {out!r}, {err!r}, {status}"
    assert (entries, disagreeing, lost, failures) == (receipts, "0", "0", str(erase_failures)), f"got {out!r}"
    return int(entries), err


def spills(words: Sequence[str], folder: str) -> None:
    """In a window for two of three objects. What is deleted, or whose job ends, is erased from the folder."""
    program = Server(words, folder)
    spill = Path(f"{folder}/spill/0")
    texts = [b"One", b"Two", b"Three"]
    program.admit(0, 1, 64, 96)
    with socket.socket(socket.AF_UNIX) as stream:
        enter(stream, f"{folder}/store.0", 1)
        for n, offset in enumerate((0, 32, 0)):
            put(stream, ident(1, n + 1), offset, texts[n])
        await_names(spill, ["1.1"])
        for n in range(3):
            check_get(stream, ident(1, n + 1), texts[n])
        program.tell("quota 0 1 64 16", "n0 op refused 9 Full")
        program.tell("quota 0 1 128 128", "n0 op ok")
        put(stream, ident(1, 4), 64, b"Four")
        ask(stream, frame(0x0B, ident(1, 1)), frame(0x80))
    names = spilled(spill)
    assert names, "nothing is spilled"
    await_names(spill, [name for name in names if name != "1.1"])
    program.end_job(0, 1)
    reported(program, 0)
    await_names(spill, [])


def many_spill(words: Sequence[str], folder: str) -> None:
    """Sessions of two jobs at once, each with more objects than room."""
    program = Server(words, folder, 1)
    for job in (1, 2):
        program.admit(0, job, 64, 4096)
    faults: List[str] = []

    def fill(job: int) -> None:
        try:
            with socket.socket(socket.AF_UNIX) as stream:
                enter(stream, f"{folder}/store.0", job)
                for n in range(20):
                    create = frame(0x14, ident(job, n + 1) + b"\0" + numbers(20))
                    stream.sendall(create)
                    answer = receive(stream, 13)
                    assert answer[4] == 0x81, f"create {n}: got {answer.hex()}"
                    ask(stream, frame(0x03, ident(job, n + 1) + numbers(0) + bytes([job, n]).ljust(20)), frame(0x80))
                    ask(stream, frame(0x04, ident(job, n + 1)), frame(0x80))
                for n in range(20):
                    check_get(stream, ident(job, n + 1), bytes([job, n]))
        except (AssertionError, OSError) as fault:
            faults.append(f"job {job}: {fault}")

    threads = [threading.Thread(target=fill, args=(job,)) for job in (1, 2)]
    for thread in threads:
        thread.start()
    for thread in threads:
        thread.join()
    assert not faults, "; ".join(faults)
    for job in (1, 2):
        program.end_job(0, job)
    reported(program, 0)
    await_names(Path(f"{folder}/spill/0"), [])


def devices_fail(words: Sequence[str], folder: str) -> None:
    """A folder that is removed fails what is to be written or read there, and nothing else. Nothing is written into what comes in its place."""
    program = Server(words, folder)
    spill = Path(f"{folder}/spill/0")
    program.admit(0, 1, 64, 96)
    program.admit(0, 2, 64, 96)
    with socket.socket(socket.AF_UNIX) as stream, socket.socket(socket.AF_UNIX) as other:
        enter(stream, f"{folder}/store.0", 1)
        enter(other, f"{folder}/store.0", 2)
        put(stream, ident(1, 1), 0, b"One")
        put(stream, ident(1, 2), 32, b"Two")
        shutil.rmtree(spill)
        create_wait(stream, ident(1, 3), frame(0x8F, bytes([14])))
        check_get(stream, ident(1, 2), b"Two")
        put(other, ident(2, 1), 0, b"Other")
        check_get(other, ident(2, 1), b"Other")
        spill.mkdir(0o700)
        create_wait(stream, ident(1, 3), frame(0x8F, bytes([14])))
        assert not spilled(spill), f"the other folder has {spilled(spill)}"
        spill.rmdir()
        spill.write_bytes(b"")
        create_wait(stream, ident(1, 3), frame(0x8F, bytes([14])))
        check_get(stream, ident(1, 2), b"Two")
        check_get(other, ident(2, 1), b"Other")
    program.end_job(0, 1)
    _, said = reported_and_said(program, 0)
    first = f"store: node 0: job 1: work 1: write failed: {MOVED}\n"
    assert said.startswith(READY + first), f"said {said!r}"


NO_FILE, OTHER_LENGTH = "what is there isn't a regular file", "the file has another length"
MOVED = "the folder was moved or removed"
# a pause after which the next device call that fails is told, in seconds
UNTIL_TOLD = 1.2


def failed_call(line: str) -> Told:
    """What a line says of a device call that failed."""
    found = FAILED_CALL.fullmatch(line.rstrip("\n"))
    assert found, f"said {line!r}"
    node, job, work, call, reason, more = found.groups()
    return int(node), int(job), int(work), call, reason, int(more or 0)


class Complaints:
    """What a program says on standard error, as it comes."""

    def __init__(self, program: Server) -> None:
        self.program = program
        self.lines: "queue.Queue[str]" = queue.Queue()
        threading.Thread(target=self._read, daemon=True).start()
        assert self.lines.get(timeout=PATIENCE) == READY

    def _read(self) -> None:
        for line in self.program.lines():
            self.lines.put(line)

    def failed_call(self) -> Told:
        """What the next line says of a device call."""
        try:
            return failed_call(self.lines.get(timeout=PATIENCE))
        except queue.Empty:
            raise AssertionError("nothing is said") from None

    def tells(self, *expected: Union[int, str]) -> None:
        told = self.failed_call()
        assert told == expected, f"told of {told}, should be {expected}"

    def reported(self, erase_failures: int) -> None:
        """The program ends with a right report, and says nothing more."""
        out = self.program.say("close")
        entries, receipts, disagreeing, lost, failures = out.split()[1:]
        status = self.program.wait()
        assert status == 0, f"status {status}"
        assert (entries, disagreeing, lost, failures) == (receipts, "0", "0", str(erase_failures)), f"got {out!r}"
        assert self.lines.empty(), f"said {self.lines.get()!r}"


def failed_calls_are_told(words: Sequence[str], folder: str) -> None:
    """Writes, a read and an erase that fail, each more than a second after the one before: a line says which, and why. The answers are
    those that they are without it, and calls that succeed have no line."""
    program = Server(words, folder)
    complaints = Complaints(program)
    spill = Path(f"{folder}/spill/1")
    program.admit(1, 7, 64, 128)
    with session(folder, 1, 7) as stream:
        put(stream, ident(7, 1), 0, b"One")
        put(stream, ident(7, 2), 32, b"Two")
        for work, (name, reason) in enumerate((("7.1", NO_FILE), ("7.2.part", "Is a directory (os error 21)")), 1):
            (spill / name).mkdir()
            create_wait(stream, ident(7, 3), frame(0x8F, bytes([14])))
            complaints.tells(1, 7, work, "write", reason, 0)
            time.sleep(UNTIL_TOLD)
        put(stream, ident(7, 3), 0, b"Three")
        file = spill / "7.3"
        content = file.read_bytes()
        file.write_bytes(content[1:])
        ask(stream, frame(0x0B, ident(7, 3)), frame(0x80))
        ask(stream, frame(0x13, ident(7, 1)), frame(0x8F, bytes([14])))
        complaints.tells(1, 7, 3, "read", OTHER_LENGTH, 0)
        file.write_bytes(content)
        check_get(stream, ident(7, 1), b"One")
        time.sleep(UNTIL_TOLD)
        file.unlink()
        file.mkdir()
        ask(stream, frame(0x0B, ident(7, 1)), frame(0x80))
        complaints.tells(1, 7, 3, "erase", "Is a directory (os error 21)", 0)
    complaints.reported(1)


def failed_calls_are_told_once_a_second(words: Sequence[str], folder: str) -> None:
    """Many writes fail at two nodes in some seconds: of both nodes in all there are at most as many lines as seconds, and they say how
    many there were."""
    program = Server(words, folder)
    complaints = Complaints(program)
    for node in range(2):
        program.admit(node, 7, 32, 64)
        for work in range(1, FAILING + 2):
            Path(f"{folder}/spill/{node}/7.{work}").mkdir()
    with session(folder, 0, 7) as first, session(folder, 1, 7) as second:
        for stream in (first, second):
            put(stream, ident(7, 1), 0, b"One")
        began = time.monotonic()
        for _ in range(FAILING):
            for stream in (first, second):
                create_wait(stream, ident(7, 2), frame(0x8F, bytes([14])))
            time.sleep(FAILING_SECONDS / FAILING)
        seconds = time.monotonic() - began
        time.sleep(UNTIL_TOLD)
        create_wait(second, ident(7, 2), frame(0x8F, bytes([14])))
        told = [complaints.failed_call()]
        while sum(1 + more for *_, more in told) < 2 * FAILING + 1:
            told.append(complaints.failed_call())
    assert told[0] == (0, 7, 1, "write", NO_FILE, 0), f"first told of {told[0]}"
    assert told[-1][:5] == (1, 7, FAILING + 1, "write", NO_FILE), f"last told of {told[-1]}"
    for call in told:
        assert call[0] < 2 and 1 <= call[2] <= FAILING + 1 and (call[1], *call[3:5]) == (7, "write", NO_FILE), f"told of {call}"
    assert sum(1 + more for *_, more in told) == 2 * FAILING + 1, f"told of {told}"
    # the last one came after the pause
    assert 2 <= len(told) - 1 <= seconds + 1, f"{len(told) - 1} lines in {seconds:.1f} seconds"
    complaints.reported(0)


def nobody_is_told(words: Sequence[str], folder: str) -> None:
    """Nobody reads what the program says: device calls fail and succeed as ever."""
    program = Server(words, folder)
    program.await_ready()
    program.end_complaints()
    program.admit(0, 7, 32, 64)
    (Path(folder) / "spill/0/7.1").mkdir()
    with session(folder, 0, 7) as stream:
        put(stream, ident(7, 1), 0, b"One")
        create_wait(stream, ident(7, 2), frame(0x8F, bytes([14])))
        put(stream, ident(7, 2), 0, b"Two")
        check_get(stream, ident(7, 1), b"One")
    ends_well(program)


def ends_well(program: Server) -> None:
    """Its report is right, and nobody reads what it says."""
    report_of(program.say("close"))
    status = program.wait()
    assert status == 0, f"status {status}"


def fill_pipe(end: int) -> int:
    """Writes until nothing more goes in: how many bytes."""
    os.set_blocking(end, False)
    count = 0
    # by single bytes at last, so that nothing is left free
    for piece in (bytes(4096), b"\0"):
        with contextlib.suppress(BlockingIOError):
            while True:
                count += os.write(end, piece)
    os.set_blocking(end, True)
    return count


def who_is_told_reads_late(words: Sequence[str], folder: str) -> None:
    """Standard error is a pipe that is full: device calls fail and succeed as ever. Once it is read the line is there, and the next one says
    how many had none."""
    reading, writing = os.pipe()
    program = Server(words, folder, 1, errors=writing)
    with os.fdopen(reading, "rb") as said, os.fdopen(writing, "wb") as full:
        assert said.readline() == READY.encode()
        program.admit(0, 7, 32, 64)
        for work in range(1, 5):
            (Path(folder) / f"spill/0/7.{work}").mkdir()
        with session(folder, 0, 7) as stream:
            put(stream, ident(7, 1), 0, b"One")
            filled = fill_pipe(full.fileno())
            for _ in range(3):
                create_wait(stream, ident(7, 2), frame(0x8F, bytes([14])))
                time.sleep(UNTIL_TOLD)
            assert said.read(filled) == bytes(filled), "something was said before"
            told = [failed_call(said.readline().decode())]
            time.sleep(UNTIL_TOLD)
            create_wait(stream, ident(7, 2), frame(0x8F, bytes([14])))
            told.append(failed_call(said.readline().decode()))
            put(stream, ident(7, 2), 0, b"Two")
            check_get(stream, ident(7, 1), b"One")
        assert told == [(0, 7, 1, "write", NO_FILE, 0), (0, 7, 4, "write", NO_FILE, 2)], f"told of {told}"
        ends_well(program)


def calls_without_memory_are_told(words: Sequence[str], folder: str) -> None:
    """A write for which there is no memory: its job is answered as at any call that fails, and a line says so. The next one succeeds."""
    program = Server([*SHORT_OF_MEMORY, *words], folder, 1)
    complaints = Complaints(program)
    program.admit(0, 7, 32, 64)
    with session(folder, 0, 7) as stream:
        put(stream, ident(7, 1), 0, b"One")
        create_wait(stream, ident(7, 2), frame(0x8F, bytes([14])))
        complaints.tells(0, 7, 1, "write", "no memory", 0)
        put(stream, ident(7, 2), 0, b"Two")
        check_get(stream, ident(7, 1), b"One")
    complaints.reported(0)


def can_delay() -> bool:
    """Whether a program can be run slowly here, and what it calls be seen."""
    if not shutil.which("strace") or not Path("/proc/self/syscall").exists():
        return False
    return subprocess.run([*SLOWLY, "true"], stdin=subprocess.DEVNULL, capture_output=True, check=False).returncode == 0


def is_erasing(program: Server) -> bool:
    """Whether a thread of a process that this one started is in a call that erases a file."""
    children = Path(f"/proc/{program.pid}/task/{program.pid}/children").read_text().split()
    calls = [path.read_text().split()[0] for child in children for path in Path(f"/proc/{child}/task").glob("*/syscall")]
    return any(call in UNLINKS for call in calls)


def erases_slowly(words: Sequence[str], folder: str) -> None:
    """While the device erases what a job deleted, another job is answered, and so is the one itself."""
    program = Server([*SLOWLY, *words], folder)
    spill = Path(f"{folder}/spill/0")
    for job in (1, 2):
        program.admit(0, job, 64, 96)
    with session(folder, 0, 1) as stream, session(folder, 0, 2) as other:
        for n, offset in enumerate((0, 32, 0)):
            put(stream, ident(1, n + 1), offset, b"Spilled")
        put(other, ident(2, 1), 0, b"Other")
        await_names(spill, ["1.1"])
        ask(stream, frame(0x0B, ident(1, 1)), frame(0x80))
        end = time.monotonic() + PATIENCE
        while not is_erasing(program):
            assert time.monotonic() < end, "nothing is erased"
            time.sleep(0.01)
        check_get(other, ident(2, 1), b"Other")
        check_get(stream, ident(1, 3), b"Spilled")
        assert is_erasing(program) and (spill / "1.1").exists(), "the answers came after the erase"
        await_names(spill, [])
    reported(program, 0)


def put_large(stream: socket.socket, one: bytes, data: bytes) -> None:
    """A sealed primary of these bytes."""
    fill_large(stream, one, data)
    ask(stream, frame(0x04, one), frame(0x80))


def fill_large(stream: socket.socket, one: bytes, data: bytes) -> None:
    """A primary of these bytes, which isn't sealed."""
    stream.sendall(frame(0x14, one + b"\0" + numbers(len(data))))
    answer = receive(stream, 13)
    assert answer[4] == 0x81, f"create: got {answer.hex()}"
    for offset in range(0, len(data), PIECE):
        ask(stream, frame(0x03, one + numbers(offset) + data[offset : offset + PIECE]), frame(0x80))


def check_large(stream: socket.socket, one: bytes, data: bytes) -> None:
    """The bytes of a large object, for which its copy is waited for. It isn't held afterwards."""
    ask(stream, frame(0x13, one), frame(0x82, numbers(len(data))))
    for offset in range(0, len(data), PIECE):
        piece = data[offset : offset + PIECE]
        ask(stream, frame(0x06, one + numbers(offset, len(piece))), frame(0x83, piece))
    ask(stream, frame(0x07, one), frame(0x80))


def fetches(words: Sequence[str], folder: str) -> None:
    """Objects that were sealed at one node are fetched by waiting Gets at others, of every size, spilled ones too."""
    program = Server(words, folder, 3, 1 << 28)
    for node in range(3):
        program.admit(node, 1, 1 << 26, 1 << 26)
        program.admit(node, 2, 1 << 20)
    sizes = (20, PIECE, PIECE + 1, 300_000, 1 << 24)
    texts = [bytes([n + 1]) * size for n, size in enumerate(sizes)]
    with session(folder, 0, 1) as owner, session(folder, 1, 1) as reader, session(folder, 2, 1) as other:
        for n, text in enumerate(texts):
            put_large(owner, ident(1, n + 1), text)
        for n, text in enumerate(texts):
            check_large(reader, ident(1, n + 1), text)
        # from one of two nodes
        check_large(other, ident(1, 5), texts[4])
        # no node has it; another job's
        ask(reader, frame(0x13, ident(1, 99)), frame(0x8F, bytes([4])))
        with session(folder, 1, 2) as stranger:
            ask(stranger, frame(0x13, ident(1, 1)), frame(0x8F, bytes([13])))
        # four of 16 MiB in a window of 64 MiB beside what is there: some are spilled, and fetched by another node all the same
        for n in range(6, 10):
            put_large(owner, ident(1, n), bytes([n]) * (1 << 24))
        for n in range(6, 10):
            check_large(other, ident(1, n), bytes([n]) * (1 << 24))
    await_links(folder, 2, 3)
    for node in range(3):
        program.end_job(node, 1)
    reported(program, 0)


def await_links(folder: str, job: int, nodes: int) -> None:
    """Waits until all that was sent between the nodes has come, and has been answered: who waits may have asked twice for a chunk,
    and what comes of that after the close is lost. Links keep the order, so a last fetch by a job that does nothing else comes last."""
    for number, (here, there) in enumerate(itertools.combinations(range(nodes), 2), 1_000):
        with session(folder, here, job) as owner, session(folder, there, job) as reader:
            put_large(owner, ident(job, number), b"last")
            check_large(reader, ident(job, number), b"last")


def many_fetch(words: Sequence[str], folder: str) -> None:
    """Sessions of two jobs at each of two nodes: each puts objects at its own node, and gets those of the other."""
    program = Server(words, folder, 2, 1 << 28)
    for node in range(2):
        for job in (1, 2, 3):
            program.admit(node, job, 1 << 22)
    faults: List[str] = []
    ready = threading.Barrier(4)

    def exchange(node: int, job: int) -> None:
        try:
            with session(folder, node, job) as stream:
                for n in range(OBJECTS):
                    put_large(stream, ident(job, 2 * n + node + 1), bytes([job, node, n]) * 10_000)
                for n in range(OBJECTS):
                    ready.wait(PATIENCE)
                    check_large(stream, ident(job, 2 * n + 2 - node), bytes([job, 1 - node, n]) * 10_000)
        except (AssertionError, OSError, threading.BrokenBarrierError) as fault:
            faults.append(f"job {job} at node {node}: {fault}")

    threads = [threading.Thread(target=exchange, args=(node, job)) for node in range(2) for job in (1, 2)]
    for thread in threads:
        thread.start()
    for thread in threads:
        thread.join()
    assert not faults, "; ".join(faults)
    await_links(folder, 3, 2)
    reported(program, 0)


def steps_apart(sealer: socket.socket, looker: socket.socket, one: bytes) -> int:
    """How many steps of the looker's node were asked for and answered in the middle half of the time in which an object was sealed."""
    fill_large(sealer, one, bytes(LARGEST))
    answered: List[Tuple[float, float]] = []
    is_sealed = threading.Event()

    def look() -> None:
        usage = frame(0x85, struct.pack(">6Q", LARGEST, 0, 0, 0, 0, 0))
        while not is_sealed.is_set():
            asked = time.monotonic()
            ask(looker, frame(0x11), usage)
            answered.append((asked, time.monotonic()))

    looking = threading.Thread(target=look)
    looking.start()
    began = time.monotonic()
    ask(sealer, frame(0x04, one), frame(0x80))
    ended = time.monotonic()
    is_sealed.set()
    looking.join()
    ask(sealer, frame(0x0B, one), frame(0x80))
    quarter = (ended - began) / 4
    return sum(began + quarter < asked and told < ended - quarter for asked, told in answered)


def nodes_go_apart(words: Sequence[str], folder: str) -> None:
    """While a node seals an object of 16 MiB, a step of another node is answered: in one of many rounds at least, however busy the
    machine is. It would be in none if the nodes waited for each other."""
    program = Server(words, folder, 2, 1 << 25)
    for node in range(2):
        program.admit(node, 1, LARGEST)
    with session(folder, 0, 1) as sealer, session(folder, 1, 1) as looker:
        assert any(steps_apart(sealer, looker, ident(1, n + 1)) for n in range(APART)), f"no step apart in {APART} rounds"
    reported(program, 0)


def await_no_listener(path: str) -> None:
    """Waits until nobody listens: that is after those who waited were answered, or before."""
    end = time.monotonic() + PATIENCE
    while True:
        with socket.socket(socket.AF_UNIX) as late:
            if late.connect_ex(path) != 0:
                return
        assert time.monotonic() < end, "a session is taken after the close"
        time.sleep(0.01)


def waits_at_the_close(words: Sequence[str], folder: str) -> None:
    """Two sessions wait for an object that its node can't read back, since the window is full of what is held: after a second
    there are no entries but those of their first tries. Once the program closes both are told that it is pending, and are waited
    for. It is served over a socket's file that nobody listens on."""
    with socket.socket(socket.AF_UNIX) as stale:
        stale.bind(f"{folder}/store.0")
    program = Server(words, folder, 2)
    for node in range(2):
        program.admit(node, 1, 64, 96)
    with session(folder, 0, 1) as owner, session(folder, 1, 1) as first, session(folder, 1, 1) as second:
        for n, offset in enumerate((0, 32, 0)):
            put(owner, ident(1, n + 1), offset, b"Held")
        await_names(Path(f"{folder}/spill/0"), ["1.1"])
        for n in (2, 3):
            ask(owner, frame(0x05, ident(1, n)), frame(0x82, numbers(20)))
        for stream in (first, second):
            stream.sendall(frame(0x13, ident(1, 1)))
        # long enough for the first tries, on a machine that does much else; shorter than the patience of who asked for chunks
        time.sleep(1.5)
        program.send("close")
        for stream in (first, second):
            assert receive(stream, 6) == frame(0x8F, bytes([10])), "no answer at the close"
        ask(first, frame(0x12), frame(0x80))
        await_no_listener(f"{folder}/store.0")
    # some 35: admissions, three objects, one of which is spilled, two holds, the tries and what arrives for them, and Leaves
    entries = reported(program, 0)
    assert entries < 60, f"{entries} entries"


def faults(words: Sequence[str], folder: str) -> None:
    """A line that is none of the operator's; an upper-case key; a socket that can't be opened, since its path is too long or a file
    is there that is no socket, and stays; missing words."""
    for line in ("quit", f"admit 0 1 64 0 {'AB' * 32}", "admit 0 1 64 0", "", f"admit 2 1 64 0 {'ab' * 32}"):
        program = Server(words, folder)
        program.ended("", 1, READY + "store: line 1: not a step\n", line + "\n")
    long = f"{folder}/{'long' * 30}"
    Server(words, long).refused(f"store: socket failed: {long}/store.0: ")
    kept = Path(folder) / "store.0"
    kept.write_text("no socket")
    Server(words, folder).refused(f"store: socket failed: {kept}: ")
    assert kept.read_text() == "no socket", "a file that is no socket was removed"
    done = subprocess.run([*words, "serve", "--socket", folder], capture_output=True, check=False)
    assert done.returncode == 2, f"status {done.returncode}"


def a_fault_is_told_at_once(words: Sequence[str], folder: str) -> None:
    """A line that is no order, while a session is open: the fault is told before the session has ended, which is still answered."""
    program = Server(words, folder)
    program.admit(0, 1, 64)
    with session(folder, 0, 1) as stream:
        program.send("admitt 0 2 64 0")
        said = "".join(program.line() for _ in range(2))
        assert said == READY + "store: line 2: not a step\n", f"said {said!r}"
        put(stream, ident(1, 1), 0, b"One")
    program.ended("", 1, "")


def outputs_that_do_not_wait(words: Sequence[str], folder: str) -> None:
    """Standard input and output that are set not to wait, as shells leave them: an order that comes late is carried out, and answers that
    nobody reads for a while all come."""
    lines = 8_000
    input_end, output_end = os.pipe(), os.pipe()
    for end in (input_end[0], output_end[1]):
        os.set_blocking(end, False)
    with Server(words, folder, 1, ends=(input_end[0], output_end[1])) as program:
        os.close(input_end[0])
        os.close(output_end[1])
        program.await_ready()
        time.sleep(0.2)
        with os.fdopen(input_end[1], "w") as orders:
            # from Python 3.14 on a buffer is longer than all of it
            writer = threading.Thread(target=print, args=("end 0 1\n" * lines + "close",), kwargs={"file": orders, "flush": True})
            writer.start()
            time.sleep(1)
            with os.fdopen(output_end[0]) as answers:
                for number in range(lines):
                    line = answers.readline()
                    assert line == "n0 op refused 1 NotAdmitted\n", f"answer {number} is {line!r}"
                writer.join()
                orders.flush()
                report_of(answers.readline())
        assert (program.wait(), program.line()) == (0, "")


def many_orders(words: Sequence[str], folder: str) -> None:
    """Standard input doesn't end early, however many lines come, and however often it is read. Each order is sent after the answer to the one
    before, so that it comes to a read of its own. An order after them is carried out too, and the report counts all."""
    with Server(words, folder) as program:
        program.admit(0, 1, 64)
        for device in range(MANY_ORDERS // 2):
            program.tell(f"quota 0 1 64 {device}", "n0 op ok")
            program.tell("end 1 1", "n1 op refused 1 NotAdmitted")
        with session(folder, 0, 1) as stream:
            ask(stream, frame(0x11), frame(0x85, struct.pack(">6Q", 64, 0, device, 0, 0, 0)))
            ask(stream, frame(0x12), frame(0x80))
        program.admit(1, 2, 64)
        # of the session its Usage, its Leave and the one at its end
        expected = 1 + MANY_ORDERS + 3 + 1
        entries = reported(program, 0)
        assert entries == expected, f"{entries} entries, should be {expected}"


def threads_of(program: Server) -> int:
    return len(os.listdir(f"/proc/{program.pid}/task"))


def clients_that_go_while_they_wait(words: Sequence[str], folder: str) -> None:
    """Clients close their connections while their calls wait for an object that its node can't read back, since the window is full of what
    is held; one has sent more frames behind its call. Their sessions end while nothing moves. One that has only nothing more to send is
    still answered, once the object can be read back."""
    program = Server(words, folder, 2)
    for node in range(2):
        program.admit(node, 1, 64, 96)
    with session(folder, 0, 1) as owner, session(folder, 1, 1) as half:
        for n, offset in enumerate((0, 32, 0)):
            put(owner, ident(1, n + 1), offset, b"Held")
        await_names(Path(f"{folder}/spill/0"), ["1.1"])
        for n in (2, 3):
            ask(owner, frame(0x05, ident(1, n)), frame(0x82, numbers(20)))
        before = threads_of(program)
        for more in (b"", frame(0x11) * 10_000):
            for _ in range(10):
                with session(folder, 1, 1) as stream:
                    stream.sendall(frame(0x13, ident(1, 1)) + more)
        half.sendall(frame(0x13, ident(1, 1)))
        half.shutdown(socket.SHUT_WR)
        deadline = time.monotonic() + PATIENCE
        while threads_of(program) > before:
            assert time.monotonic() < deadline, f"{threads_of(program) - before} sessions are left whose clients have gone"
            time.sleep(0.1)
        ask(owner, frame(0x07, ident(1, 2)), frame(0x80))
        assert receive(half, 9) == frame(0x82, numbers(20)), "a client that sends nothing more isn't answered"
    reported(program, 0)


def resident(program: Server) -> float:
    """The MiB of memory that the program has."""
    return memory_of(program.pid) / 2**20


def send_many(stream: socket.socket, frames: bytes, answer: bytes, count: int) -> None:
    """These frames, so many times, and an answer to each frame."""
    for _ in range(count // 1_000):
        stream.sendall(frames * 1_000)
        got = receive(stream, len(answer) * 1_000)
        assert got == answer * 1_000, "another answer"


def what_is_kept_of_jobs_that_are_gone(words: Sequence[str], folder: str) -> None:
    """A job grants its object to 40,000 numbers that no job has, and takes it back; sessions of jobs that have ended go on sending. What the
    node keeps of them stays small, beside the journal of the job itself, which has up to 65,536 lines."""
    program = Server(words, folder)
    program.admit(0, 1, 64)
    with session(folder, 0, 1) as stream:
        put(stream, ident(1, 1), 0, b"One")
        before = resident(program)
        for first in range(20, 40_020, 100):
            grantees = range(first, first + 100)
            frames = (frame(kind, ident(1, 1) + numbers(grantee)) for grantee in grantees for kind in (0x0D, 0x0E))
            ask(stream, b"".join(frames), frame(0x80) * 200)
        taken = resident(program) - before
        assert taken < 20, f"{taken:.1f} MiB more after grants to jobs that aren't there"
    streams = []
    for job in range(2, 12):
        program.admit(0, job, 64)
        streams.append(session(folder, 0, job))
        program.end_job(0, job)
    before = resident(program)
    for stream in streams:
        send_many(stream, frame(0x11), frame(0x8F, b"\x01"), 5_000)
    taken = resident(program) - before
    assert taken < 4, f"{taken:.1f} MiB more after sessions of ended jobs went on"
    for stream in streams:
        stream.close()
    reported(program, 0)


def more_than_the_machine_has(words: Sequence[str], folder: str) -> None:
    """Nodes with more memory in all than the machine has aren't served, unless that is asked for."""
    for number in range(2, 9):
        if number * 2**34 > os.sysconf("SC_PAGE_SIZE") * os.sysconf("SC_PHYS_PAGES"):
            break
    else:
        return
    Server(words, folder, number, 2**34).refused("store: no memory: ")
    program = Server(words, folder, number, 2**34, ["--overcommit"])
    program.admit(0, 1, 64)
    reported(program, 0)


def mode_of(path: Path) -> int:
    return stat.S_IMODE(path.lstat().st_mode)


def fill_beyond_the_window(program: Server, folder: str) -> None:
    """Two objects in a window for one: the first is spilled."""
    program.admit(0, 1, 32, 64)
    with socket.socket(socket.AF_UNIX) as stream:
        enter(stream, f"{folder}/store.0", 1)
        put(stream, ident(1, 1), 0, b"One")
        put(stream, ident(1, 2), 0, b"Two")


def folders(words: Sequence[str], folder: str) -> None:
    """Spilled objects are the owner's alone, a folder is one server's, and none is left in it, by a close or by a server that was killed."""
    spill = Path(folder) / "spill/0"
    program = Server(words, folder)
    fill_beyond_the_window(program, folder)
    await_names(spill, ["1.1"])
    assert (mode_of(spill), mode_of(spill / "1.1")) == (0o700, 0o600), f"modes {mode_of(spill):o}, {mode_of(spill / '1.1'):o}"
    other = Path(folder) / "other"
    other.mkdir()
    (other / "spill").symlink_to(Path(folder) / "spill")
    Server(words, other).refused(f"store: output failed: the folder `{other}/spill/0` is used by another server")
    program.kill()
    assert spilled(spill) == ["1.1"], f"the folder has {spilled(spill)}"
    (spill / "foreign").write_text("of others")
    program = Server(words, folder)
    fill_beyond_the_window(program, folder)
    await_names(spill, ["1.1", "foreign"])
    reported(program, 0)
    assert spilled(spill) == ["foreign"], f"the folder has {spilled(spill)} after a close"
    if os.geteuid() == 0:
        os.chown(spill, 1, -1)
        Server(words, folder).refused(f"store: output failed: the folder `{spill}` is another user's")
        os.chown(spill, 0, -1)
    spill.chmod(0o755)
    Server(words, folder).refused(f"store: output failed: the folder `{spill}` is not its owner's alone")
    assert spilled(spill) == ["foreign"], f"the folder has {spilled(spill)}"


def folders_that_are_moved(words: Sequence[str], folder: str) -> None:
    """In the place of a folder that was moved nothing is written, read or removed, at the close neither. Back in its place it is used."""
    spill, away = Path(f"{folder}/spill/0"), Path(f"{folder}/away")

    def move() -> None:
        spill.rename(away)
        spill.mkdir(0o700)
        (spill / "7.1").write_bytes(b"of others")

    def have(expected: Sequence[str], moved: Sequence[str]) -> None:
        assert (spilled(spill), spilled(away)) == (expected, moved), f"the folders have {spilled(spill)} and {spilled(away)}"

    with Server(words, folder) as program:
        complaints = Complaints(program)
        program.admit(0, 7, 32, 96)
        with session(folder, 0, 7) as stream:
            put(stream, ident(7, 1), 0, b"One")
            put(stream, ident(7, 2), 0, b"Two")
            await_names(spill, ["7.1"])
            move()
            ask(stream, frame(0x13, ident(7, 1)), frame(0x8F, bytes([14])))
            complaints.tells(0, 7, 2, "write", MOVED, 0)
            have(["7.1"], ["7.1"])
            shutil.rmtree(spill)
            away.rename(spill)
            check_get(stream, ident(7, 1), b"One")
            check_get(stream, ident(7, 2), b"Two")
        left = spilled(spill)
        move()
        complaints.reported(0)
    have(["7.1"], left)


def files_that_become_pipes(words: Sequence[str], folder: str) -> None:
    """A pipe or a link in the place of a spilled object's file fails its read. So may one that comes and goes, and nobody waits for it."""
    file, kept = Path(f"{folder}/spill/0/7.1"), Path(f"{folder}/kept")
    failed, got = frame(0x8F, bytes([14])), frame(0x82, numbers(20))
    with Server(words, folder, 1) as program:
        program.admit(0, 7, 32, 64)
        with session(folder, 0, 7) as stream:
            put(stream, ident(7, 1), 0, b"One")
            put(stream, ident(7, 2), 0, b"Two")
            file.rename(kept)
            file.symlink_to(kept)
            ask(stream, frame(0x13, ident(7, 1)), failed)
            file.unlink()
            os.mkfifo(file)
            ask(stream, frame(0x13, ident(7, 1)), failed)
            answers = got_while_it_changes(stream, file, kept)
            assert answers <= {failed, got}, f"got {answers}"
            if file.is_fifo():
                exchange_names(file, kept)
            check_get(stream, ident(7, 1), b"One")
        _, said = reported_and_said(program, 0)
    assert said.startswith(f"{READY}store: node 0: job 7: work 1: read failed: {NO_FILE}\n"), f"said {said!r}"


def got_while_it_changes(stream: socket.socket, file: Path, other: Path) -> Set[bytes]:
    """The answers to Gets of two objects in turn, one of which takes the other's place, while the first one's file is another now and then."""
    over = threading.Event()

    def change() -> None:
        while not over.is_set():
            exchange_names(file, other)

    changing = threading.Thread(target=change)
    changing.start()
    try:
        return {get_and_give_up(stream, ident(7, 1 + turn % 2)) for turn in range(2 * COMING)}
    finally:
        over.set()
        changing.join()


def exchange_names(one: Path, other: Path) -> None:
    """Each has the other's name at once, so that both are always there: renameat2 with RENAME_EXCHANGE."""
    here = -100
    if C_LIBRARY.renameat2(here, os.fsencode(one), here, os.fsencode(other), 2) != 0:
        raise OSError(ctypes.get_errno(), "renameat2")


def get_and_give_up(stream: socket.socket, one: bytes) -> bytes:
    """The answer to a Get that waits. The object isn't held afterwards."""
    answer = exchange(stream, frame(0x13, one))
    if answer == frame(0x82, numbers(20)):
        ask(stream, frame(0x07, one), frame(0x80))
    return answer


def sockets_of_others(words: Sequence[str], folder: str) -> None:
    """A server removes no socket but its own: neither where a server listens, nor at its end one that took its own's place."""
    first = Server(words, folder)
    first.admit(0, 1, 64)
    other = Path(folder) / "other"
    other.mkdir()
    for number in range(2):
        (other / f"store.{number}").symlink_to(Path(folder) / f"store.{number}")
    Server(words, other).refused(f"store: socket failed: {other}/store.0: ")
    path = Path(folder) / "store.1"
    path.unlink()
    with socket.socket(socket.AF_UNIX) as second:
        second.bind(str(path))
        reported(first, 0)
    assert path.is_socket() and not (Path(folder) / "store.0").exists(), "a socket was removed that is another's, or its own was not"


@contextlib.contextmanager
def accepting_nothing(path: Path) -> Iterator[None]:
    """The socket of a server that accepts nothing, and where no connection more may wait."""
    with contextlib.ExitStack() as open_ones:
        listening = open_ones.enter_context(socket.socket(socket.AF_UNIX))
        listening.bind(str(path))
        listening.listen(0)
        with contextlib.suppress(BlockingIOError):
            while True:
                waiting = open_ones.enter_context(socket.socket(socket.AF_UNIX))
                waiting.setblocking(False)
                waiting.connect(str(path))
        yield


def sockets_where_nothing_is_accepted(words: Sequence[str], folder: str) -> None:
    """A server doesn't wait for one that is stopped, and has no room for a connection, at the socket that it would take."""
    for name, more in (("store.0", ()), ("control", ("--control", f"{folder}/control"))):
        path = Path(folder) / name
        with accepting_nothing(path), Server(words, folder, 1, more=more) as program:
            program.refused(f"store: socket failed: {path}: ")
            assert path.is_socket(), "the socket of a server was removed"
        path.unlink()


def paths_that_are_empty(words: Sequence[str], folder: str) -> None:
    """Nothing is opened if the path of the sockets, of the spill folders or of the control socket is empty."""
    paths = {"--socket": f"{folder}/store", "--spill": f"{folder}/spill", "--control": f"{folder}/control"}
    for option, fault in (("--socket", "socket failed"), ("--spill", "output failed"), ("--control", "socket failed")):
        given = [word for pair in {**paths, option: ""}.items() for word in pair]
        done = subprocess.run(
            [*words, "serve", "--nodes", "1", "--memory", "64", *given], input="", capture_output=True, text=True, timeout=PATIENCE, check=False
        )
        got = (done.stdout, done.stderr, done.returncode)
        assert got == ("", f"store: {fault}: {option} is empty\n", 1), f"{option}: got {got}"
        assert not list(Path(folder).iterdir()), f"{option}: {list(Path(folder).iterdir())} was made"


CASES = (two_jobs, spills, many_spill, devices_fail, failed_calls_are_told, failed_calls_are_told_once_a_second, nobody_is_told,
         who_is_told_reads_late, calls_without_memory_are_told, erases_slowly, fetches, many_fetch, nodes_go_apart, waits_at_the_close,
         faults, a_fault_is_told_at_once, outputs_that_do_not_wait, many_orders, clients_that_go_while_they_wait,
         what_is_kept_of_jobs_that_are_gone, more_than_the_machine_has, folders, folders_that_are_moved, files_that_become_pipes,
         sockets_of_others, sockets_where_nothing_is_accepted, paths_that_are_empty)
# those that need strace
TRACED = (calls_without_memory_are_told, erases_slowly)


def main() -> int:
    words = sys.argv[1:] or [program_or_end()]
    # no answer is waited for without end
    socket.setdefaulttimeout(PATIENCE)
    left_out = () if can_delay() else TRACED
    cases = [case for case in CASES if case not in left_out]
    for case in left_out:
        print(f"not run: {case.__name__}: strace can't delay a program here")
    failed = 0
    for case in cases:
        with tempfile.TemporaryDirectory() as folder:
            try:
                case(words, folder)
                print(f"passed: {case.__name__}")
            except (AssertionError, OSError, subprocess.TimeoutExpired) as fault:
                failed += 1
                print(f"FAILED: {case.__name__}: {fault!r}")
    print(f"{len(cases) - failed} passed, {failed} failed")
    return 1 if failed else 0


if __name__ == "__main__":
    sys.exit(main())
