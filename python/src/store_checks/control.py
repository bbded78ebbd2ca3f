"""Gives a program that serves its orders on the control socket, and compares each answer.

Starts `store serve --control`, and sends each order while sessions work; lists sessions, ends some of them, and counts what they ask and are
answered; 200 lines that are no order; lines in pieces, half, too long, and to the byte as long as they may be; 300,000 of one connection; from as
many connections as there may be, and more, for which idle ones make room. Standard input ends, or goes on beside it. The program closes while connections are idle, take no answers or take them slowly,
waits for open sessions, and ends them at `close now`: who waits is told, and who doesn't read is cut off. Whose the socket's file is, and
from when on, is looked at too. The expected answers were written by hand from the rules.
It takes the program that operate/program finds; or give the words that start another one.
"""

from __future__ import annotations

import contextlib
import ctypes
import os
import random
import socket
import stat
import struct
import subprocess
import sys
import tempfile
import threading
import time
from pathlib import Path
from typing import Dict, Iterator, List, Optional, Sequence

from store_testing import PATIENCE
from store_testing.frames import ask, frame, hello, ident, key, numbers, receive, session
from store_testing.program import program_or_end
from store_testing.server import Server, report_of
from store_testing.waiting import until

ORDERS = (
    "admit NODE JOB WINDOW DEVICE KEY, quota NODE JOB WINDOW DEVICE, end NODE JOB, jobs NODE, usage NODE JOB, sessions NODE, "
    "streams NODE, counts NODE, counts NODE JOB, kick NODE JOB SESSION, close, close now"
)
MOST_CONNECTIONS = 16
LONGEST_LINE = 4096
WRONG_LINES = 200
# far more than an operator gives
MANY_LINES = 100_000
# of the system: what a folder tells of the files in it, and how an event begins
C_LIBRARY = ctypes.CDLL(None, use_errno=True)
CREATED, MODE_CHANGED = 0x100, 0x4
EVENT = struct.Struct("iIII")


class Control:
    """A connection to the control socket."""

    def __init__(self, folder: str) -> None:
        self.stream = socket.socket(socket.AF_UNIX)
        self.stream.settimeout(PATIENCE)
        self.stream.connect(f"{folder}/control")
        self._answers = self.stream.makefile("rb")

    def __enter__(self) -> Control:
        return self

    def __exit__(self, *_: object) -> None:
        self.close()

    def close(self) -> None:
        self._answers.close()
        self.stream.close()

    def send(self, data: bytes) -> None:
        self.stream.sendall(data)

    def answer(self) -> str:
        """The next answer without its line feed; nothing at the end of the connection."""
        line = self._answers.readline()
        assert not line or line.endswith(b"\n"), f"half an answer: {line!r}"
        return line[:-1].decode()

    def tell(self, line: str, expected: str) -> None:
        self.send(line.encode() + b"\n")
        self.expect(line, expected)

    def expect(self, line: object, expected: str) -> None:
        got = self.answer()
        assert got == expected, f"{line!r}: got {got!r}, should be {expected!r}"

    def has_ended(self) -> bool:
        """What was sent and not read any more makes its end a reset."""
        try:
            return self._answers.read(1) == b""
        except ConnectionResetError:
            return True


def no_order(number: int) -> str:
    return f"line {number}: not an order: the orders are {ORDERS}"


def admit(node: int, job: int, window: int = 65536, device: int = 0) -> str:
    return f"admit {node} {job} {window} {device} {key(job).hex()}"


def serve(words: Sequence[str], folder: str, nodes: int = 2, memory: int = 1 << 20) -> Server:
    """A program that serves, with a control socket; it listens once it says so."""
    program = Server(words, folder, nodes, memory, ["--control", f"{folder}/control"])
    program.await_ready()
    return program


def finish(program: Server, printed: str = "", status: int = 0, said: str = "") -> str:
    """The program's end: the report, if there is to be one, is what is printed after this."""
    out, err, came = program.ending()
    assert (err, came) == (said, status), f"got {out!r}, {err!r}, {came}"
    assert out.startswith(printed), f"got {out!r}, should begin with {printed!r}"
    return out[len(printed) :]


def closed(program: Server, control: Control, order: str = "close", entries: Optional[int] = None, printed: str = "") -> None:
    """The program ends by this order of the connection, which is answered by a right report, the one that is printed."""
    control.send(order.encode() + b"\n")
    report = control.answer()
    assert control.has_ended(), "the connection goes on"
    assert finish(program, printed) == report + "\n", f"the answer was {report!r}"
    found, lost = report_of(report)
    assert lost == 0, f"got {report!r}"
    assert entries is None or found == entries, f"got {report!r}, should be {entries} entries"


def work(stream: socket.socket, job: int, first: int, rounds: int) -> None:
    """Sealed primaries of 20 bytes, read and deleted again."""
    for n in range(first, first + rounds):
        one = ident(job, n)
        ask(stream, frame(0x02, one + b"\0" + numbers(20)), frame(0x81, numbers(0, 32)))
        ask(stream, frame(0x03, one + numbers(0) + b"Hello"), frame(0x80))
        ask(stream, frame(0x04, one), frame(0x80))
        ask(stream, frame(0x05, one), frame(0x82, numbers(20)))
        ask(stream, frame(0x06, one + numbers(0, 20)), frame(0x83, b"Hello" + bytes(15)))
        ask(stream, frame(0x07, one), frame(0x80))
        ask(stream, frame(0x0B, one), frame(0x80))


class Working:
    """A session that works in a thread as long as it is asked to, and that has worked once it is made."""

    def __init__(self, folder: str, node: int, job: int) -> None:
        self._goes_on = True
        self._has_worked = threading.Event()
        self._faults: List[str] = []
        self._rounds = 0
        self._thread = threading.Thread(target=self._work, args=(folder, node, job))
        self._thread.start()
        self._has_worked.wait(PATIENCE)

    def _work(self, folder: str, node: int, job: int) -> None:
        try:
            with session(folder, node, job) as stream:
                while self._goes_on:
                    work(stream, job, self._rounds + 1, 1)
                    self._rounds += 1
                    self._has_worked.set()
        except (AssertionError, OSError) as fault:
            self._faults.append(f"job {job}: {fault}")

    def end(self) -> None:
        self._goes_on = False
        self._thread.join(PATIENCE)
        assert not self._faults, self._faults[0]
        assert self._rounds, "it did nothing"


def every_order(words: Sequence[str], folder: str) -> None:
    """Each order and each answer, while a session of another job works; what is only looked at makes no entry."""
    program = serve(words, folder)
    with Control(folder) as control:
        for line, expected in (
            ("jobs 0", "n0 op jobs"),
            (admit(0, 9), "n0 op ok"),
            (admit(0, 9), "n0 op refused 3 Exists"),
            (admit(0, 8), "n0 op refused 3 Exists"),
            (admit(0, 10, 0), "n0 op refused 7 BadSize"),
            (admit(0, 10, 1 << 21), "n0 op refused 21 NoRoom"),
            (admit(1, 9, 4096, 64), "n1 op ok"),
            (admit(1, 11, 32), "n1 op ok"),
            ("jobs 0", "n0 op jobs 9:65536:0"),
            ("jobs 1", "n1 op jobs 9:4096:64 11:32:0"),
            ("quota 1 11 64 128", "n1 op ok"),
            ("quota 1 12 64 128", "n1 op refused 1 NotAdmitted"),
            ("jobs 1", "n1 op jobs 9:4096:64 11:64:128"),
            ("end 1 9", "n1 op ok"),
            ("end 1 9", "n1 op refused 1 NotAdmitted"),
            ("jobs 1", "n1 op jobs 11:64:128"),
            ("usage 1 9", "n1 op refused 1 NotAdmitted"),
            ("usage 1 11", "n1 op usage 64 0 128 0 0 0"),
            ("sessions 1", "n1 op sessions 0"),
        ):
            control.tell(line, expected)
        working = Working(folder, 0, 9)
        with session(folder, 1, 11) as stream:
            control.tell("sessions 1", "n1 op sessions 1")
            ask(stream, frame(0x02, ident(11, 1) + b"\0" + numbers(20)), frame(0x81, numbers(0, 32)))
            control.tell("usage 1 11", "n1 op usage 64 32 128 0 1 0")
            control.tell("sessions 0", "n0 op sessions 1")
            for _ in range(100):
                control.tell("usage 1 11", "n1 op usage 64 32 128 0 1 0")
                control.tell("jobs 0", "n0 op jobs 9:65536:0")
        working.end()
        await_sessions(control, 1, 0)
        closed(program, control)


def await_sessions(control: Control, node: int, expected: int) -> None:
    """Waits until so many sessions are open: the end of one takes a moment."""
    end = time.monotonic() + PATIENCE
    while True:
        control.send(f"sessions {node}\n".encode())
        got = control.answer()
        if got == f"n{node} op sessions {expected}":
            return
        assert time.monotonic() < end, f"got {got!r}, should be {expected}"
        time.sleep(0.01)


def looking_makes_no_entry(words: Sequence[str], folder: str) -> None:
    """Of an admission, a Leave, the one at the session's end and a hundred looks the report counts three entries."""
    program = serve(words, folder, 1)
    with Control(folder) as control:
        control.tell(admit(0, 1, 64, 0), "n0 op ok")
        with session(folder, 0, 1) as stream:
            for _ in range(100):
                control.tell("usage 0 1", "n0 op usage 64 0 0 0 0 0")
                control.tell("jobs 0", "n0 op jobs 1:64:0")
                control.tell("sessions 0", "n0 op sessions 1")
                assert len(streams(control, 0)) == 1
                control.tell("kick 0 1 2", "n0 op no session 1 2")
            ask(stream, frame(0x12), frame(0x80))
        await_sessions(control, 0, 0)
        closed(program, control, entries=3)


def streams(control: Control, node: int) -> List[List[int]]:
    """Session, job, seconds and commands of each session that is listed, by session and job."""
    control.send(f"streams {node}\n".encode())
    start, told, listed = control.answer().partition(f"n{node} op streams")
    assert told and not start and (not listed or listed.startswith(" ")), f"got {start + told + listed!r}"
    return sorted([int(number) for number in one.split(":")] for one in listed.split())


def await_streams(control: Control, node: int, expected: Sequence[Sequence[int]]) -> None:
    """Waits until these are listed, whatever their seconds are."""
    end = time.monotonic() + PATIENCE
    while True:
        got = [(session, job, commands) for session, job, _, commands in streams(control, node)]
        if got == list(expected):
            return
        assert time.monotonic() < end, f"got {got}, should be {expected}"
        time.sleep(0.01)


def sessions_are_listed(words: Sequence[str], folder: str) -> None:
    """With their numbers, jobs, ages and commands, at their node alone, from their Hello to their end. A thousand looks make no entry."""
    program = serve(words, folder)
    with Control(folder) as control, socket.socket(socket.AF_UNIX) as silent:
        control.tell(admit(0, 1), "n0 op ok")
        control.tell(admit(0, 2), "n0 op ok")
        control.tell("streams 0", "n0 op streams")
        silent.connect(f"{folder}/store.0")
        await_sessions(control, 0, 1)
        control.tell("streams 0", "n0 op streams")
        # refused, and so not taken
        ask(silent, hello(7), frame(0x8F, bytes([1])))
        ask(silent, frame(0x12), frame(0x8F, bytes([1])))
        control.tell("streams 0", "n0 op streams")
        with session(folder, 0, 1) as first, session(folder, 0, 2) as other, session(folder, 0, 1) as second:
            await_streams(control, 0, ((1, 1, 0), (1, 2, 0), (2, 1, 0)))
            work(first, 1, 1, 1)
            ask(second, frame(0x12), frame(0x80))
            # a second Hello is no command
            ask(other, hello(2), frame(0x8F, bytes([3])))
            await_streams(control, 0, ((1, 1, 7), (1, 2, 0), (2, 1, 1)))
            control.tell("streams 1", "n1 op streams")
            time.sleep(1.1)
            assert all(1 <= seconds < PATIENCE for _, _, seconds, _ in streams(control, 0)), "ages"
            for _ in range(1000):
                streams(control, 0)
        await_sessions(control, 0, 1)
        control.tell("streams 0", "n0 op streams")
        silent.close()
        await_sessions(control, 0, 0)
        # two admissions, eight commands and three Leaves
        closed(program, control, entries=13)


def kicks(words: Sequence[str], folder: str) -> None:
    """A session that is kicked ends, at once or if it waits within seconds, and no other one; a kick makes no entry."""
    program = serve(words, folder)
    with Control(folder) as control, socket.socket(socket.AF_UNIX) as silent:
        for node in range(2):
            control.tell(admit(node, 1, 64, 96), f"n{node} op ok")
        control.tell(admit(0, 2), "n0 op ok")
        control.tell("kick 0 1 1", "n0 op no session 1 1")
        silent.connect(f"{folder}/store.0")
        await_sessions(control, 0, 1)
        # before its Hello a stream is no session: neither the one without a number, nor one of no job
        control.tell("kick 0 0 0", "n0 op no session 0 0")
        control.tell("kick 0 1 0", "n0 op no session 1 0")
        ask(silent, hello(2), frame(0x80))
        with session(folder, 0, 1) as ended, session(folder, 0, 1) as kept, session(folder, 1, 1) as waiting:
            spill_first_and_hold_others(kept)
            waiting.sendall(frame(0x13, ident(1, 1)))
            await_streams(control, 0, ((1, 1, 0), (1, 2, 0), (2, 1, 8)))
            await_streams(control, 1, ((1, 1, 1),))
            control.tell("kick 1 1 2", "n1 op no session 1 2")
            control.tell("kick 0 3 1", "n0 op no session 3 1")
            control.tell("kick 0 1 3", "n0 op no session 1 3")
            control.tell("kick 0 1 1", "n0 op kicked 1 1")
            assert ended.recv(1) == b"", "the session goes on"
            control.tell("kick 1 1 1", "n1 op kicked 1 1")
            assert waiting.recv(1) == b"", "the session that waits goes on"
            await_streams(control, 1, ())
            await_streams(control, 0, ((1, 2, 0), (2, 1, 8)))
            control.tell("kick 0 1 1", "n0 op no session 1 1")
            for stream in (kept, silent):
                ask(stream, frame(0x12), frame(0x80))
        silent.close()
        await_sessions(control, 0, 0)
        closed(program, control)


def counts(control: Control, of: str) -> Dict[str, int]:
    """What `counts` shows of a node, or of a job there, by name."""
    control.send(f"counts {of}\n".encode())
    node, _, job = of.partition(" ")
    start, told, counted = control.answer().partition(f"n{node} op counts{' ' + job if job else ''}")
    assert told and not start and (not counted or counted.startswith(" ")), f"got {start + told + counted!r}"
    pairs = [one.split(":") for one in counted.split()]
    found = {name: int(number) for name, number in pairs}
    assert len(found) == len(pairs), f"a name twice: {counted}"
    return found


def await_counts(control: Control, of: str, expected: Dict[str, int]) -> None:
    """Waits until these are the counts of a node, or of a job there; those of locks may be any."""
    end = time.monotonic() + PATIENCE
    while True:
        got = {name: number for name, number in counts(control, of).items() if not name.startswith("lock-")}
        if got == expected:
            return
        assert time.monotonic() < end, f"{of}: got {got}, should be {expected}"
        time.sleep(0.01)


def sessions_are_counted(words: Sequence[str], folder: str) -> None:
    """What a job's sessions ask and are answered at a node, and Hellos and sessions that are no frames; of no other job or node. What was
    counted stays if a session ends, and is gone with the job."""
    program = serve(words, folder)
    with Control(folder) as control:
        control.tell("counts 0 1", "n0 op refused 1 NotAdmitted")
        for job in (1, 2):
            control.tell(admit(0, job), "n0 op ok")
            control.tell(f"counts 0 {job}", f"n0 op counts {job}")
        assert list(counts(control, "0")) == ["hellos", "hellos-refused", "malformed", "lock-waits", "lock-sleeps", "end-folds"]
        with session(folder, 0, 1) as stream, session(folder, 0, 1) as second:
            work(stream, 1, 1, 2)
            due = {"create": 2, "write": 2, "seal": 2, "get": 2, "read": 2, "release": 2, "delete": 2, "bytes-in": 10, "bytes-out": 40, "removals": 2}
            await_counts(control, "0 1", due)
            ask(second, frame(0x04, ident(1, 9)), frame(0x8F, bytes([4])))
            ask(second, frame(0x07, ident(1, 9)), frame(0x8F, bytes([4])))
            ask(second, frame(0x05, ident(2, 9)), frame(0x8F, bytes([13])))
            ask(second, frame(0x12), frame(0x80))
            due.update({"seal": 3, "release": 3, "get": 3, "leave": 1, "refused.4": 2, "refused.13": 1})
            await_counts(control, "0 1", due)
        await_sessions(control, 0, 0)
        await_counts(control, "0 1", due)
        control.tell("counts 0 2", "n0 op counts 2")
        with socket.socket(socket.AF_UNIX) as stranger:
            stranger.connect(f"{folder}/store.0")
            ask(stranger, hello(1, bytes(32)), frame(0x8F, bytes([1])))
            # nothing is counted of a session that hasn't entered
            ask(stranger, frame(0x12), frame(0x8F, bytes([1])))
            ask(stranger, frame(0x7F), frame(0x8F, bytes([20])))
        await_sessions(control, 0, 0)
        sessions = {"hellos": 2, "hellos-refused": 1, "malformed": 1}
        await_counts(control, "0", {**sessions, "end-folds": 0})
        await_counts(control, "0 1", due)
        control.tell("end 0 3", "n0 op refused 1 NotAdmitted")
        control.tell("end 0 1", "n0 op ok")
        control.tell("counts 0 1", "n0 op refused 1 NotAdmitted")
        await_counts(control, "0", {**sessions, "end-folds": 1})
        await_counts(control, "1", {"hellos": 0, "hellos-refused": 0, "malformed": 0, "end-folds": 0})
        # two admissions, 14 commands of the first session and 4 of the second, their Leaves, and two ends, of which one was refused
        closed(program, control, entries=24)


def transfers_are_counted(words: Sequence[str], folder: str) -> None:
    """A spill and the restore that follows it; what a fetch asks of the other node, and what arrives of it."""
    program = serve(words, folder)
    with Control(folder) as control:
        for node in range(2):
            control.tell(admit(node, 1, 64, 96), f"n{node} op ok")
        with session(folder, 0, 1) as stream, session(folder, 1, 1) as other:
            spill_first_and_hold_others(stream)
            await_counts(control, "0 1", {"create-wait": 3, "seal": 3, "get": 2, "spills": 1})
            ask(stream, frame(0x07, ident(1, 2)), frame(0x80))
            ask(stream, frame(0x13, ident(1, 1)), frame(0x82, numbers(20)))
            due = {"create-wait": 3, "seal": 3, "get": 2, "release": 1, "get-wait": 1, "spills": 2, "restores": 1}
            await_counts(control, "0 1", due)
            ask(other, frame(0x13, ident(1, 3)), frame(0x82, numbers(20)))
            # the directory says where the object is and how long, and its one chunk is asked for
            await_counts(control, "1 1", {"get-wait": 1, "pulls": 1, "arrivals": 2, "locates": 1, "fetched": 1})
            await_counts(control, "0 1", {**due, "arrivals": 1, "chunks-sent": 1})
        await_sessions(control, 0, 0)
        await_sessions(control, 1, 0)
        closed(program, control)


def removals_are_counted(words: Sequence[str], folder: str) -> None:
    """Secondaries that go since a Create needs their room; and what goes by Deletes and the end of a task, if it was sealed."""
    program = serve(words, folder)
    with Control(folder) as control:
        control.tell(admit(0, 1, 64, 64), "n0 op ok")
        with session(folder, 0, 1) as stream:
            for n, offset in enumerate((0, 16, 32, 48), 1):
                seal_at(stream, n, 16, offset, b"\1")
            due = {"create": 4, "seal": 4}
            await_counts(control, "0 1", due)
            # the least recently used ones go, as many as it takes
            ask(stream, frame(0x02, ident(1, 5) + b"\0" + numbers(40)), frame(0x81, numbers(0, 48)))
            due.update({"create": 5, "evictions": 3})
            await_counts(control, "0 1", due)
            ask(stream, frame(0x0B, ident(1, 4)), frame(0x80))
            # one that isn't sealed is known nowhere
            ask(stream, frame(0x0B, ident(1, 5)), frame(0x80))
            due.update({"delete": 2, "removals": 1})
            await_counts(control, "0 1", due)
            for n, offset in enumerate((0, 16), 6):
                seal_at(stream, n, 16, offset, b"\0")
            seal_at(stream, 8, 16, 32, b"\1")
            ask(stream, frame(0x0C, ident(1, 1)[:20]), frame(0x80))
            due.update({"create": 8, "seal": 7, "endtask": 1, "removals": 4})
            await_counts(control, "0 1", due)
        await_sessions(control, 0, 0)
        closed(program, control)


def seal_at(stream: socket.socket, n: int, length: int, offset: int, kind: bytes) -> None:
    """A sealed copy of this kind, which lies there."""
    ask(stream, frame(0x02, ident(1, n) + kind + numbers(length)), frame(0x81, numbers(offset, length)))
    ask(stream, frame(0x04, ident(1, n)), frame(0x80))


def fetches_are_counted(words: Sequence[str], folder: str) -> None:
    """By stages, at both nodes: of three chunks, of one whose place is made and that goes again, and of one whose source has it no more."""
    program = serve(words, folder)
    with Control(folder) as control:
        control.tell(admit(0, 1, 262144), "n0 op ok")
        control.tell(admit(1, 1, 163840), "n1 op ok")
        with session(folder, 0, 1) as stream, session(folder, 1, 1) as other:
            seal_at(stream, 1, 163840, 0, b"\0")
            seal_at(stream, 2, 32, 163840, b"\0")
            ask(other, frame(0x13, ident(1, 1)), frame(0x82, numbers(163840)))
            due = {"get-wait": 1, "pulls": 1, "arrivals": 4, "locates": 1, "fetched": 1}
            await_counts(control, "1 1", due)
            sent = {"create": 2, "seal": 2, "arrivals": 1, "chunks-sent": 3}
            await_counts(control, "0 1", sent)
            # it makes room for another one, which is deleted here
            ask(other, frame(0x07, ident(1, 1)), frame(0x80))
            ask(other, frame(0x13, ident(1, 2)), frame(0x82, numbers(32)))
            ask(other, frame(0x07, ident(1, 2)), frame(0x80))
            ask(other, frame(0x0B, ident(1, 2)), frame(0x80))
            due.update({"get-wait": 2, "release": 2, "delete": 1, "pulls": 2, "arrivals": 6, "locates": 2, "fetched": 2, "evictions": 1})
            await_counts(control, "1 1", {**due, "removals": 1})
            sent.update({"arrivals": 2, "chunks-sent": 4})
            await_counts(control, "0 1", sent)
            lose_source(stream, other)
            await_counts(control, "0 1", {**sent, "delete": 1, "arrivals": 3, "not-here": 1, "removals": 1})
            due.update({"create": 1, "get": 3, "refused.9": 1, "refused.10": 2, "delete": 2, "pulls": 3, "arrivals": 8, "locates": 3})
            await_counts(control, "1 1", {**due, "removals": 1, "sources-gone": 1})
        for node in range(2):
            await_sessions(control, node, 0)
        closed(program, control)


def room_for_other_nodes_is_counted(words: Sequence[str], folder: str) -> None:
    """Of two secondaries one goes, since a spilled primary is read back for another node. That it had lost its place before isn't counted."""
    program = serve(words, folder)
    with Control(folder) as control:
        for node in range(2):
            control.tell(admit(node, 1, 64, 64), f"n{node} op ok")
        with session(folder, 0, 1) as stream, session(folder, 1, 1) as other:
            seal_at(stream, 1, 32, 0, b"\0")
            seal_at(stream, 2, 32, 32, b"\0")
            ask(stream, frame(0x14, ident(1, 3) + b"\0" + numbers(32)), frame(0x81, numbers(0, 32)))
            for n in (2, 3):
                ask(stream, frame(0x0B, ident(1, n)), frame(0x80))
            seal_at(stream, 4, 32, 0, b"\1")
            seal_at(stream, 5, 32, 32, b"\1")
            await_counts(control, "0 1", {"create": 4, "seal": 4, "create-wait": 1, "delete": 2, "spills": 1, "removals": 1})
            ask(other, frame(0x13, ident(1, 1)), frame(0x82, numbers(32)))
            # chunks are asked for again every two seconds, once more or twice
            found = counts(control, "0 1")
            assert (found["evictions"], found["restores"], found["removals"]) == (1, 1, 1), f"got {found}"
        for node in range(2):
            await_sessions(control, node, 0)
        closed(program, control)


def lose_source(stream: socket.socket, other: socket.socket) -> None:
    """The first object is located, and waits for room until its source has deleted it."""
    refused_full, pending = frame(0x8F, bytes([9])), frame(0x8F, bytes([10]))
    ask(other, frame(0x02, ident(1, 9) + b"\0" + numbers(163840)), frame(0x81, numbers(0, 163840)))
    ask(other, frame(0x05, ident(1, 1)), pending)
    ask(other, frame(0x05, ident(1, 1)), refused_full)
    ask(stream, frame(0x0B, ident(1, 1)), frame(0x80))
    ask(other, frame(0x0B, ident(1, 9)), frame(0x80))
    ask(other, frame(0x05, ident(1, 1)), pending)


def spill_first_and_hold_others(stream: socket.socket) -> None:
    """Three objects in a window of two: while the last two are held, there is no room to read the first one back."""
    for n, offset in enumerate((0, 32, 0), 1):
        ask(stream, frame(0x14, ident(1, n) + b"\0" + numbers(20)), frame(0x81, numbers(offset, 32)))
        ask(stream, frame(0x04, ident(1, n)), frame(0x80))
    for n in (2, 3):
        ask(stream, frame(0x05, ident(1, n)), frame(0x82, numbers(20)))


def wrong_lines() -> List[bytes]:
    """Lines of many kinds that are no order of two nodes."""
    right = admit(0, 5)
    lines = [b" ", b"\t", b"\r", b"\0", b"help", b"status", b"quit", b"Close", b"CLOSE", b" close", b"close ", b"close now ", b"close  now"]
    lines += [b"close\r", b"closenow", b"close then", b"now", b"jobs", b"jobs ", b"jobs  0", b"jobs 2", b"jobs 00", b"jobs -1", b"jobs 0 ", b"jobs 0 1"]
    lines += [b"usage", b"usage 0", b"usage 2 1", b"usage 0 x", b"usage 0 1 2", b"usage 0 4294967296", b"usage 0 01", b"sessions", b"sessions 2"]
    lines += [b"streams", b"streams 2", b"streams 0 0", b"stream 0", b"Streams 0", b"streams 00", b"streams 0 ", b"counts", b"counts 2", b"counts 0 x", b"counts 0 1 1", b"counts 0  1", b"count 0", b"kick", b"kick 0", b"kick 0 1"]
    lines += [b"kick 2 1 1", b"kick 0 1 1 1", b"kick 0 1 x", b"kick 0 x 1", b"kick 0 1 01", b"kick 0 1 4294967296", b"kick 0  1 1", b"kick 0 1 1 now"]
    lines += [b"sessions 0 0", b"session 0", b"Jobs 0", b"take 0", b"cmd 0 5 1 list", b"deliver 5 0 1 1", b"finish 0 5 1 ok", b"list", b"report"]
    lines += [b"\xff\xfe", b"jobs \xc3\x28", "jobs ０".encode(), b"\xe2\x80\xa8", b"admitt 0 5 64 0", right[:-1].encode(), (right + "0").encode()]
    lines += [right.upper().encode(), (right[:-1] + "G").encode(), admit(2, 5).encode(), b"admit 0 5 64 0", b"admit 0 5 64 0 -"]
    lines += [f"admit 0 5 64 0 {'AB' * 32}".encode(), b"admit 0 5 1MiB 0 " + b"ab" * 32, b"quota 0 5 64", b"quota 0 5 64 0 0", b"quota 0 5 0x40 0"]
    lines += [b"end", b"end 0", b"end 0 5 5", b"end 0 5 now", b"end 3 5", b"x" * LONGEST_LINE, b"x" * (LONGEST_LINE + 1), b"#" * (LONGEST_LINE + 1)]
    lines += [b"y" * 100_000, right.encode() + b" " * LONGEST_LINE]
    chance = random.Random(1)
    while len(lines) < WRONG_LINES:
        cut = chance.randrange(len(right))
        wrong = bytearray(right.encode())
        wrong[cut] = chance.choice(b"\x01\x7f\x80\xff:;_~")
        lines.append(bytes(wrong))
    return lines


def two_hundred_wrong_lines(words: Sequence[str], folder: str) -> None:
    """Each is answered so, with its number, in which skipped lines count; nothing else happens, and sessions work on."""
    program = serve(words, folder)
    with Control(folder) as control:
        control.tell(admit(0, 1), "n0 op ok")
        working = Working(folder, 0, 1)
        number = 1
        for count, line in enumerate(wrong_lines()):
            control.send(line + b"\n")
            number += 1
            control.expect(line[:50], no_order(number))
            if count % 10 == 0:
                control.send(b"\n# a comment\n#\n" + b"#" * LONGEST_LINE + b"\n")
                number += 4
        control.tell("jobs 0", "n0 op jobs 1:65536:0")
        control.tell("jobs 1", "n1 op jobs")
        control.tell("what", no_order(number + 3))
        working.end()
        await_sessions(control, 0, 0)
        closed(program, control)


def pieces(words: Sequence[str], folder: str) -> None:
    """A line that comes byte by byte, many that come at once, half a line at the end, and one that is as long as it may be."""
    program = serve(words, folder, 1)
    with Control(folder) as control:
        for byte in admit(0, 1).encode() + b"\n":
            control.send(bytes([byte]))
        control.expect("byte by byte", "n0 op ok")
        control.send(b"jobs 0\n" * 500 + b"wrong\n\n" + b"sessions 0\n")
        for _ in range(500):
            control.expect("many", "n0 op jobs 1:65536:0")
        control.expect("wrong", no_order(502))
        control.expect("sessions 0", "n0 op sessions 0")
        # no line feed: it is never carried out
        control.send(b"end 0 1")
        control.stream.shutdown(socket.SHUT_WR)
        assert control.has_ended(), "half a line was answered"
    with Control(folder) as control:
        control.send(b"x" * 1_000_000)
        control.stream.shutdown(socket.SHUT_WR)
        assert control.has_ended(), "half a line that is too long was answered"
    with Control(folder) as control:
        control.send(b"#" + b" " * (LONGEST_LINE - 1) + b"\n")
        control.tell("jobs 0", "n0 op jobs 1:65536:0")
        closed(program, control, entries=1)


def many_lines(words: Sequence[str], folder: str) -> None:
    """A connection doesn't end early, however many lines come, and however often it is read. First each line is sent after the answer to the one
    before, so that it comes to a read of its own; then most have no answer; then all come at once. Afterwards orders are still carried out."""
    with serve(words, folder, 1) as program, Control(folder) as control:
        control.tell(admit(0, 1, 64), "n0 op ok")
        for device in range(MANY_LINES // 2):
            control.tell(f"quota 0 1 64 {device}", "n0 op ok")
            control.tell("usage 0 1", f"n0 op usage 64 0 {device} 0 0 0")
        sent = 1 + MANY_LINES
        for _ in range(10):
            control.send(b"\n# a comment\n" * (MANY_LINES // 20))
            sent += MANY_LINES // 10 + 1
            control.tell("what", no_order(sent))
        # the answers are read meanwhile: a connection that takes none for five seconds ends
        writer = threading.Thread(target=control.send, args=(b"usage 0 1\nwhat\n" * (MANY_LINES // 2),))
        writer.start()
        for _ in range(MANY_LINES // 2):
            sent += 2
            control.expect("usage 0 1", f"n0 op usage 64 0 {device} 0 0 0")
            control.expect("what", no_order(sent))
        writer.join()
        with session(folder, 0, 1):
            control.tell("sessions 0", "n0 op sessions 1")
        await_sessions(control, 0, 0)
        control.tell("end 0 1", "n0 op ok")
        # of the session the Leave at its end
        closed(program, control, entries=1 + MANY_LINES // 2 + 2)


def many_connections(words: Sequence[str], folder: str) -> None:
    """As many as there may be, at the same time, each with its own numbers of lines; one more has a place, also once another one has
    ended."""
    program = serve(words, folder)
    controls = [Control(folder) for _ in range(MOST_CONNECTIONS)]
    faults: List[Exception] = []

    def talk(place: int, control: Control) -> None:
        try:
            for n in range(100):
                job = 1 + n * MOST_CONNECTIONS + place
                control.send(admit(place % 2, job, 16).encode() + b"\n")
                assert control.answer().startswith(f"n{place % 2} op "), "another one's answer"
                control.tell("sessions 0", "n0 op sessions 0")
                control.tell(f"line {n}", no_order(3 * n + 3))
        except (AssertionError, OSError) as fault:
            faults.append(fault)

    threads = [threading.Thread(target=talk, args=pair) for pair in enumerate(controls)]
    for thread in threads:
        thread.start()
    for thread in threads:
        thread.join(PATIENCE)
    assert not faults, faults[0]
    controls.pop().close()
    for _ in range(2):
        controls.append(Control(folder))
        controls[-1].tell("sessions 0", "n0 op sessions 0")
    closed(program, controls[-1])
    for control in controls[:-1]:
        assert control.has_ended(), "a connection outlasts the program"
        control.close()


def await_rest(program: Server) -> None:
    """Waits until all threads of the program sleep, at two looks in turn: none has anything left to do."""
    until(lambda: is_at_rest(program) and is_at_rest(program), "threads that rest")


def is_at_rest(program: Server) -> bool:
    for thread in Path(f"/proc/{program.pid}/task").glob("*/stat"):
        # one that has ended by now is at rest
        with contextlib.suppress(OSError):
            if thread.read_text().rpartition(")")[2].split()[0] != "S":
                return False
    return True


class Rested:
    """Connections at a program, each of which is at rest before the next one speaks."""

    def __init__(self, program: Server, folder: str) -> None:
        self._program, self._folder = program, folder

    def speak(self, control: Control) -> None:
        control.tell("sessions 1", "n1 op sessions 0")
        await_rest(self._program)

    def begin(self) -> Control:
        control = Control(self._folder)
        self.speak(control)
        return control


def idle_ones_make_room(words: Sequence[str], folder: str) -> None:
    """Connections that say nothing keep no other one out: the one that has been idle for longest makes room, whenever it came, and the
    half line that it sent is never carried out. One that waits for the report isn't idle."""
    program = serve(words, folder)
    rested = Rested(program, folder)
    first, half, waiting = (rested.begin() for _ in range(3))
    first.tell(admit(0, 1), "n0 op ok")
    half.send(b"end 0 1")
    await_rest(program)
    with session(folder, 0, 1):
        waiting.send(b"close\n")
        idle = [rested.begin() for _ in range(MOST_CONNECTIONS - 3)]
        rested.speak(first)
        later = [rested.begin()]
        assert half.has_ended(), "another one made room"
        later[0].tell("jobs 0", "n0 op jobs 1:65536:0")
        rested.speak(idle[0])
        for control in (*idle[1:], first):
            later.append(rested.begin())
            assert control.has_ended(), "another one made room"
        for control in (*later, idle[0]):
            rested.speak(control)
        later[0].send(b"close now\n")
        report = waiting.answer()
    assert later[0].answer() == report
    assert finish(program) == report + "\n"
    report_of(report)
    for control in (first, half, waiting, *idle, *later):
        control.close()


def none_is_idle(words: Sequence[str], folder: str) -> None:
    """One more than there may be is closed at once if all others wait for the report."""
    program = serve(words, folder)
    rested = Rested(program, folder)
    controls = [rested.begin() for _ in range(MOST_CONNECTIONS)]
    controls[0].tell(admit(0, 1), "n0 op ok")
    with session(folder, 0, 1):
        for control in controls:
            control.send(b"close\n")
        await_rest(program)
        with Control(folder) as over:
            assert over.has_ended(), "one more than there may be is served"
    reports = {control.answer() for control in controls}
    assert len(reports) == 1, f"got {reports}"
    assert finish(program) == f"{reports.pop()}\n"
    for control in controls:
        control.close()


def input_that_ends(words: Sequence[str], folder: str) -> None:
    """The end of standard input closes nothing; before it its lines are carried out too, and its answers printed."""
    program = serve(words, folder)
    program.tell(admit(0, 1, 64), "n0 op ok")
    with Control(folder) as control:
        control.tell("jobs 0", "n0 op jobs 1:64:0")
        program.end_input()
        # nothing tells that it was seen
        time.sleep(0.3)
        control.tell(admit(0, 2, 64), "n0 op ok")
        with session(folder, 0, 2):
            control.tell("sessions 0", "n0 op sessions 1")
        await_sessions(control, 0, 0)
        closed(program, control)


def wrong_input(words: Sequence[str], folder: str) -> None:
    """A wrong line on standard input still ends the server, also for who waits for the report."""
    program = serve(words, folder)
    with Control(folder) as idle, Control(folder) as control:
        control.tell("jobs 0", "n0 op jobs")
        program.send("jobs 0")
        assert finish(program, status=1, said="store: line 1: not a step\n") == ""
        assert idle.has_ended() and control.has_ended()
    program = serve(words, folder)
    with Control(folder) as control:
        control.tell(admit(0, 1), "n0 op ok")
        with session(folder, 0, 1):
            program.send("")
            assert program.line() == "store: line 1: not a step\n"
            control.send(b"close\n")
            # the fault waits for the session; the order that came after it is answered
            time.sleep(0.2)
        assert control.answer() == "not done: a fault ends the server"
        assert control.has_ended()
        assert finish(program, status=1) == ""


def closes_by_standard_input(words: Sequence[str], folder: str) -> None:
    """`close` on standard input ends it while connections are idle, and while one takes no answers."""
    program = serve(words, folder)
    with Control(folder) as idle, Control(folder) as deaf, Control(folder) as half:
        half.send(b"jobs")
        deaf.stream.setblocking(False)
        try:
            while True:
                deaf.stream.send(b"help\n" * 1000)
        except BlockingIOError:
            pass
        begun = time.monotonic()
        program.send("close")
        report_of(finish(program))
        assert time.monotonic() - begun < 30, "it waited for who takes no answers"
        assert idle.has_ended() and half.has_ended()
    assert not Path(f"{folder}/control").exists(), "the socket is left"


class Sipping:
    """Takes a few bytes of a connection's answers now and then, in a thread."""

    def __init__(self, control: Control) -> None:
        self._control = control
        self._goes_on = True
        self._thread = threading.Thread(target=self._sip)
        self._thread.start()

    def _sip(self) -> None:
        with contextlib.suppress(OSError):
            while self._goes_on and self._control.stream.recv(300):
                time.sleep(0.5)

    def end(self) -> None:
        self._goes_on = False
        self._thread.join(PATIENCE)


def close_now_at_a_slow_reader(words: Sequence[str], folder: str) -> None:
    """`close now` waits for nobody who has sent much and takes the answers slowly: such a connection is cut off."""
    program = serve(words, folder, 1)
    with Control(folder) as slow, Control(folder) as control:
        slow.stream.setblocking(False)
        with contextlib.suppress(BlockingIOError):
            while True:
                slow.stream.send(b"help\n" * 1000)
        slow.stream.settimeout(PATIENCE)
        sipping = Sipping(slow)
        try:
            closed(program, control, "close now", entries=0)
        finally:
            sipping.end()


def close_waits(words: Sequence[str], folder: str) -> None:
    """`close` waits for an open session, which goes on; no other begins. Orders are still carried out. `close now` then ends it, and
    both are told the same report."""
    program = serve(words, folder)
    with Control(folder) as first, Control(folder) as second:
        first.tell(admit(0, 1), "n0 op ok")
        with session(folder, 0, 1) as stream:
            first.send(b"close\n")
            await_no_listener(f"{folder}/store.0")
            work(stream, 1, 1, 20)
            second.tell("sessions 0", "n0 op sessions 1")
            second.tell("usage 0 1", "n0 op usage 65536 0 0 0 0 0")
            second.tell("quota 0 1 64 0", "n0 op ok")
            second.send(b"close now\n")
            reports = [first.answer(), second.answer()]
            assert stream.recv(1) == b"", "the session goes on"
        assert reports[0] == reports[1], f"got {reports}"
        assert first.has_ended() and second.has_ended()
    assert finish(program) == reports[0] + "\n"
    report_of(reports[0])


def await_no_listener(path: str) -> None:
    """Waits until nobody can connect to the path any more."""
    end = time.monotonic() + PATIENCE
    while time.monotonic() < end:
        with socket.socket(socket.AF_UNIX) as stream:
            try:
                stream.connect(path)
            except OSError:
                return
        time.sleep(0.01)
    raise AssertionError(f"{path} still listens")


def put(stream: socket.socket, one: bytes, offset: int) -> None:
    stream.sendall(frame(0x14, one + b"\0" + numbers(20)))
    assert receive(stream, 13) == frame(0x81, numbers(offset, 32)), "no room"
    ask(stream, frame(0x03, one + numbers(0) + b"Held".ljust(20)), frame(0x80))
    ask(stream, frame(0x04, one), frame(0x80))


def close_now(words: Sequence[str], folder: str) -> None:
    """Sessions that are open are ended: those that wait, for an object that its node can't read back, are told that it is pending; an
    idle one's stream is shut; one that reads no answers is cut off. The report is right, and nothing is left."""
    program = serve(words, folder)
    with Control(folder) as control:
        for node in range(2):
            control.tell(admit(node, 1, 64, 96), f"n{node} op ok")
        with session(folder, 0, 1) as owner, session(folder, 1, 1) as first, session(folder, 1, 1) as second, session(folder, 0, 1) as deaf:
            for n, offset in enumerate((0, 32, 0)):
                put(owner, ident(1, n + 1), offset)
            await_spilled(Path(f"{folder}/spill/0"))
            for n in (2, 3):
                ask(owner, frame(0x05, ident(1, n)), frame(0x82, numbers(20)))
            for stream in (first, second):
                stream.sendall(frame(0x13, ident(1, 1)))
            deaf.setblocking(False)
            try:
                while True:
                    deaf.send(frame(0x10) * 1000)
            except BlockingIOError:
                pass
            control.tell("sessions 0", "n0 op sessions 2")
            control.tell("sessions 1", "n1 op sessions 2")
            begun = time.monotonic()
            control.send(b"close now\n")
            for stream in (first, second):
                assert receive(stream, 6) == frame(0x8F, bytes([10])), "no answer at the close"
                assert stream.recv(1) == b"", "the session goes on"
            assert owner.recv(1) == b"", "the idle session goes on"
            report = control.answer()
            taken = time.monotonic() - begun
            assert taken < 10, f"{taken:.1f} s until the report"
        assert control.has_ended()
    assert finish(program) == report + "\n"
    report_of(report)
    left = [path.name for path in Path(folder).rglob("*") if not path.is_dir()]
    assert left == [], f"left are {left}"


def await_spilled(folder: Path) -> None:
    end = time.monotonic() + PATIENCE
    while sorted(path.name for path in folder.iterdir()) != ["1.1"]:
        assert time.monotonic() < end, "nothing was spilled"
        time.sleep(0.01)


def close_now_of_many(words: Sequence[str], folder: str) -> None:
    """Two hundred sessions that are idle, or in the midst of a frame, are ended at once."""
    program = serve(words, folder)
    with Control(folder) as control:
        control.tell(admit(0, 1), "n0 op ok")
        streams = [session(folder, 0, 1) for _ in range(200)]
        for stream in streams[::2]:
            stream.sendall(frame(0x10)[:3])
        control.tell("sessions 0", "n0 op sessions 200")
        begun = time.monotonic()
        closed(program, control, "close now")
        assert time.monotonic() - begun < 20
        for stream in streams:
            assert stream.recv(1) == b"", "a session goes on"
            stream.close()


@contextlib.contextmanager
def watched(folder: str) -> Iterator[int]:
    """Tells of files that are made in the folder, and of their modes that change."""
    telling = C_LIBRARY.inotify_init()
    try:
        assert C_LIBRARY.inotify_add_watch(telling, folder.encode(), CREATED | MODE_CHANGED) >= 0, os.strerror(ctypes.get_errno())
        yield telling
    finally:
        os.close(telling)


def told_of(telling: int, name: str) -> List[int]:
    """What was told of the file of this name."""
    events, found, at = os.read(telling, 1 << 16), [], 0
    while at < len(events):
        _, kind, _, length = EVENT.unpack_from(events, at)
        at += EVENT.size + length
        if events[at - length : at].rstrip(b"\0") == name.encode():
            found.append(kind)
    return found


def mode_from_the_start(words: Sequence[str], folder: str) -> None:
    """The control socket is its owner's alone as soon as it is there, though the umask takes nothing away: its mode is never changed."""
    before = os.umask(0)
    try:
        with watched(folder) as telling:
            program = serve(words, folder)
            told = told_of(telling, "control")
    finally:
        os.umask(before)
    mode = stat.S_IMODE(os.lstat(f"{folder}/control").st_mode)
    assert (told, mode) == ([CREATED], 0o600), f"told {told}, mode {mode:o}"
    with Control(folder) as control:
        closed(program, control)


def whose_socket(words: Sequence[str], folder: str) -> None:
    """The socket is its owner's alone; one that was left is removed; one that is served, and any other file, isn't. At the end it is removed
    if it is still the server's own."""
    path = Path(folder) / "control"
    with socket.socket(socket.AF_UNIX) as stale:
        stale.bind(str(path))
    program = serve(words, folder)
    assert stat.S_IMODE(path.lstat().st_mode) == 0o600, f"mode {stat.S_IMODE(path.lstat().st_mode):o}"
    other = Path(folder) / "other"
    other.mkdir()
    again = Server(words, other, 2, 65536, ["--control", str(path)])
    again.refused(f"store: socket failed: {path}: ")
    assert not (other / "store.0").exists(), "a socket is left of who didn't serve"
    with Control(folder) as control:
        closed(program, control)
    assert not path.exists(), "the socket is left"
    path.write_text("of others")
    Server(words, other, 2, 65536, ["--control", str(path)]).refused(f"store: socket failed: {path}: ")
    assert path.read_text() == "of others"
    path.unlink()
    program = serve(words, folder)
    with Control(folder) as control:
        path.unlink()
        path.write_text("of others")
        closed(program, control)
    assert path.read_text() == "of others"


CASES = (every_order, looking_makes_no_entry, sessions_are_listed, kicks, sessions_are_counted, transfers_are_counted, removals_are_counted, fetches_are_counted, room_for_other_nodes_is_counted, two_hundred_wrong_lines, pieces, many_lines, many_connections, idle_ones_make_room,
         none_is_idle, input_that_ends, wrong_input, closes_by_standard_input, close_waits, close_now, close_now_of_many,
         close_now_at_a_slow_reader, whose_socket, mode_from_the_start)


def main() -> int:
    words = sys.argv[1:] or [program_or_end()]
    # no answer is waited for without end
    socket.setdefaulttimeout(PATIENCE)
    failed = 0
    for case in CASES:
        with tempfile.TemporaryDirectory() as folder:
            try:
                case(words, folder)
                print(f"passed: {case.__name__}", flush=True)
            except (AssertionError, OSError, subprocess.TimeoutExpired) as fault:
                failed += 1
                print(f"FAILED: {case.__name__}: {fault!r}", flush=True)
    print(f"{len(CASES) - failed} passed, {failed} failed")
    return 1 if failed else 0


if __name__ == "__main__":
    sys.exit(main())
