"""Growths of memory refused in turn at a program that serves, while sessions of two jobs work at a shared node.

In round N the N-th piece of memory is refused that the program asks for after the round has begun, for N = 1, 2, 3 and so on, until as many
rounds in a row as there are at most threads of the node have met none (growths.c, which is preloaded, refuses it). A round makes an object,
grants it, has it spilled by another one and read back, and deletes both. What a refused growth may do:

- nothing;
- a command is answered `19 NoMemory`. It has changed nothing: tried again, it is answered as ever;
- a device call fails without memory. The command that waits for the spill or the restore is answered `14 DeviceFailed`, and tried again, it is
  answered as ever;
- a session ends. What the job has is deleted by another session, and nothing of the round is left.

After each round both jobs use nothing. At the end the program's report is right: each entry has its receipt, and no receipt disagrees. Of the
messages that were lost and of the files that weren't erased there are no more than growths that were refused. All else is a failure, and shown. The program is the one that operate/program finds. A C compiler is needed.
"""

from __future__ import annotations

import os
import shutil
import signal
import socket
import struct
import sys
import tempfile
from collections import Counter
from pathlib import Path
from typing import Dict, List, NamedTuple

from store_testing.frames import exchange, frame, hello, ident, numbers
from store_testing.program import program_or_end
from store_testing.server import Server

from .growths import REFUSED, compiled

# the longest that a round can be, in growths, before something is wrong with the test itself
MOST_ROUNDS = 2000
# so many rounds in a row without a refused growth are the end: what threads beside the sessions ask for varies by a few
QUIET_ROUNDS = 5
OWNER, READER = 1, 2
# room for one of the two objects of a round alone
WINDOW, DEVICE, LENGTH, EXTENT = 48, 4096, 40, 48
OK = frame(0x80)
PLACED = frame(0x81, numbers(0, EXTENT))
GOT = frame(0x82, numbers(LENGTH))
NO_MEMORY = frame(0x8F, bytes([19]))
DEVICE_FAILED = frame(0x8F, bytes([14]))
ABSENT = frame(0x8F, bytes([4]))
TEXT = b"a page that was written once and is read often"[:LENGTH].ljust(LENGTH)
BYTES = frame(0x83, TEXT)


class Step(NamedTuple):
    """A command of a job, and the frame that is due."""

    job: int
    sent: bytes
    due: bytes


def usage(window: int) -> bytes:
    """What is told of a job that has nothing: its window, its device and its numbers, of which nothing is used."""
    return frame(0x85, struct.pack(">6Q", window, 0, DEVICE, 0, 0, 0))


class Ended(Exception):
    """A session ended."""


def steps(one: bytes, other: bytes) -> List[Step]:
    """Those of a round."""
    whole = numbers(0, LENGTH)
    return [
        Step(OWNER, frame(0x02, one + b"\0" + numbers(LENGTH)), PLACED),
        Step(OWNER, frame(0x03, one + numbers(0) + TEXT), OK),
        Step(OWNER, frame(0x04, one), OK),
        Step(OWNER, frame(0x05, one), GOT),
        Step(OWNER, frame(0x06, one + whole), BYTES),
        Step(OWNER, frame(0x07, one), OK),
        Step(OWNER, frame(0x0D, one + numbers(READER)), OK),
        Step(READER, frame(0x0F, one + whole), BYTES),
        Step(OWNER, frame(0x0E, one + numbers(READER)), OK),
        # the first is spilled for the second, and the second for the first
        Step(OWNER, frame(0x14, other + b"\0" + numbers(LENGTH)), PLACED),
        Step(OWNER, frame(0x04, other), OK),
        Step(OWNER, frame(0x13, one), GOT),
        Step(OWNER, frame(0x06, one + whole), BYTES),
        Step(OWNER, frame(0x07, one), OK),
        Step(OWNER, frame(0x0B, other), OK),
        Step(OWNER, frame(0x0B, one), OK),
    ]


class Rounds:
    """Rounds at a program that serves."""

    def __init__(self, server: Server, said: Path) -> None:
        self._server = server
        self._said = said
        self._streams: Dict[int, socket.socket] = {}
        self.came: Counter[str] = Counter()

    def _refused(self) -> int:
        return self._said.read_text(encoding="utf-8").count(REFUSED)

    def _session(self, job: int) -> socket.socket:
        """The job's session, which begins if it has none."""
        if job not in self._streams:
            stream = socket.socket(socket.AF_UNIX)
            stream.settimeout(self._server.patience)
            self._streams[job] = stream
            stream.connect(self._server.path())
            while True:
                told = exchange(stream, hello(job))
                if told == OK:
                    break
                if told != NO_MEMORY:
                    raise Ended
        return self._streams[job]

    def _told(self, job: int, sent: bytes) -> bytes:
        """What is answered. Without an answer the session is over."""
        try:
            told = exchange(self._session(job), sent)
        except OSError:
            told = b""
        if not told:
            raise Ended
        return told

    def end_session(self, job: int) -> None:
        stream = self._streams.pop(job, None)
        if stream:
            stream.close()

    def _asked(self, step: Step) -> None:
        """The answer is due, or memory ran out for it once, or for its device call, and it is due then."""
        told = self._told(step.job, step.sent)
        if told == NO_MEMORY:
            self.came["answered"] += 1
            told = self._told(step.job, step.sent)
        elif told == DEVICE_FAILED and step.due in (PLACED, GOT):
            self.came["failed a device call"] += 1
            told = self._told(step.job, step.sent)
        assert told == step.due, f"sent {step.sent.hex()}: got {told.hex()}, should be {step.due.hex()}"

    def _clear(self, ids: List[bytes]) -> None:
        """What is left of a round that a session's end has broken off is deleted, after its grant, if that stands."""
        self._insist(OWNER, frame(0x0E, ids[0] + numbers(READER)))
        for id_ in ids:
            told = self._insist(OWNER, frame(0x0B, id_))
            assert told in (OK, ABSENT), f"a Delete: got {told.hex()}"

    def _insist(self, job: int, sent: bytes) -> bytes:
        """What is answered at last: sessions begin anew until one isn't ended."""
        for _ in range(QUIET_ROUNDS):
            try:
                told = self._told(job, sent)
            except Ended:
                self.end_session(job)
                continue
            if told != NO_MEMORY:
                return told
        raise AssertionError(f"sent {sent.hex()}: no answer but that memory ran out")

    def round(self, number: int) -> bool:
        """One round: whether a growth was refused in it."""
        before = self._refused()
        ids = [ident(OWNER, 2 * number + 1), ident(OWNER, 2 * number + 2)]
        os.kill(self._server.pid, signal.SIGUSR1)
        try:
            for step in steps(*ids):
                self._asked(step)
        except Ended:
            self.came["ended a session"] += 1
            for job in (OWNER, READER):
                self.end_session(job)
            self._clear(ids)
        for job, window in ((OWNER, WINDOW), (READER, EXTENT)):
            told = self._insist(job, frame(0x11))
            assert told == usage(window), f"job {job} still uses something: {told.hex()}"
        is_refused = self._refused() > before
        self.came["refused"] += is_refused
        return is_refused


def rounds_at(program: str, folder: str, shim: Path) -> Counter[str]:
    """Rounds at a program of its own, which is closed then."""
    said = Path(folder) / "said"
    words = ["env", f"LD_PRELOAD={shim}", "STORE_REFUSED=again", program]
    with said.open("w") as errors, Server(words, folder, nodes=1, errors=errors) as server:
        server.admit(0, OWNER, WINDOW, DEVICE)
        server.admit(0, READER, EXTENT, DEVICE)
        rounds = Rounds(server, said)
        quiet = 0
        for number in range(MOST_ROUNDS):
            try:
                quiet = 0 if rounds.round(number) else quiet + 1
            except AssertionError as fault:
                print(f"FAILED: growth {number + 1} of a round: {fault}")
                rounds.came["wrong"] += 1
                return rounds.came
            if quiet == QUIET_ROUNDS:
                break
        for job in (OWNER, READER):
            rounds.end_session(job)
        if not is_right(server.ending("close\n").out, rounds.came["refused"]):
            rounds.came["wrong"] += 1
        return rounds.came


def is_right(line: str, refused: int) -> bool:
    """Whether the report is right after so many refused growths; if it isn't it is shown."""
    entries, receipts, disagreeing, lost, unerased = map(int, line.split()[1:])
    right = 0 < entries == receipts and not disagreeing and max(lost, unerased) <= refused
    if not right:
        print(f"FAILED: {line!r} after {refused} refused growths")
    return right


def main() -> int:
    program = program_or_end()
    compiler = shutil.which(os.environ.get("CC", "cc"))
    if not compiler:
        print("growths_served: there is no C compiler cc, nor one that CC names", "0 passed, 1 failed", sep="\n")
        return 1
    with tempfile.TemporaryDirectory() as folder:
        came = rounds_at(program, folder, compiled(compiler, folder))
    print(
        f"{came['refused']} growths refused: {came['answered']} commands answered 19, {came['failed a device call']} device calls failed,"
        f" {came['ended a session']} sessions ended"
    )
    print(f"{came['refused'] - came['wrong']} passed, {came['wrong']} failed")
    return 1 if came["wrong"] or not came["refused"] else 0


if __name__ == "__main__":
    sys.exit(main())
