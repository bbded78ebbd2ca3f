"""What the sessions of a soak share: the program, its operator, what was granted, and what was counted."""

from __future__ import annotations

import argparse
import random
import threading
import time
from collections import Counter
from typing import Dict, List, Optional, Sequence, Set, Tuple, Union

import store_client
from store_model.drawing import Tally
from store_client import ObjectId
from store_testing.daemon import Supervised
from store_testing.frames import key
from store_testing.server import Server

NODES = 3
MEMORY = 1 << 26
# jobs below this are named by the model's commands, and above it by nobody else
FIRST_JOB = 100
# within how many seconds after another one gave up what it waited for may have come
AFTERWARDS = 5
# what a program may take in memory: at the beginning, of which 16 MiB are the places of the links between the nodes, for a session, for
# each line of a journal, of which it keeps so many of a live job at a node, and for an ended job. A command makes at most so many lines,
# with what its messages and works make
BYTES_AT_FIRST, BYTES_A_SESSION, BYTES_A_LINE, BYTES_AN_ENDED_JOB = 24 << 20, 1_152 << 10, 320, 16 << 10
MOST_LINES, LINES_A_COMMAND = 8_192, 2

Program = Union[Server, Supervised]
# an object and its bytes
Shown = Tuple[ObjectId, bytes]


def same(told: object, due: object, what: str = "") -> None:
    assert told == due, f"{what}: answered {told!r}, should be {due!r}"


def said_of(told: str) -> str:
    """Of a reply what is counted."""
    words = told.split(" ")
    return " ".join(words[1:]) if words[0] == "refused" else words[0]


class Operator:
    """The operator of the program, which many threads may ask."""

    def __init__(self, program: Program) -> None:
        self.program = program
        self.lock = threading.Lock()
        self.last_job = FIRST_JOB
        self.tally: Tally = Counter()

    def ask(self, line: str) -> str:
        """The answer but for its node."""
        with self.lock:
            told = self.program.say(line).partition(" op ")[2]
            self.tally[line.split(" ")[0], told] += 1
            return told

    def admit(self, nodes: Sequence[int], window: int, device: int) -> int:
        """A new job at these nodes: its number."""
        with self.lock:
            self.last_job += 1
            for node in nodes:
                line = f"admit {node} {self.last_job} {window} {device} {key(self.last_job).hex()}"
                same(self.program.say(line), f"n{node} op ok", line)
            self.tally["admit", "ok"] += len(nodes)
            return self.last_job


class Grants:
    """What was granted to whom, of late: it may have been withdrawn since."""

    MOST = 30

    def __init__(self) -> None:
        self.lock = threading.Lock()
        # by node and grantee
        self.given: Dict[Tuple[int, int], List[Shown]] = {}

    def add(self, node: int, grantee: int, one: ObjectId, content: bytes) -> None:
        with self.lock:
            self.given[node, grantee] = [*self.given.get((node, grantee), []), (one, content)][-self.MOST :]

    def draw(self, lot: random.Random, node: int, grantee: int) -> Optional[Shown]:
        """An object that was granted to the grantee at the node and its bytes, if there is any."""
        with self.lock:
            given = self.given.get((node, grantee))
            return lot.choice(given) if given else None

    def drop(self, node: int, grantee: int, one: ObjectId) -> None:
        """It was withdrawn."""
        with self.lock:
            self.given[node, grantee] = [each for each in self.given[node, grantee] if each[0] != one]


class Soak:
    """What the sessions share: the program, what went wrong, and what was counted."""

    def __init__(self, program: Program, folder: str, options: argparse.Namespace) -> None:
        self.folder = folder
        self.seed, self.pause = options.seed, options.pause
        # whether the disk may be full
        self.fills_up = bool(options.disk)
        self.bytes_at_first: int = BYTES_AT_FIRST + (options.slack << 20)
        self.operator = Operator(program)
        self.grants = Grants()
        self.over = threading.Event()
        self.faults: List[str] = []
        # by job and node; and how many bytes there are in windows
        self.commands: Counter[Tuple[int, int]] = Counter()
        self.window_bytes = 0
        # the numbers of the jobs that have ended, and how many lines there were at a time: what is given back may stay with the process
        self.ended: Set[int] = set()
        self.most_lines = 0
        # when a session last gave up a call that waited
        self.gave_up_at: float = -AFTERWARDS
        # the numbers of the jobs that are shared now, to which others grant
        self.shared: List[int] = []

    def connect(self, node: int, job: int) -> store_client.Connection:
        return store_client.connect(f"{self.folder}/store.{node}", job, key(job))

    def bound(self, sessions: int) -> int:
        """The bytes of memory that the program may have by now."""
        lines = sum(min(MOST_LINES, LINES_A_COMMAND * count) for (job, _), count in list(self.commands.items()) if job not in self.ended)
        self.most_lines = max(self.most_lines, lines)
        kept = self.most_lines * BYTES_A_LINE + len(self.ended) * BYTES_AN_ENDED_JOB
        return self.bytes_at_first + self.window_bytes + sessions * BYTES_A_SESSION + kept


class Lane(threading.Thread):
    """A session after another, each of them with commands that are drawn by lot."""

    def __init__(self, soak: Soak, number: int) -> None:
        super().__init__(daemon=True)
        self.soak = soak
        self.number = number
        self.lot = random.Random(f"{soak.seed} {number}")
        self.tally: Tally = Counter()
        # when it was last answered, until it ends
        self.moved: Optional[float] = time.monotonic()

    def run(self) -> None:
        try:
            while not self.soak.over.is_set():
                self.serve()
        except (AssertionError, OSError, ValueError, store_client.StoreError) as fault:
            # what comes after the first fault comes of it
            if not self.soak.over.is_set():
                self.soak.faults.append(f"session {self.number}: {fault!r}")
        self.moved = None

    def serve(self) -> None:
        """One job, from its admission to its end."""
        raise NotImplementedError

    def give_up(self) -> None:
        """Asked by another thread again and again: ends a call that has waited for too long."""

    def count(self, job: int, node: int) -> None:
        """A command's answer is there; the next one follows after a rest."""
        self.moved = time.monotonic()
        self.soak.commands[job, node] += 1
        self.soak.over.wait(self.lot.random() * 2 * self.soak.pause)
