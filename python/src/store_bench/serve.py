"""Measures puts and gets of objects at a program that serves, against what moves the same bytes and does no more.

A put is Create, Write in pieces of 64 KiB, Seal and Delete, so that the window never fills; all of it is counted. A get
is Get, Read in pieces of 64 KiB, and Release. Each command waits for the reply to the one before. The clients are
processes with a connection and a job each.

The floor answers the same frames with frames of the same sizes, and keeps nothing: a process of this script for each
connection, so it is Python's floor and not the machine's. If redis-server is on the path, a put is compared with a SET
of the same key, which frees the value before, and a get with a GET, one round trip each, at as many servers as nodes.
SHA-256, which a Seal has to take, is timed with hashlib by as many processes as connections. What floor and SHA-256
together allow is one after the other; a put's last column is the ratio to that.

Then an array of numpy is put and got by the Python client and by other ways between processes, if numpy is there: see value_rows.py.

The rows, and what they are compared with, take turns, and each keeps its best run. The kind and length of each answer
are looked at, and the bytes of each client's first get: a wrong one ends all with status 1. With the default options
that is some five minutes.

--now measures by the native load alone, in one run, what bench/RESULTS.md has first: the program of now beside that of the last release
(the newest in dist/ whose program is another one), Redis, and the floor of load.c. It measures puts and gets of 1 KiB, 64 KiB and 1 MiB, commands
16 at once, one node to four, and a neighbour's gets beside floods, in rounds by turns, 5 by default, which takes some ten minutes. It prints
tables as RESULTS has them; a figure is the median of the rounds, a ratio the median of the rounds' own ratios, with the least and the
greatest. --write also writes them there, and into README.md what that has of them. What isn't there is left out, which is said.

At last come ratios by a native load, load.c, each of figures of the same rounds, in at most some three minutes; --native
measures these alone. It is compiled with cc into a temporary folder, and its floor answers the same trips. The rows, with the goal
of each beside it:

- put of 64 KiB and 1 MiB: four connections to one, at one node;
- get of 64 KiB and 1 MiB: four connections at one node to four at four nodes; of 1 MiB by one connection to the floor;
- 16 commands sent at once to the same one by one; the server's write calls for them at once, if strace is there;
- get of another job's 1 KiB (median, 99th percentile, longest) beside four sessions that seal, restore, create and
  delete, or spill 16 MiB, to the same beside four that read.

How each is measured stands in serving_rows.py, serving_now.py and load.c. It takes the program that operate/program finds.
"""

import argparse
import contextlib
import importlib.util
import shutil
import signal
import socket
import subprocess
import sys
import tempfile
from pathlib import Path
from typing import ContextManager, Dict, Iterator, List, Optional, Sequence, Tuple

from store_client import StoreError
from store_release.faults import DistFault
from store_testing.frames import frame, key, numbers
from store_testing.program import program_or_end

from .drawing import Bar, Drawing, bytes_text, draw_bars
from .serving_clients import (
    BYTES, CREATE, DELETE, GET, GOT, HELLO, OK, PIECE, PLACED, READ, RELEASE, SEAL, WRITE, Preparing, Row, asking, content, floor_script,
    hashing, processes, redis_script, speed_of, store_script,
)
from .serving_now import QUICK as NOW_QUICK
from .serving_now import run_now
from .serving_rows import LIMIT, ROUNDS, Admitted, redis, run_rows, serving
from .value_rows import ARRAY_BYTES, VALUES_WINDOW, measure_values, print_values

SIZES = (1 << 10, 1 << 16, 1 << 20)
# connections, and over how many nodes
LAYOUTS = ((1, 1), (4, 1), (4, 4))
NODES = max(nodes for _, nodes in LAYOUTS)
CLIENTS = max(connections for connections, _ in LAYOUTS)
# of a job at a node: one object
WINDOW = max(SIZES)
VALUES_JOB = CLIENTS + 1
RUNS = 5
# of a row in a run
SECONDS = 1.0
# runs, rounds and seconds
QUICK = (1, 2, 0.2)
# in a Read's frame, where the number of its bytes stands
READ_COUNT = slice(37, 41)
STORE, FLOOR, REDIS, HASH = "the store", "the floor", "Redis", "SHA-256"
# of a row and a side operations a second
Best = Dict[Tuple[Row, str], float]


# ---- what is measured


def answers_of_the_floor() -> Tuple[Dict[int, bytes], Dict[bytes, bytes]]:
    """Frames of the lengths that the store's have, by the command's kind; of a Read by its count."""
    answers: Dict[int, bytes] = dict.fromkeys((HELLO, WRITE, SEAL, RELEASE, DELETE), frame(OK))
    answers[CREATE], answers[GET] = frame(PLACED, bytes(8)), frame(GOT, bytes(4))
    reads = {numbers(count): frame(BYTES, bytes(count)) for count in {min(size, PIECE) for size in SIZES}}
    return answers, reads


def serve_floor(listener: socket.socket) -> None:
    """Takes a connection after another, and a frame after another: a client sends none before the answer."""
    answers, reads = answers_of_the_floor()
    buffer = bytearray(2 * PIECE)
    view = memoryview(buffer)
    while True:
        stream, _ = listener.accept()
        with stream:
            while got := stream.recv_into(view):
                while got < 4 or got < 4 + int.from_bytes(view[:4], "big"):
                    got += stream.recv_into(view[got:])
                kind = buffer[4]
                stream.sendall(reads[bytes(view[READ_COUNT])] if kind == READ else answers[kind])


@contextlib.contextmanager
def floor(folder: str) -> Iterator[None]:
    """A process for each connection."""
    with contextlib.ExitStack() as stack:
        listeners = [stack.enter_context(socket.socket(socket.AF_UNIX)) for _ in range(CLIENTS)]
        for client, listener in enumerate(listeners):
            listener.bind(f"{folder}/floor.{client}")
            listener.listen()
        stack.enter_context(processes(serve_floor, [(listener,) for listener in listeners]))
        yield


def store(program: Path, folder: str) -> ContextManager[None]:
    """A cluster at whose nodes each client's job is admitted, and at the first one a job for values."""
    admitted = [Admitted(node, job, WINDOW) for node in range(NODES) for job in range(1, CLIENTS + 1)]
    return serving([str(program.resolve())], folder, NODES, [*admitted, Admitted(0, VALUES_JOB, VALUES_WINDOW)])


# ---- the table


SCRIPTS = {STORE: store_script, FLOOR: floor_script, REDIS: redis_script}


def works_of(side: str, row: Row, folder: str) -> List[Preparing]:
    """What each client of the row does."""
    if side == HASH:
        return [hashing(content(row.size)) for _ in range(row.connections)]
    script = SCRIPTS[side]
    return [asking(script(folder, row, client)) for client in range(row.connections)]


def measure(rows: Sequence[Row], sides: Sequence[str], folder: str, asked: argparse.Namespace) -> Best:
    """Of each row and each side its operations a second. They take turns, so that whatever else the machine does meets
    all of them."""
    turns = [(row, side) for row in rows for side in sides if side != HASH or row.operation == "put"]
    best: Best = dict.fromkeys(turns, 0.0)
    for row, side in turns * asked.runs:
        try:
            speed = speed_of(works_of(side, row, folder), asked.seconds)
        except (OSError, ValueError, EOFError) as fault:
            raise ValueError(f"{name_of(row)}: {side}: {str(fault) or 'a client is gone'}") from fault
        best[row, side] = max(speed, best[row, side])
    return best


def name_of(row: Row) -> str:
    return f"{row.operation} {bytes_text(row.size)}, {counted(row.connections, 'connection')}, {counted(row.nodes, 'node')}"


def counted(count: int, word: str) -> str:
    return f"{count} {word}" if count == 1 else f"{count} {word}s"


def ratios_of(row: Row, best: Best) -> Tuple[float, Optional[float], Optional[float]]:
    """The store's to the floor, to Redis, and to floor and SHA-256, one after the other."""
    speed, base = best[row, STORE], best[row, FLOOR]
    to_redis = speed / best[row, REDIS] if (row, REDIS) in best else None
    to_both = speed * (1 / base + 1 / best[row, HASH]) if (row, HASH) in best else None
    return speed / base, to_redis, to_both


def print_table(rows: Sequence[Row], best: Best) -> None:
    print("| Operation | Size | Connections | Nodes | Operations a second | MB/s | To the floor | To Redis | To floor and SHA-256 |")
    print("|---|---|---|---|---|---|---|---|---|")
    for row in rows:
        speed = best[row, STORE]
        ratios = ["-" if ratio is None else f"{ratio:.2f}" for ratio in ratios_of(row, best)]
        cells = [row.operation, bytes_text(row.size), row.connections, row.nodes, f"{speed:,.0f}", f"{speed * row.size / 1e6:,.1f}"]
        print("| " + " | ".join(map(str, [*cells, *ratios])) + " |")


def draw_table(rows: Sequence[Row], best: Best) -> Drawing:
    """A bar for each row: its ratio to the floor."""
    bars = []
    for row in rows:
        percent = 100 * ratios_of(row, best)[0]
        bars.append(Bar(name_of(row), percent, f"{percent:.0f} %, {best[row, STORE]:,.0f} a second"))
    return draw_bars("puts and gets: operations a second, and the ratio to the floor", "percent of the floor", bars)


def run_python(asked: argparse.Namespace) -> None:
    rows = [Row(word, size, *layout) for word in ("put", "get") for size in SIZES for layout in LAYOUTS]
    redis_program = shutil.which("redis-server")
    sides = [STORE, FLOOR, *([REDIS] if redis_program else []), HASH]
    with tempfile.TemporaryDirectory() as folder, contextlib.ExitStack() as servers:
        servers.enter_context(floor(folder))
        if redis_program:
            servers.enter_context(redis(redis_program, folder, NODES))
        servers.enter_context(store(asked.program, folder))
        best = measure(rows, sides, folder, asked)
        print_table(rows, best)
        if importlib.util.find_spec("numpy"):
            redis_path = f"{folder}/redis.0" if redis_program else None
            values = measure_values(f"{folder}/store.0", VALUES_JOB, key(VALUES_JOB), redis_path, asked.runs, asked.array)
            print_values(values, asked.array)
        else:
            print("serve: LEFT OUT, since there is no numpy: values", file=sys.stderr)
    if asked.svg:
        draw_table(rows, best).save(asked.svg)


def run_native(asked: argparse.Namespace) -> None:
    compiler = shutil.which("cc")
    left_out = run_rows(compiler, asked) if compiler else ["the native load, since there is no cc"]
    for text in left_out:
        print(f"serve: LEFT OUT: {text}", file=sys.stderr)


def run(asked: argparse.Namespace) -> None:
    if asked.now:
        run_now(shutil.which("cc") or "cc", asked)
        return
    if not asked.native:
        run_python(asked)
        print()
    run_native(asked)


def look_at(options: argparse.ArgumentParser, asked: argparse.Namespace) -> None:
    """Options that don't go together end all."""
    if asked.now and (asked.native or asked.svg):
        options.error("--now measures by itself, without --native and --svg")
    if asked.now and not shutil.which("cc"):
        options.error("--now wants cc on the path, for the native load")
    if (asked.release or asked.write or asked.largest != WINDOW) and not asked.now:
        options.error("--release, --largest and --write go with --now")
    if asked.write and (asked.quick or asked.largest < WINDOW):
        options.error("a trial isn't written: leave --quick and --largest out")
    if asked.write and not shutil.which("redis-server"):
        options.error("--write wants redis-server on the path, for the front page: apt-get install redis-server")
    if asked.native and asked.svg:
        options.error("--svg draws the table that --native leaves out")


def main() -> None:
    options = argparse.ArgumentParser(description=__doc__, formatter_class=argparse.RawDescriptionHelpFormatter)
    options.add_argument("--program", type=Path, help="another one than operate/program finds")
    options.add_argument("--runs", type=int, default=RUNS, help=f"runs of each row (default {RUNS})")
    options.add_argument("--seconds", type=float, default=SECONDS, help=f"of a row in each run (default {SECONDS:g})")
    options.add_argument("--array", type=int, default=ARRAY_BYTES, metavar="BYTES", help=f"of the array (default {ARRAY_BYTES})")
    options.add_argument("--native", action="store_true", help="only the rows of the native load")
    options.add_argument("--now", action="store_true", help="only the program of now beside the last release, Redis and the floor")
    options.add_argument("--release", type=Path, metavar="FILE", help="with --now: the archive of another release than the newest in dist/")
    largest = "with --now: leave out larger objects, as a slow build wants it"
    options.add_argument("--largest", type=int, default=WINDOW, metavar="BYTES", help=largest)
    options.add_argument("--write", action="store_true", help="with --now: write the tables into bench/RESULTS.md and README.md")
    rounds = f"of the native rows (default {ROUNDS}, or as many as {LIMIT} s allow; with --now {ROUNDS})"
    options.add_argument("--rounds", type=int, help=rounds)
    quick = "a trial: as --runs {} --rounds {} --seconds {}, with --now as --rounds {} --seconds {}".format(*QUICK, *NOW_QUICK)
    options.add_argument("--quick", action="store_true", help=quick)
    options.add_argument("--svg", type=Path, metavar="FILE", help="draw the table as bars into this file")
    asked = options.parse_args()
    look_at(options, asked)
    if asked.quick and asked.now:
        asked.rounds, asked.seconds = NOW_QUICK
    elif asked.quick:
        asked.runs, asked.rounds, asked.seconds = QUICK
    if asked.runs < 1 or (asked.rounds or 1) < 1 or asked.seconds <= 0 or not 8 <= asked.array <= ARRAY_BYTES:
        options.error("there is nothing to measure")
    asked.program = asked.program or Path(program_or_end())
    # so that a script which is ended from outside ends what it started, too
    signal.signal(signal.SIGTERM, lambda *_: sys.exit("serve: ended"))
    try:
        run(asked)
    except (AssertionError, OSError, ValueError, DistFault, StoreError, subprocess.SubprocessError) as fault:
        sys.exit(f"serve: {fault}")
    except KeyboardInterrupt:
        sys.exit("serve: interrupted")


if __name__ == "__main__":
    main()
