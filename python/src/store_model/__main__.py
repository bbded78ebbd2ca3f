"""Reads a schedule, answers it as `store run` does, and prints the answers or the journal: tests/model run|journal."""

import argparse
import sys

from .schedule import DEFAULT_MEMORY, run_in
from .world import World


def main() -> int:
    options = argparse.ArgumentParser(prog="model", description=__doc__)
    options.add_argument("task", choices=["run", "journal"])
    options.add_argument("--nodes", type=int, choices=range(1, 9), default=1)
    options.add_argument("--memory", type=int, default=DEFAULT_MEMORY, help="bytes of each node")
    asked = options.parse_args()
    world = World(asked.nodes, asked.memory)
    # a comment may have any bytes
    transcript = run_in(world, sys.stdin.buffer.read().decode("latin-1"))
    # after a fault no journal is written
    if asked.task == "run":
        sys.stdout.write(transcript.output)
    elif transcript.fault is None:
        sys.stdout.write(world.journal.text)
    sys.stderr.write(transcript.error)
    return transcript.status


if __name__ == "__main__":
    sys.exit(main())
