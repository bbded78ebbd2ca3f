"""Measures passing arrays between Dask's tasks by way of the stores, against plain Dask, on two hosts of this machine.

Each host is a network namespace, with a store and four workers of one thread. In a round a task on A makes an array, and then tasks
load it: one, and three at once, on A beside the maker; one, and three at once, on B; and those on B again. Plain Dask and the
store take turns. The last column is the median of the rounds' ratios, with the least and the greatest. Before all that it is looked at
how much memory the processes have while one array is alive, at most and at rest.

It takes the program that operate/program finds. It needs Debian's python3-distributed and python3-numpy, and the right to make
namespaces.
"""

from __future__ import annotations

import argparse
import statistics
import sys
import time
from pathlib import Path
from typing import Any, Callable, Dict, List, NamedTuple, Tuple

from store_testing import ROOT

# the hosts are an example: files for a reader, and no package
sys.path.append(str(ROOT / "examples/cluster"))

import inside  # noqa: E402

# seconds, for all of it
LIMIT = 3600
MIB = 1 << 20
MAKER, BESIDE, ACROSS = "A1.0", ("A1.1", "A1.2", "A1.3"), ("B1.0", "B1.1", "B1.2")
STEPS = ("making it", "one reader, same host", "one reader, other host", "three, same host", "three, other host", "those three again")
PLAIN, STORE = "plain", "store"


class Round(NamedTuple):
    """Of each step its seconds; and the bytes that came to host B for three readers."""

    seconds: List[float]
    delivered: int


def make(count: int, seed: int) -> Any:
    """Plain Dask's: an array."""
    import numpy

    return numpy.arange(seed, seed + count, dtype="f8")


def make_stored(count: int, seed: int) -> Any:
    """The store's: a reference to it."""
    from store_client import dask as store

    return store.put(make(count, seed))


def use(array: Any) -> float:
    """Looks at each page of an array."""
    return float(array[::512].sum())


def use_stored(ref: Any) -> float:
    """Loads it first."""
    return use(ref.load())


WAYS: Dict[str, Tuple[Callable[..., Any], Callable[..., Any]]] = {PLAIN: (make, use), STORE: (make_stored, use_stored)}


def timed(client: Any, work: Callable[..., Any], words: Tuple[Any, ...], workers: Tuple[str, ...]) -> Tuple[float, List[Any]]:
    """How long it takes on these workers at once, and the futures."""
    from distributed import wait

    start = time.perf_counter()
    futures = [client.submit(work, *words, workers=[worker], allow_other_workers=False, pure=False) for worker in workers]
    wait(futures)
    seconds = time.perf_counter() - start
    for future in futures:
        if future.status != "finished":
            future.result()
    return seconds, futures


def one_round(hosts: Any, way: str, size: int, seed: int) -> Round:
    """All steps. One reader and three have an array each, so that none has it already."""
    made, beside, across, _, _ = pass_on(hosts, way, size, seed, 1)
    _, beside_three, across_three, again, delivered = pass_on(hosts, way, size, seed + 1, 3)
    return Round([made, beside, across, beside_three, across_three, again], delivered)


def pass_on(hosts: Any, way: str, size: int, seed: int, readers: int) -> Tuple[float, float, float, float, int]:
    """Makes an array, and has so many read it on each host: the seconds of the four steps, and the bytes that came to B."""
    client, (making, using) = hosts.clients[1], WAYS[way]
    made, (array,) = timed(client, making, (size // 8, seed), (MAKER,))
    beside, first = timed(client, using, (array,), BESIDE[:readers])
    before = hosts.delivered("B")
    across, second = timed(client, using, (array,), ACROSS[:readers])
    delivered = hosts.delivered("B") - before
    again, third = timed(client, using, (array,), ACROSS[:readers])
    results = {future.result() for future in (*first, *second, *third)}
    if len(results) != 1:
        raise SystemExit(f"{way}: the readers of one array got different ones: {results}")
    del array, first, second, third
    settle(client)
    return made, beside, across, again, delivered


def settle(client: Any) -> None:
    """Until all that was put is removed."""
    from hosts import wait_until

    from store_client import dask as store

    wait_until(lambda: not any(usage.copies for nodes in store.usage(client).values() for usage in nodes), "an empty store")


def seconds_of(number: int) -> Callable[[Round], float]:
    """What a round took for this step."""
    return lambda one: one.seconds[number]


def ratios(rounds: Dict[str, List[Round]], figure: Callable[[Round], float]) -> str:
    """Of the store to plain Dask: the medians, and the ratios of the rounds."""
    pairs = list(zip(map(figure, rounds[PLAIN]), map(figure, rounds[STORE])))
    each = sorted(stored / plain for plain, stored in pairs)
    plain, stored = (statistics.median(column) for column in zip(*pairs))
    return f"{plain:.3f} | {stored:.3f} | {statistics.median(each):.2f} ({each[0]:.2f} to {each[-1]:.2f})"


def compare(hosts: Any, size: int, count: int) -> None:
    """Prints the rows of a size."""
    rounds: Dict[str, List[Round]] = {PLAIN: [], STORE: []}
    for number in range(count + 1):
        for way in (PLAIN, STORE):
            result = one_round(hosts, way, size, 1000 * number)
            # the first one warms up
            rounds[way] += [result] if number else []
    print(f"\n| {size / MIB:g} MiB, {count} rounds | plain | store | store to plain |\n|---|---|---|---|")
    for number, step in enumerate(STEPS):
        print(f"| {step}, s | {ratios(rounds, seconds_of(number))} |")
    print(f"| making it, and one reader, same host, s | {ratios(rounds, lambda one: one.seconds[0] + one.seconds[1])} |")
    print(f"| bytes to B for three readers, MiB | {ratios(rounds, lambda one: one.delivered / MIB)} |", flush=True)


def weigh(hosts: Any, size: int) -> None:
    """Prints how much more memory the processes have while an array is alive than they began with: at most, while it is made and read at
    each worker, and at rest, when all have read it and none needs it. A store keeps the memory that was written once, so this comes first."""
    client = hosts.clients[1]
    processes: Dict[str, Any] = {}
    for name, host in hosts.hosts.items():
        processes.update({**host.workers, f"store {name}": host.store})
    print(f"\n| MiB, of an array of {size / MIB:g} | {' | '.join(processes)} | all |\n|---|{'---|' * (len(processes) + 1)}")
    before = {name: hosts.resident(process) for name, process in processes.items()}
    for way in (PLAIN, STORE):
        making, using = WAYS[way]
        for process in processes.values():
            hosts.forget_most(process)
        _, (array,) = timed(client, making, (size // 8, 1), (MAKER,))
        timed(client, using, (array,), (*BESIDE, *ACROSS))
        time.sleep(2)
        for when, at_most in (("at most", True), ("at rest", False)):
            more = [(hosts.resident(process, at_most) - before[name]) / MIB for name, process in processes.items()]
            # not all have their most at the same time
            whole = "" if at_most else f"{sum(more):.0f}"
            print(f"| {way}, {when} | {' | '.join(f'{one:.0f}' for one in more)} | {whole} |", flush=True)
        del array
        settle(client)


def run(folder: Path) -> int:
    """Measures, and prints the tables. The status."""
    from hosts import Hosts, Job

    words = options()
    if not inside.has_network():
        print("cluster: LEFT OUT, all of it: bytes between hosts are counted at their links, and namespaces aren't allowed here")
        return 0
    with Hosts(folder, "AB", {1: Job(1 << 28, 1 << 32, 4)}, nodes=words.nodes) as hosts:
        weigh(hosts, words.sizes[-1] * MIB)
        for size, rounds in zip(words.sizes, words.rounds):
            compare(hosts, size * MIB, rounds)
    return 0


def options() -> argparse.Namespace:
    """What the command line says."""
    parser = argparse.ArgumentParser(description=__doc__, formatter_class=argparse.RawDescriptionHelpFormatter)
    parser.add_argument("--sizes", type=int, nargs="+", default=[16, 256], metavar="MIB", help="of the arrays (16 256)")
    parser.add_argument("--rounds", type=int, nargs="+", default=[7, 4], help="for each size (7 4)")
    parser.add_argument("--nodes", type=int, default=2, help="of a host's store (2)")
    return parser.parse_args()


def main() -> int:
    options()
    return inside.main(run, LIMIT)


if __name__ == "__main__":
    sys.exit(main())
