#!/usr/bin/env python3
"""A pool of processes that share objects: each worker gets its part of the text from the store, and puts what it found.

The workers are given ids, and no bytes. In the top folder:

    $ examples/process_pool.py
"""

from __future__ import annotations

import collections
import concurrent.futures

from serving import KEYS, served

from store_client import ObjectId, Pool

TEXT = "a store of objects is a store for all jobs and each job has a store of its own " * 100
PARTS = 4


def count_words(pool: Pool, part: ObjectId) -> ObjectId:
    """A worker: a pool that came from another process opens a connection of its own. The parts are this job's own, so it unpickles
    them."""
    return pool.put_value(collections.Counter(pool.get_value(part)))


def main() -> None:
    """Puts the parts, has them counted, and adds the counts up."""
    with served() as path, Pool(path, 1, KEYS[1]) as pool, concurrent.futures.ProcessPoolExecutor(2) as workers:
        words = TEXT.split()
        parts = [pool.put_value(words[start::PARTS]) for start in range(PARTS)]
        total: collections.Counter[str] = collections.Counter()
        for counted in workers.map(count_words, [pool] * PARTS, parts):
            total += pool.get_value(counted)
        print(", ".join(f"{word} {count}" for word, count in total.most_common(3)))


if __name__ == "__main__":
    main()
