#!/usr/bin/env python3
"""An array of numpy on its way from job to job: job 1 puts and grants it, and job 2 gets it, without a pickle.

In the top folder, with numpy:

    $ examples/arrays.py
"""

from __future__ import annotations

import numpy

from serving import KEYS, served

import store_client
from store_client import ObjectId


def give(path: str) -> ObjectId:
    """Job 1: stores an array under a new id, and lets job 2 get it."""
    with store_client.connect(path, 1, KEYS[1]) as store:
        id = store.put_array(numpy.arange(12, dtype="f4").reshape(3, 4))
        store.grant_value(id, 2)
        return id


def take(path: str, id: ObjectId) -> None:
    """Job 2: gets it. Nothing is unpickled that another job has made, and nothing is copied that isn't asked for."""
    with store_client.connect(path, 2, KEYS[2]) as store:
        array = store.get_array(id, timeout=10)
        print(f"job 2 got {array.dtype} {array.shape}, which add up to {array.sum():.0f}; writeable: {array.flags.writeable}")
        print(f"job 2 has {store.usage().copies} copies of its own")


def main() -> None:
    """Both jobs in one process, each with its own connection, as in two."""
    with served() as path:
        take(path, give(path))


if __name__ == "__main__":
    main()
