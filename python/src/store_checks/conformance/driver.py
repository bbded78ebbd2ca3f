"""A driver of the client in Python (see tests/conformance/README.md)."""

from __future__ import annotations

import sys
from typing import Any, Callable, Dict, List, Optional

import store_client
from store_client import Connection, ObjectId
from store_client.requests import Pieces
from store_testing.spelling import call, read_bytes, spelled

# so long a server may be silent, in seconds: the kit ends what is silent
PATIENCE = 100


def take(store: Connection, id: ObjectId, seconds: Optional[str] = None) -> bytes:
    with store.get(id, None if seconds is None else float(seconds)) as view:
        return bytes(view)


def put(store: Connection, id: ObjectId, digits: str) -> None:
    store.put(read_bytes(digits), id)


def put_whole(store: Connection, id: ObjectId, digits: str) -> None:
    # as the command line of the client does
    store._put_pieces(Pieces([memoryview(read_bytes(digits))]), id, None)


OPERATIONS: Dict[str, Callable[..., Any]] = {
    "put": put,
    "take": take,
    "wait": take,
    "putwhole": put_whole,
    "takewhole": lambda store, id: bytes(store._get_whole(id, None, None)),
    "deletewhole": Connection.delete_value,
}


def done(store: Connection, line: str) -> object:
    """What came of an operation."""
    word, *fields = line.split()
    if word not in OPERATIONS:
        return call(store, line)
    return OPERATIONS[word](store, ObjectId.parse(fields[0], store.job), *fields[1:])


def told(do: Callable[[], object], job: int) -> str:
    """What came of it in words, a fault among the rest."""
    try:
        return str(spelled(do(), job))
    except store_client.Refused as refused:
        return str(spelled(refused, job))
    except store_client.ProtocolError:
        return "protocol"
    except store_client.ConnectionLost:
        return "lost"
    except ValueError:
        return "invalid"


def main() -> None:
    path, job, key = sys.argv[1:]
    opened: List[Connection] = []
    said = told(lambda: opened.append(store_client.connect(path, int(job), bytes.fromhex(key), PATIENCE, keeper=False)), int(job))
    print(said, flush=True)
    for store in opened:
        for line in sys.stdin:
            print(told(lambda: done(store, line.strip()), int(job)), flush=True)
        store.close()


if __name__ == "__main__":
    main()
