"""Objects in parts across clients: what each has put at a server the kit reads byte by byte, each client takes, and another deletes."""

from __future__ import annotations

import random
import socket
from functools import partial
from typing import Callable, List, Tuple

from store_testing import PATIENCE
from store_testing.frames import exchange, frame, hello

from .at_server import served
from .dialogue import Fault, Job, key_of
from .with_client import Client, run_driver

# what is asked of objects in parts; a client that can't be asked all of it knows no parts
ASKED = frozenset({"putwhole", "takewhole", "deletewhole"})
# more than the window, so that it goes in parts of a sixteenth of it, and other parts are on the device
_JOB = Job(1, 4096, 1 << 20)
_LENGTH, _PART = 5000, 256
_HEAD = b"store\0m1" + _LENGTH.to_bytes(8, "big") + _PART.to_bytes(4, "big")
_ID_BYTES = 28
# t1.1 of job 1, as a client says it and as it is sent
_WHOLE, _WHOLE_BYTES = "t1.1", bytes(19) + b"\1" + bytes(3) + b"\1" + bytes(3) + b"\1"


def plays(clients: List[Client], words: List[str]) -> List[Callable[[], None]]:
    """One play for each client that puts parts. The client after it deletes."""
    knowing = [client for client in clients if not ASKED & set(client.without)]
    pairs = zip(knowing, [*knowing[1:], *knowing[:1]])
    return [partial(_play, pair, knowing, words) for pair in pairs]


def _play(pair: Tuple[Client, Client], clients: List[Client], words: List[str]) -> None:
    putting, deleting = pair
    data = random.Random(1).randbytes(_LENGTH)
    with served(words, [_JOB]) as path:
        _expect(putting, path, f"putwhole {_WHOLE} {data.hex()}", "ok")
        whole = _read(path, data)
        if whole != data:
            raise Fault(f"{putting.name}: the parts that it has put have other bytes")
        for taking in clients:
            _expect(taking, path, f"takewhole {_WHOLE}", f"bytes {data.hex()}")
        _expect(deleting, path, f"deletewhole {_WHOLE}", "ok")
        _expect(deleting, path, "list", "list")


def _expect(client: Client, path: str, asked: str, due: str) -> None:
    said = run_driver(client.words, path, _JOB.number, [asked])
    if said != ["ok", due]:
        shown = [line[:80] for line in said]
        raise Fault(f"{client.name}: asked to {asked[:80]}, it printed {shown}, and {due[:80]} is due")


def _read(path: str, data: bytes) -> bytes:
    """The bytes of all parts that the manifest names, which has to be one of these bytes. `Fault` if it isn't."""
    with socket.socket(socket.AF_UNIX) as stream:
        stream.settimeout(PATIENCE)
        stream.connect(path)
        _ask(stream, hello(_JOB.number, key_of(_JOB.number)))
        manifest = _object(stream, _WHOLE_BYTES)
        ids = [manifest[at : at + _ID_BYTES] for at in range(len(_HEAD), len(manifest), _ID_BYTES)]
        if not manifest.startswith(_HEAD) or len(ids) != -(-len(data) // _PART) or len(set(ids)) != len(ids):
            raise Fault(f"the manifest isn't one of {len(data)} bytes in parts of {_PART}: {manifest.hex()}")
        return b"".join(_object(stream, part) for part in ids)


def _object(stream: socket.socket, name: bytes) -> bytes:
    """The bytes of an object. One that is on the device is waited for by GetWait."""
    length = _ask(stream, frame(0x13, name))
    body = _ask(stream, frame(0x06, name + bytes(4) + length))
    _ask(stream, frame(0x07, name))
    return body


def _ask(stream: socket.socket, command: bytes) -> bytes:
    """The body of the reply. `Fault` if it is a refusal."""
    try:
        reply = exchange(stream, command)
    except OSError as error:
        raise Fault(f"to {command[:40].hex()} the server answered nothing: {error}") from None
    if len(reply) < 5 or len(reply) != 4 + int.from_bytes(reply[:4], "big") or reply[4] == 0x8F:
        raise Fault(f"to {command[:40].hex()} the server answered {reply.hex()}")
    return reply[5:]
