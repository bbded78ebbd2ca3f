"""The frames of a session, written and read, and the ids and keys in them. The client has frames of its own, which these may judge."""

from __future__ import annotations

import socket
import struct

# bytes of what stands before a frame's kind: how many follow
_LENGTH = 4


def key(job: int) -> bytes:
    """The key of a job, if nothing else asks for another one."""
    return numbers(job) * 8


def ident(job: int, index: int) -> bytes:
    """An object's id: of the job's first task."""
    return bytes(12) + struct.pack(">QII", 1, job, index)


def numbers(*values: int) -> bytes:
    """Numbers of four bytes each."""
    return struct.pack(f">{len(values)}I", *values)


def head(kind: int, length: int) -> bytes:
    """The beginning of a frame with so many bytes after its kind."""
    return struct.pack(">IB", 1 + length, kind)


def frame(kind: int, body: bytes = b"") -> bytes:
    return head(kind, len(body)) + body


def hello(job: int, its_key: bytes = b"") -> bytes:
    """The frame that begins a session of the job, with its own key or this one."""
    return frame(0x01, numbers(job) + (its_key or key(job)))


def receive(stream: socket.socket, length: int) -> bytes:
    """So many bytes; fewer if the stream ends before."""
    data = b""
    while len(data) < length:
        piece = stream.recv(length - len(data))
        if not piece:
            return data
        data += piece
    return data


def read_frame(stream: socket.socket) -> bytes:
    """The next frame, as far as it comes: nothing at the end of the stream."""
    length = receive(stream, _LENGTH)
    return length + receive(stream, int.from_bytes(length, "big"))


def exchange(stream: socket.socket, sent: bytes) -> bytes:
    """The frame that answers what is sent."""
    stream.sendall(sent)
    return read_frame(stream)


def ask(stream: socket.socket, sent: bytes, expected: bytes) -> None:
    """What is sent is answered by these bytes, which may be several frames."""
    stream.sendall(sent)
    got = receive(stream, len(expected))
    assert got == expected, f"sent {sent.hex()}: got {got.hex()}, should be {expected.hex()}"


def enter(stream: socket.socket, path: str, job: int) -> None:
    """A session of the job begins on the stream."""
    stream.connect(path)
    ask(stream, hello(job), frame(0x80))


def session(folder: str, node: int, job: int) -> socket.socket:
    """A session of the job at a node, whose socket is in this folder."""
    stream = socket.socket(socket.AF_UNIX)
    enter(stream, f"{folder}/store.{node}", job)
    return stream
