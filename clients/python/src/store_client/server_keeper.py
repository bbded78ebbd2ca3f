"""The process that keeps a server for another one: it starts the server, and ends it, and removes its folder, once the other has ended.

It outlives a process that is killed. It is run by its path, with Python's own library alone, and with no terminal. Its standard
input is open as long as the server is wanted; the first line of it is the server's first order. Its one line of output is `ready`
and the folder, or why there is no server.
"""

from __future__ import annotations

import contextlib
import os
import shutil
import signal
import subprocess
import sys
import tempfile
import threading
from typing import List, NoReturn

# what a server says once its sockets listen, and no complaint
_LISTENS = b"store: ready\n"
_SIGNALS = (signal.SIGTERM, signal.SIGINT, signal.SIGHUP)


def main(program: str, place: str, memory: str) -> None:
    """Keeps a server of one node, of so many bytes of memory, in a folder of its own in this place."""
    for number in _SIGNALS:
        signal.signal(number, _leave)
    order = sys.stdin.buffer.readline()
    try:
        folder = tempfile.mkdtemp(prefix="store-", dir=place)
    except OSError as error:
        return _tell(f"{place}: {error.strerror}")
    try:
        _keep([program, "serve", "--nodes", "1", "--memory", memory], folder, order)
    finally:
        # it has to be removed, whatever comes
        for number in _SIGNALS:
            signal.signal(number, signal.SIG_IGN)
        shutil.rmtree(folder, ignore_errors=True)


def _write_epoch(path: str) -> None:
    """What tells this server from others, as epochs.py says. Nobody else can get into the folder, and nobody connects yet."""
    with open(os.open(path, os.O_WRONLY | os.O_CREAT | os.O_EXCL | os.O_CLOEXEC, 0o600), "w", encoding="ascii") as file:
        file.write(f"{os.urandom(16).hex()}\n")


def _leave(*_: object) -> NoReturn:
    sys.exit(1)


def _keep(words: List[str], folder: str, order: bytes) -> None:
    """Until the input ends. The server and what it has started, if it is a script, are a group of processes, and end together."""
    pipe = subprocess.PIPE
    words = [*words, "--socket", f"{folder}/store", "--spill", f"{folder}/spill"]
    try:
        _write_epoch(f"{folder}/store.epoch")
    except OSError as error:
        return _tell(f"{folder}: {error.strerror}")
    try:
        server = subprocess.Popen(words, stdin=pipe, stdout=pipe, stderr=pipe, bufsize=0, start_new_session=True)
    except OSError as error:
        return _tell(f"{words[0]}: {error.strerror}")
    try:
        threading.Thread(target=_bring_up, args=(server, folder, order), daemon=True).start()
        sys.stdin.buffer.read()
    finally:
        os.killpg(server.pid, signal.SIGKILL)
        server.wait()


def _bring_up(server: "subprocess.Popen[bytes]", folder: str, order: bytes) -> None:
    """Gives the order once the server listens, and tells how it went. What the server complains of afterwards goes where this process's
    complaints go."""
    assert server.stdin and server.stdout and server.stderr
    said = b"the server ended at once"
    for line in server.stderr:
        if line == _LISTENS:
            break
        said = line
    else:
        return _tell(os.fsdecode(said))
    # it may have ended again
    with contextlib.suppress(OSError):
        server.stdin.write(order)
    answer = os.fsdecode(server.stdout.readline())
    _tell(f"ready {folder}" if answer.endswith(" op ok\n") else f"the server answered {answer.strip() or 'nothing'}")
    for line in server.stderr:
        with contextlib.suppress(OSError):
            os.write(2, line)


def _tell(text: str) -> None:
    # nobody may read it any more
    with contextlib.suppress(OSError):
        os.write(1, os.fsencode(f"{text.strip()}\n"))


if __name__ == "__main__":
    main(*sys.argv[1:])
