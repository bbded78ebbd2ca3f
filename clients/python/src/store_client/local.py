"""The command line `python -m store_client.local`: a shell, or a command, with a server of its own. The call is in embedded.py."""

from __future__ import annotations

import argparse
import os
import signal
import subprocess
import sys
from typing import Callable, List, Sequence

if __name__ != "__main__":
    # as a module it would take the name of the call from the package
    raise ImportError("store_client.local is a call, and by python -m a command line: from store_client import local")

from store_client import LocalStore, StoreError, local

_ABOUT = """\
Starts a server of its own, and a shell, or the command, with STORE_SOCKET, STORE_JOB and STORE_KEY, which store-client reads. The server
ends with it, and all objects. The status is the command's."""
_NAME = "store_client.local"


def run(command: Sequence[str], store: LocalStore) -> int:
    """Runs the command to its end. Its status, or as a shell says it: 128 more than the signal that ended it, 126, 127."""
    place = {**os.environ, "STORE_SOCKET": store.path, "STORE_JOB": str(store.job), "STORE_KEY": store.key.hex()}
    early: List[int] = []
    _handle_signals(early.append)
    try:
        process = subprocess.Popen(command, env=place)
    except OSError as error:
        print(f"{_NAME}: {command[0]}: {error.strerror}", file=sys.stderr)
        return 127 if isinstance(error, FileNotFoundError) else 126
    _handle_signals(process.send_signal)
    for number in early:
        process.send_signal(number)
    status = process.wait()
    return status if status >= 0 else 128 - status


def _handle_signals(handle: Callable[[int], None]) -> None:
    """The command says when it ends. What a terminal sends at a key it is sent too; other signals are handled so."""
    for number in (signal.SIGINT, signal.SIGQUIT):
        signal.signal(number, lambda *_: None)
    for number in (signal.SIGTERM, signal.SIGHUP):
        if signal.getsignal(number) is not signal.SIG_IGN:
            signal.signal(number, lambda number, _: handle(number))


def main() -> int:
    """Runs a command line. 2 if there is no server, 130 if it is interrupted before."""
    parser = argparse.ArgumentParser(prog=f"python -m {_NAME}", description=_ABOUT)
    parser.add_argument("--memory", default="256M", help="of the server, at most 256M, which it is otherwise")
    parser.add_argument("--device", default="1G", help="how much of the disk it may use for what has no room in memory; otherwise 1G")
    parser.add_argument("command", nargs=argparse.REMAINDER, metavar="COMMAND", help="otherwise the shell that SHELL names")
    words = parser.parse_args()
    command: List[str] = words.command[1:] if words.command[:1] == ["--"] else words.command
    try:
        store = local(words.memory, words.device)
    except (StoreError, ValueError) as error:
        print(f"{_NAME}: {error}", file=sys.stderr)
        return 2
    except KeyboardInterrupt:
        return 130
    with store:
        if not command:
            print(f"{_NAME}: the store is at {store.path}, and ends with this shell", file=sys.stderr)
        return run(command or [os.environ.get("SHELL", "/bin/sh")], store)


sys.exit(main())
