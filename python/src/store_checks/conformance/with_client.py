"""Dialogues played with a client: a script is the server, compares each byte that it is sent, and answers as the dialogue says.

The client is a driver: a command that is given socket, job and key, reads what it is to do from its standard input, a line each, and
prints a line for each. README.md has the words.
"""

from __future__ import annotations

import socket
import subprocess
import tempfile
import threading
from typing import List, NamedTuple, Optional

from store_testing import PATIENCE
from store_testing.frames import read_frame

from .at_server import shown
from .dialogue import Dialogue, Exchange, Fault, exchanges, key_of

# how often it is looked whether a driver that hasn't connected has ended, in seconds
_LOOK = 0.05


class Client(NamedTuple):
    """A client that is tried: its name, the words of its driver, and what its driver can't be asked."""

    name: str
    words: List[str]
    without: List[str]

    def lacks(self, dialogue: Dialogue) -> Optional[str]:
        """What the dialogue asks, and this client's driver can't be asked."""
        return next((line.split()[0] for line in dialogue.asked() if line.split()[0] in self.without), None)


class _Script:
    """The server's side. It takes one session."""

    def __init__(self, dialogue: Dialogue, path: str) -> None:
        self._name = dialogue.name
        self._due = exchanges(dialogue)
        self._listener = socket.socket(socket.AF_UNIX)
        self._listener.bind(path)
        self._listener.listen()
        self._listener.settimeout(_LOOK)
        self.fault: Optional[str] = None
        self.client_has_ended = threading.Event()
        self._thread = threading.Thread(target=self._run)
        self._thread.start()

    def _run(self) -> None:
        try:
            with self._listener, self._accept() as stream:
                stream.settimeout(PATIENCE)
                self._serve(stream)
        except (Fault, OSError) as error:
            self.fault = str(error)

    def _accept(self) -> socket.socket:
        while True:
            # a driver that has ended may have connected before
            is_last = self.client_has_ended.is_set()
            try:
                return self._listener.accept()[0]
            except socket.timeout:
                if is_last:
                    raise Fault(f"{self._name}: the client has connected to nothing") from None

    def _serve(self, stream: socket.socket) -> None:
        while self._due:
            frame = read_frame(stream)
            if not frame and all(one.command.is_optional for one in self._due):
                return
            exchange = self._take(frame)
            stream.sendall(exchange.reply)
            if exchange.closes:
                return
        more = stream.recv(1 << 16)
        if more:
            raise Fault(f"{self._name}: the client sent {shown(more)} at the end, and nothing is due")

    def _take(self, frame: bytes) -> Exchange:
        """The exchange that the frame begins: the next one, or of one group any; what needn't come may be passed over."""
        for place, exchange in enumerate(self._due):
            first = self._due[0].command
            if exchange.command.data == frame:
                return self._due.pop(place)
            if not first.group or exchange.command.group != first.group:
                break
        if self._due[0].command.group and all(one.command.is_optional for one in self._rest_of_group()):
            self._due = self._due[len(self._rest_of_group()) :]
            if self._due:
                return self._take(frame)
        raise Fault(self._otherwise(frame))

    def _rest_of_group(self) -> List[Exchange]:
        return [one for one in self._due if one.command.group == self._due[0].command.group]

    def _otherwise(self, frame: bytes) -> str:
        due = f"{shown(self._due[0].command.data)} is due" if self._due else "nothing is due"
        line = self._due[0].command.line if self._due else 0
        return f"{self._name}:{line}: the client {f'sent {shown(frame)}' if frame else 'ended'}, and {due}"

    def end(self) -> None:
        """Waits until the script has ended. `Fault` if it wasn't sent what is due."""
        self.client_has_ended.set()
        self._thread.join()
        if self.fault:
            raise Fault(self.fault)


def run_driver(words: List[str], path: str, job: int, asked: List[str]) -> List[str]:
    """What a driver prints. `Fault` if it doesn't end well and in time."""
    told = "".join(f"{line}\n" for line in asked)
    command = [*words, path, str(job), key_of(job).hex()]
    try:
        done = subprocess.run(command, input=told, capture_output=True, text=True, timeout=PATIENCE, check=False)
    except subprocess.TimeoutExpired:
        raise Fault(f"the driver hadn't ended after {PATIENCE} seconds") from None
    except OSError as error:
        raise Fault(f"the driver can't be started: {error}") from None
    if done.returncode or done.stderr:
        raise Fault(f"the driver ended with {done.returncode}, and said {done.stderr!r}")
    return done.stdout.splitlines()


def play(dialogue: Dialogue, client: Client) -> None:
    """Plays the dialogue with a client. `Fault` if it sends other bytes, or prints otherwise."""
    with tempfile.TemporaryDirectory() as folder:
        script = _Script(dialogue, f"{folder}/socket")
        faults: List[str] = []
        said: List[str] = []
        try:
            said = run_driver(client.words, f"{folder}/socket", dialogue.speaker, dialogue.asked())
        except Fault as fault:
            faults.append(f"{dialogue.name}: {fault}")
        try:
            script.end()
        except Fault as fault:
            faults.append(str(fault))
        if not faults and said != dialogue.said():
            faults.append(f"{dialogue.name}: the client printed {cut(said)}, and {cut(dialogue.said())} is due")
        if faults:
            raise Fault("; ".join(faults))


def cut(lines: List[str]) -> List[str]:
    """Lines for a message, none of them too long."""
    return [line if len(line) <= 100 else f"{line[:80]}.. ({len(line)} characters)" for line in lines]
