"""A program that serves, as tests and measurements start it: in a folder, told by the operator's lines, and ended."""

from __future__ import annotations

import re
import subprocess
from pathlib import Path
from typing import IO, Callable, Iterable, List, NamedTuple, Sequence, Tuple, Union

from . import PATIENCE
from .frames import key

# on its standard error once all sockets listen
READY = "store: ready\n"
# and for a device call that failed: node, job, work, call, reason, and how many more failed without a line
FAILED_CALL = re.compile(
    r"store: node (\d+): job (\d+): work (\d+): (write|read|erase) failed: (.+?)(?: \(and (\d+) more since the last line\))?"
)


class Report(NamedTuple):
    """Of a right report: how many entries there were, and how many messages were lost."""

    entries: int
    lost: int


class Ending(NamedTuple):
    """What a program has still printed and said on its standard error at its end, and its status."""

    out: str
    err: str
    status: int


def report_of(line: str) -> Report:
    """What a right report says: each entry has a receipt, and each receipt that was looked for its entry."""
    assert line.startswith("report "), f"got {line!r}"
    entries, receipts, disagreeing, lost, failures = line.split()[1:]
    assert (entries, disagreeing, failures) == (receipts, "0", "0"), f"got {line!r}"
    return Report(int(entries), int(lost))


class Server:
    """A program that serves. Its sockets are NAME.NODE in the folder, and what it spills is in the folder spill there.

    The words start the program, in front of `serve`; `more` are other options. In place of pipes, `ends` are its input and its output, and
    `errors` is where its standard error goes to. `key_of` gives each job's key. As a context it is killed at the end, unless it has ended.
    """

    def __init__(
        self, words: Sequence[str], folder: Union[str, Path], nodes: int = 2, memory: int = 65536, more: Sequence[str] = (),
        errors: Union[int, IO[str]] = subprocess.PIPE, ends: Tuple[int, int] = (subprocess.PIPE, subprocess.PIPE), name: str = "store",
        key_of: Callable[[int], bytes] = key, patience: float = PATIENCE,
    ) -> None:
        self.folder, self.nodes, self.patience = str(folder), nodes, patience
        self._name, self._key_of = name, key_of
        # what it complained of by its end, and at which seconds: nobody looks at the clock here
        self.complaints: List[str] = []
        self.times: List[float] = []
        self._is_ready = False
        options = ["--socket", f"{folder}/{name}", "--nodes", str(nodes), "--memory", str(memory), "--spill", f"{folder}/spill"]
        self.process = subprocess.Popen([*words, "serve", *options, *more], stdin=ends[0], stdout=ends[1], stderr=errors, text=True)

    @property
    def pid(self) -> int:
        return self.process.pid

    def path(self, node: int = 0) -> str:
        """The socket of a node."""
        return f"{self.folder}/{self._name}.{node}"

    # ---- the operator's lines

    def send(self, line: str) -> None:
        assert self.process.stdin
        self.process.stdin.write(line + "\n")
        self.process.stdin.flush()

    def say(self, line: str) -> str:
        """The answer to a line."""
        self.send(line)
        assert self.process.stdout
        return self.process.stdout.readline().rstrip("\n")

    def tell(self, line: str, expected: str) -> None:
        got = self.say(line)
        assert got == expected, f"{line}: got {got!r}, should be {expected!r}"

    def admit(self, node: int, job: int, window: int, device: int = 0) -> None:
        """With its own key."""
        self.tell(f"admit {node} {job} {window} {device} {self._key_of(job).hex()}", f"n{node} op ok")

    def admit_everywhere(self, job: int, window: int, device: int = 0) -> None:
        for node in range(self.nodes):
            self.admit(node, job, window, device)

    def end_job(self, node: int, job: int) -> None:
        self.tell(f"end {node} {job}", f"n{node} op ok")

    def end_input(self) -> None:
        """No line follows. It may go on."""
        assert self.process.stdin
        self.process.stdin.close()
        self.process.stdin = None

    # ---- what it says on its standard error, if that is a pipe

    def line(self) -> str:
        """The next line, for which it waits; nothing at the end."""
        assert self.process.stderr
        return self.process.stderr.readline()

    def lines(self) -> Iterable[str]:
        """The lines as they come, until the end."""
        assert self.process.stderr
        return self.process.stderr

    def end_complaints(self) -> None:
        """Nobody reads further ones."""
        assert self.process.stderr
        self.process.stderr.close()

    def await_ready(self) -> None:
        """Its sockets listen once it says so."""
        said = self.line()
        assert said == READY, f"said {said!r}, and {READY!r} is due"
        self._is_ready = True

    # ---- its end

    def wait(self) -> int:
        """Its status."""
        return self.process.wait(self.patience)

    def ending(self, sent: str = "") -> Ending:
        """Sends this, ends its input, and waits for its end."""
        out, err = self.process.communicate(sent, timeout=self.patience)
        return Ending(out, err or "", self.process.returncode)

    def ended(self, out: str, status: int, err: str = READY, sent: str = "") -> None:
        """It ends so."""
        ending = self.ending(sent)
        assert ending == (out, err, status), f"got {ending}"

    def refused(self, beginning: str) -> None:
        """It doesn't serve, and says so in one line that begins with this."""
        ending = self.ending()
        assert (ending.out, ending.status) == ("", 1), f"got {ending}"
        assert ending.err.startswith(beginning) and ending.err.count("\n") == 1, f"got {ending.err!r}, should be {beginning!r} and why"

    def report(self) -> Report:
        """It is closed, and ends with a right report. What it complained of is kept."""
        ending = self.ending("close\n")
        beginning = READY if self.process.stderr and not self._is_ready else ""
        assert ending.err.startswith(beginning) and ending.status == 0, f"got {ending}"
        self.complaints = ending.err[len(beginning) :].splitlines()
        return report_of(ending.out)

    def close(self, reason: str = "") -> Report:
        """The same, and it complained of device calls alone, that failed for this reason; of nothing if there is none."""
        report = self.report()
        for line in self.complaints:
            failed = FAILED_CALL.fullmatch(line)
            assert failed and failed.group(5) == reason, f"said {line!r}"
        assert not reason or self.complaints, f"no device call failed: {reason}"
        return report

    def ends_badly(self) -> str:
        """It is closed. What is wrong with its end, with messages that were lost and anything that it complained of; no text if all is well."""
        try:
            report = self.close()
        except (AssertionError, ValueError, subprocess.TimeoutExpired) as fault:
            return str(fault) or repr(fault)
        return f"{report.lost} messages were lost" if report.lost else ""

    def kill(self) -> None:
        """It ends without a word, if it still runs."""
        self.process.kill()
        self.process.communicate(timeout=self.patience)

    def __enter__(self) -> Server:
        return self

    def __exit__(self, *_: object) -> None:
        self.kill()
