"""Tests of store_testing: what it takes for a right end of a server, and what it refuses; how it reads frames, and a process's memory;
how it waits, and how it counts.

A script stands in for the program, so that none is needed.
"""

from __future__ import annotations

import contextlib
import io
import os
import socket
import subprocess
import sys
import tempfile
import unittest
from pathlib import Path
from typing import Iterator, List, Tuple

from store_testing import PATIENCE, ROOT
from store_testing.counting import SHOWN, tell
from store_testing.frames import ask, exchange, frame, hello, key, numbers, read_frame, receive
from store_testing.looks import Looks
from store_testing.processes import memory_of
from store_testing.server import Report, Server, report_of
from store_testing.waiting import until

# says what it is told to at its begin and its end, and answers each other line with what it was started with
PROGRAM = """
import sys
words, status, report, said, failed = sys.argv[6:], {status}, {report!r}, {said!r}, {failed!r}
sys.stderr.write(said)
sys.stderr.flush()
for line in sys.stdin:
    if line == "close\\n":
        break
    print("n0 op ok" if line.startswith(("admit ", "end ")) else line.strip(), flush=True)
else:
    report = ""
sys.stdout.write(report)
sys.stderr.write(failed)
sys.exit(status)
"""
# unit tests that are run in a process of their own
FORKS = """
import os, signal, subprocess, sys, unittest
STARTED = "import signal, sys; sys.exit(any(signal.getsignal(one) is signal.SIG_IGN for one in (signal.SIGHUP, signal.SIGQUIT)))"
class Forked(unittest.TestCase):
    def test_what_is_started(self):
        self.assertEqual(subprocess.call([sys.executable, "-c", STARTED]), 0)
    def test_how_a_child_ends(self):
        child = os.fork()
        if not child:
            os._exit(signal.getsignal(signal.SIGTERM) is not signal.SIG_DFL)
        self.assertEqual(os.waitpid(child, 0)[1], 0)
        self.assertIs(signal.getsignal(signal.SIGTERM), signal.default_int_handler)
"""
FAULTS = """
import unittest
class Faults(unittest.TestCase):
    def test_fails(self):
        self.assertEqual(1, 2)
    def test_raises(self):
        raise OSError("it broke")
    def test_passes(self):
        pass
    @unittest.skip("why")
    def test_is_left_out(self):
        pass
"""
READY = "store: ready\n"
RIGHT = "report 7 7 0 0 0\n"
FAILED = "store: node 0: job 3: work 1: write failed: No such file or directory (os error 2)\n"
REASON = "No such file or directory (os error 2)"


@contextlib.contextmanager
def serving(report: str = RIGHT, said: str = READY, failed: str = "", status: int = 0, name: str = "store") -> Iterator[Server]:
    """A stand-in that says these at its begin and its end."""
    with tempfile.TemporaryDirectory() as folder:
        script = Path(folder, "program.py")
        script.write_text(PROGRAM.format(status=status, report=report, said=said, failed=failed), encoding="ascii")
        with Server([sys.executable, str(script)], folder, 1, name=name) as server:
            yield server


class Ends(unittest.TestCase):
    def test_a_right_end(self) -> None:
        with serving() as server:
            server.admit(0, 1, 64)
            server.end_job(0, 1)
            self.assertEqual(server.close(), Report(7, 0))
        with serving("report 7 7 0 2 0\n") as server:
            server.await_ready()
            self.assertEqual(server.close(), Report(7, 2))
        with serving() as server:
            self.assertEqual(server.ends_badly(), "")

    def test_wrong_reports(self) -> None:
        for line in ("report 7 6 0 0 0", "report 7 7 1 0 0", "report 7 7 0 0 1", "report 7 7 0 0", "report 7 7 0 0 0 0", "n0 op ok", ""):
            with self.subTest(line=line), serving(f"{line}\n") as server:
                self.assertNotEqual(server.ends_badly(), "")
            with self.subTest(line=line), self.assertRaises((AssertionError, ValueError)):
                report_of(line)

    def test_wrong_ends(self) -> None:
        wrong = {
            "lost messages": serving("report 7 7 0 1 0\n"), "a complaint": serving(failed=FAILED), "a status": serving(status=1),
            "not ready": serving(said=""), "another line": serving(failed="store: what\n"), "no report": serving(""),
        }
        for what, stand_in in wrong.items():
            with self.subTest(what), stand_in as server:
                self.assertNotEqual(server.ends_badly(), "")

    def test_complaints(self) -> None:
        """Those of a reason are taken, if it is the one that is due, and there are some."""
        with serving(failed=FAILED * 2) as server:
            self.assertEqual(server.close(REASON), Report(7, 0))
            self.assertEqual(server.complaints, FAILED.splitlines() * 2)
        for failed, reason in ((FAILED, "another"), ("", REASON), (f"{FAILED}store: what\n", REASON)):
            with self.subTest(failed=failed, reason=reason), serving(failed=failed) as server, self.assertRaises(AssertionError):
                server.close(reason)

    def test_what_is_told(self) -> None:
        with serving() as server:
            server.tell("what", "what")
            with self.assertRaises(AssertionError):
                server.tell("what", "another")
            with self.assertRaises(AssertionError):
                server.ended("", 0, sent="close\n")

    def test_what_is_refused(self) -> None:
        with serving(said="store: socket failed: here\n", report="", status=1) as server:
            server.refused("store: socket failed: ")
        for stand_in in (serving(), serving(said="store: socket failed: here\n"), serving(said="store: what\nstore: what\n", status=1)):
            with self.subTest(), stand_in as server, self.assertRaises(AssertionError):
                server.refused("store: ")

    def test_where_it_listens(self) -> None:
        for name in ("store", "store.new"):
            with self.subTest(name), serving(name=name) as server:
                self.assertEqual(server.path(1), f"{server.folder}/{name}.1")

    def test_ready(self) -> None:
        with serving(said="store: what\n") as server, self.assertRaises(AssertionError):
            server.await_ready()

    def test_a_killed_one(self) -> None:
        with serving() as server:
            server.kill()
            self.assertNotEqual(server.process.returncode, 0)
            server.kill()


class Processes(unittest.TestCase):
    def test_memory(self) -> None:
        self.assertGreater(memory_of(os.getpid()), 1 << 20)
        self.assertGreaterEqual(memory_of(os.getpid(), most=True), memory_of(os.getpid()))

    def test_one_that_has_ended(self) -> None:
        with subprocess.Popen([sys.executable, "-c", ""], stdout=subprocess.PIPE) as process:
            process.communicate()
        with self.assertRaises((AssertionError, OSError)):
            memory_of(process.pid)


class Looking(unittest.TestCase):
    def test_faults_and_counts(self) -> None:
        looks, printed = Looks(), io.StringIO()
        with contextlib.redirect_stdout(printed):
            looks.look(ROOT / "tests/library", 7, "it isn't there", True)
            self.assertEqual(looks.end("looks"), 0)
            looks.look(ROOT / "tests/library", 8, "it is wrong", False)
            self.assertEqual(looks.end("looks"), 1)
        self.assertEqual(printed.getvalue(), "1 passed, 0 failed\nlooks: tests/library:8: it is wrong\n1 passed, 1 failed\n")


class Waiting(unittest.TestCase):
    def test_what_comes(self) -> None:
        given = iter([None, 0, "it came"])
        self.assertEqual(until(lambda: next(given), "what is given"), "it came")

    def test_what_doesn_t_come(self) -> None:
        with self.assertRaisesRegex(AssertionError, "^not after 0 seconds: what never comes$"):
            until(lambda: False, "what never comes", 0.05)


class Counting(unittest.TestCase):
    def test_what_a_part_came_to(self) -> None:
        printed = io.StringIO()
        with contextlib.redirect_stdout(printed):
            self.assertEqual(tell("one", 2, 0, "nothing is shown"), (2, 0))
            self.assertEqual(tell("two", 1, 1, "".join(f"{number}\n" for number in range(SHOWN + 1))), (1, 1))
        shown = "".join(f"  {number}\n" for number in range(1, SHOWN + 1))
        self.assertEqual(printed.getvalue(), f"passed: one: 2 passed, 0 failed\nFAILED: two: 1 passed, 1 failed\n{shown}")


class Running(unittest.TestCase):
    def run_by(self, words: List[str], tests: str) -> "subprocess.CompletedProcess[str]":
        """Runs unit tests, started by these words."""
        with tempfile.TemporaryDirectory() as folder:
            Path(folder, "test_these.py").write_text(tests, encoding="ascii")
            words = [*words, sys.executable, "-B", "-m", "store_checks.unit_tests", folder]
            place = {**os.environ, "PYTHONPATH": str(ROOT / "python/src")}
            return subprocess.run(words, capture_output=True, text=True, check=False, timeout=PATIENCE, env=place)

    def test_signals_in_what_is_forked_off_and_started(self) -> None:
        """As under nohup, and in the background."""
        done = self.run_by(["sh", "-c", "trap '' HUP INT QUIT; exec \"$@\"", "sh"], FORKS)
        self.assertEqual((done.returncode, done.stdout), (0, "2 passed, 0 failed\n"), done.stderr)

    def test_what_failed_is_named_at_the_end(self) -> None:
        done = self.run_by([], FAULTS)
        told = [
            "failed: test_these.Faults.test_fails: AssertionError: 1 != 2",
            "failed: test_these.Faults.test_raises: OSError: it broke",
            "1 passed, 2 failed",
        ]
        # what isn't run is told in other words by an older Python
        self.assertRegex(done.stdout, r"^not run: test_is_left_out \(.*\): why\n")
        self.assertEqual((done.returncode, done.stdout.splitlines()[1:]), (1, told))


class Frames(unittest.TestCase):
    def ends(self) -> Tuple[socket.socket, socket.socket]:
        """Both ends of a stream."""
        here, there = socket.socketpair()
        self.addCleanup(here.close)
        self.addCleanup(there.close)
        return here, there

    def test_what_is_written(self) -> None:
        self.assertEqual(frame(0x11), bytes([0, 0, 0, 1, 0x11]))
        self.assertEqual(frame(0x82, numbers(20)), bytes([0, 0, 0, 5, 0x82, 0, 0, 0, 20]))
        self.assertEqual(hello(258), bytes([0, 0, 0, 37, 1, 0, 0, 1, 2]) + key(258))
        self.assertEqual(hello(258, bytes(32)), bytes([0, 0, 0, 37, 1, 0, 0, 1, 2]) + bytes(32))

    def test_what_is_read(self) -> None:
        """Frame by frame; at the end of the stream as much as came."""
        here, there = self.ends()
        there.sendall(frame(0x80) + frame(0x83, b"Hello") + frame(0x83, b"cut")[:-1])
        there.shutdown(socket.SHUT_WR)
        read = [read_frame(here) for _ in range(4)]
        self.assertEqual(read, [frame(0x80), frame(0x83, b"Hello"), frame(0x83, b"cut")[:-1], b""])

    def test_what_is_asked(self) -> None:
        here, there = self.ends()
        there.sendall(frame(0x80) + frame(0x81) + b"no")
        self.assertEqual(exchange(here, frame(0x11)), frame(0x80))
        self.assertEqual(read_frame(there), frame(0x11))
        with self.assertRaises(AssertionError):
            ask(here, frame(0x11), frame(0x80))
        there.shutdown(socket.SHUT_WR)
        self.assertEqual(receive(here, 3), b"no")
