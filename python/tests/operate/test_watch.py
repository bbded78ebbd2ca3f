"""A server that doesn't answer: each answer is bounded, the daemon notices, and ends it if the settings want that."""

from __future__ import annotations

import contextlib
import os
import re
import signal
import socket
import subprocess
import time
import unittest
from pathlib import Path
from typing import Iterator, Tuple

from driving import KEY, PATIENCE, Place, ctl, ctl_words, is_running, until

from store_operator.limits import SESSIONS, raise_limit

# beyond a bound, on a machine that does much else
SLACK = 20.0
# seconds that a server may take for an answer before it counts as stuck: more than one needs on a machine that does much else
BUSY = "4"


def timed(place: Place, *words: str) -> Tuple[int, str, str, float]:
    """What storectl comes to, and the seconds that it took."""
    begun = time.monotonic()
    return (*ctl(place, *words), time.monotonic() - begun)


@contextlib.contextmanager
def stopped(place: Place) -> Iterator[int]:
    """The server's process, which does nothing meanwhile."""
    server = place.server()
    os.kill(server, signal.SIGSTOP)
    try:
        yield server
    finally:
        with contextlib.suppress(ProcessLookupError):
            os.kill(server, signal.SIGCONT)


def state(place: Place) -> str:
    with place.control() as daemon:
        return str(daemon.status()["state"])


class Answers(unittest.TestCase):
    def test_a_ping_is_answered(self) -> None:
        with Place(2) as place:
            place.start_ready()
            status, printed, complained = ctl(place, "ping")
            self.assertEqual((status, complained), (0, ""))
            self.assertRegex(printed, r"^pong: 2 nodes, [0-9]+\.[0-9] ms\n$")
            self.assertRegex(ctl(place, "--json", "ping")[1], r'^\{"nodes": 2, "milliseconds": [0-9]+\.[0-9]\}\n$')

    def test_pings_are_in_no_journal(self) -> None:
        with Place() as place:
            place.write(1, (), watch="0.1")
            place.start_ready()
            for _ in range(5):
                place.ask("ping")
            self.assertEqual(place.ask("close"), "report 0 0 0 0 0")

    def test_each_command_is_bounded_at_a_stopped_server(self) -> None:
        with Place() as place:
            place.write(1, (1,), watch="0")
            place.start_ready()
            place.key_file.chmod(0o600)
            orders = (("quota", "1", "--window", "1K", "--device", "0"), ("end", "1"))
            with stopped(place):
                for words in (("ping",), ("usage",), *orders):
                    status, printed, complained, seconds = timed(place, "--timeout", "0.5", *words)
                    self.assertEqual((status, printed), (1, ""), words)
                    self.assertEqual(complained, f"storectl: {place.path}/control: no answer for 0.5 seconds\n")
                    self.assertLess(seconds, SLACK)
                self.assertIn("state=running", place.ask("status"))
                for words in (("status",), ("jobs",), ("sessions",)):
                    self.assertEqual(ctl(place, "--timeout", "5", *words)[0], 0, words)

    def test_a_ping_names_the_node_that_does_not_answer(self) -> None:
        with Place() as place:
            place.write(1, (1,), watch="0")
            place.start_ready()
            self.assertRegex(ctl(place, "ping")[1], r"^pong: 1 node, [0-9]+\.[0-9] ms\n$")
            with stopped(place):
                self.assertEqual(ctl(place, "ping"), (1, "", "storectl: not done: node 0: no answer for 4 seconds\n"))

    def test_a_daemon_that_is_stopped_is_not_waited_for(self) -> None:
        with Place() as place:
            daemon = place.start_ready()
            daemon.send_signal(signal.SIGSTOP)
            try:
                for words in (("ping",), ("status",), ("close",)):
                    status, _, complained, seconds = timed(place, "--timeout", "0.5", *words)
                    self.assertEqual((status, complained.count("\n")), (1, 1))
                    self.assertIn("no answer for 0.5 seconds", complained)
                    self.assertLess(seconds, SLACK)
            finally:
                daemon.send_signal(signal.SIGCONT)

    def test_a_stopped_server_is_closed_all_the_same(self) -> None:
        with Place() as place:
            place.start_ready()
            with stopped(place) as server:
                status, printed, complained = ctl(place, "close")
                self.assertEqual((status, printed, complained), (0, "terminated\n", ""))
                self.assertFalse(is_running(server))


class Watched(unittest.TestCase):
    def test_a_server_that_stops_and_goes_on(self) -> None:
        with Place(2) as place:
            place.write(2, (1,), watch="0.2", watch_patience=BUSY)
            place.start_ready()
            self.assertEqual(state(place), "running")
            with stopped(place) as server:
                until(lambda: state(place) != "running", "it is noticed")
                self.assertRegex(state(place), r"^not answering since 2\d{3}-\d\d-\d\dT\d\d:\d\d:\d\dZ$")
                for line in ("usage 0 1", "usages", f"admit 0 9 64 0 {KEY}"):
                    self.assertRegex(place.ask(line), "^not done: the server has not answered since 2")
                until(lambda: "WARNING the server has not answered since" in place.log(), "a warning")
                # it is told once
                time.sleep(3)
                self.assertEqual(place.log().count("WARNING"), 1)
            until(lambda: state(place) == "running", "it is running again")
            self.assertIn("INFO the server answers again, after", place.log())
            self.assertEqual((place.server(), place.ask("usage 0 1")), (server, "n0 op usage 65536 0 1048576 0 0 0"))

    def test_watching_goes_on_meanwhile(self) -> None:
        with Place() as place:
            place.write(1, (1,), watch="0.2", watch_patience=BUSY)
            place.start_ready()
            shown = place.path / "watched"
            with open(shown, "w") as watched:
                watching = subprocess.Popen(ctl_words(place, "watch", "--every", "0.1"), stdout=watched, stderr=subprocess.STDOUT)
            try:
                until(lambda: shown.read_text().startswith("running, "), "a look")
                with stopped(place):
                    until(lambda: "\nnot answering since " in shown.read_text(), "it is shown")
                until(lambda: re.search("not answering (?s:.*)running, ", shown.read_text()), "it goes on")
                self.assertIsNone(watching.poll())
            finally:
                watching.terminate()
                watching.wait(PATIENCE)

    def test_a_stuck_server_is_started_again_if_the_settings_say_so(self) -> None:
        with Place() as place:
            place.write(1, (1,), watch="0.2", watch_patience=BUSY, restart_stuck="yes")
            place.start_ready()
            ready = len(place.said())
            with stopped(place) as server:
                until(lambda: len(place.said()) > ready, "ready again")
                self.assertFalse(is_running(server))
                self.assertIn("ERROR the server is stuck, and is ended and started again: its objects are lost", place.log())
                self.assertEqual(place.ask("usage 0 1"), "n0 op usage 65536 0 1048576 0 0 0")
                self.assertIn("restarts=1", place.ask("status"))

    def test_nobody_watches_if_the_settings_say_so(self) -> None:
        with Place() as place:
            place.write(1, (1,), watch="0", watch_patience="0.1")
            place.start_ready()
            with stopped(place):
                time.sleep(2)
                self.assertEqual(state(place), "running")
            self.assertNotIn("WARNING", place.log())

    def test_all_sessions_taken_is_an_answer(self) -> None:
        with Place() as place:
            place.write(1, (1,), watch="0.2", watch_patience=BUSY)
            place.start_ready()
            streams = []
            # of this process, too
            self.assertIsNone(raise_limit(1))
            try:
                for _ in range(SESSIONS + 6):
                    stream = socket.socket(socket.AF_UNIX)
                    streams.append(stream)
                    stream.connect(str(place.socket()))
                self.assertRegex(place.ask("ping"), "^pong nodes=1 ")
                self.assertEqual(place.ask("usages"), "usages 0:1:65536:0:1048576:0:0:0")
            finally:
                for stream in streams:
                    stream.close()
            self.assertNotIn("WARNING", place.log())


class Manager(unittest.TestCase):
    def test_the_manager_is_told_that_the_daemon_goes_on(self) -> None:
        with Place() as place, socket.socket(socket.AF_UNIX, socket.SOCK_DGRAM) as manager:
            manager.settimeout(PATIENCE)
            manager.bind(str(place.path / "manager"))
            place.start_ready(names={"NOTIFY_SOCKET": str(place.path / "manager"), "WATCHDOG_USEC": "200000"})
            heard = [manager.recv(4096) for _ in range(6)]
            self.assertGreaterEqual(heard.count(b"WATCHDOG=1"), 4)
            self.assertNotIn(b"WATCHDOG_USEC", Path(f"/proc/{place.server()}/environ").read_bytes())

    def test_another_process_s_watchdog_is_none_of_its_own(self) -> None:
        with Place() as place, socket.socket(socket.AF_UNIX, socket.SOCK_DGRAM) as manager:
            manager.settimeout(1)
            manager.bind(str(place.path / "manager"))
            names = {"NOTIFY_SOCKET": str(place.path / "manager"), "WATCHDOG_USEC": "200000", "WATCHDOG_PID": "1"}
            place.start_ready(names=names)
            self.assertEqual(manager.recv(4096).splitlines()[0], b"READY=1")
            self.assertRaises(socket.timeout, manager.recv, 4096)


if __name__ == "__main__":
    unittest.main()
