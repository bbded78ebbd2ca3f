"""The counters in Prometheus' text format: what they count, who may ask, and that a server which doesn't answer holds nobody up."""

from __future__ import annotations

import contextlib
import http.client
import os
import re
import signal
import socket
import stat
import subprocess
import sys
import threading
import time
import unittest
from pathlib import Path
from typing import Dict, List, Tuple

from driving import DAEMON, KEY, PATIENCE, ROOT, Counting, Place, ctl, fill, until

import store_client

CONFINED = str(Path(__file__).with_name("confined.py"))
SAMPLE = re.compile(r'(store_[a-z_]+)(?:\{([a-z]+="[A-Za-z0-9-]+"(?:,[a-z]+="[A-Za-z0-9-]+")*)\})? (-?[0-9]+(?:\.[0-9]+)?(?:e-[0-9]+)?)')


class OverSocket(http.client.HTTPConnection):
    def __init__(self, path: str) -> None:
        super().__init__("localhost", timeout=PATIENCE)
        self._path = path

    def connect(self) -> None:
        self.sock = socket.socket(socket.AF_UNIX)
        self.sock.settimeout(PATIENCE)
        self.sock.connect(self._path)


def got(connection: http.client.HTTPConnection, path: str) -> Tuple[int, str]:
    connection.request("GET", path)
    answer = connection.getresponse()
    text = answer.read().decode()
    connection.close()
    return answer.status, text


def read(text: str) -> Dict[str, float]:
    """Each sample by its name and labels. A line that isn't of the format, or a family without its two lines, is a fault."""
    samples: Dict[str, float] = {}
    families: Dict[str, str] = {}
    lines = text.split("\n")
    assert lines.pop() == "", "no line feed at the end"
    for before, line in zip(["", *lines], lines):
        words = line.split(" ", 3)
        if line.startswith("# HELP "):
            assert words[2] not in families and words[3], line
        elif line.startswith("# TYPE "):
            assert before.startswith(f"# HELP {words[2]} ") and words[3] in ("gauge", "counter"), line
            families[words[2]] = words[3]
        else:
            found = SAMPLE.fullmatch(line)
            assert found and found[1] in families, line
            assert (families[found[1]] == "counter") == found[1].endswith("_total"), line
            name = found[1] + (f"{{{found[2]}}}" if found[2] else "")
            assert name not in samples, line
            samples[name] = float(found[3])
    return samples


def free_port() -> int:
    with socket.socket() as looking:
        looking.bind(("127.0.0.1", 0))
        return int(looking.getsockname()[1])


class Counted(unittest.TestCase):
    def samples(self, place: Place) -> Dict[str, float]:
        # what was seen is told again for a second
        time.sleep(1.1)
        with place.control() as daemon:
            return read(daemon.metrics())

    def of_one_session(self, place: Place) -> Dict[str, float]:
        """Those in which the daemon's own looks have no session open any more, and none of them was too late; nothing otherwise."""
        found = self.samples(place)
        sessions = [found[f'store_sessions{{node="{node}"}}'] for node in (0, 1)]
        return found if sessions == [0, 1] and not found["store_usage_faults"] else {}

    def test_jobs_and_nodes(self) -> None:
        with Place(2, (1, 2)) as place:
            place.start_ready()
            with place.session(2, 1) as session:
                session.put(bytes(1_000))
                found = until(lambda: self.of_one_session(place), "one session, and a look in which all was told")
            due = {
                'store_window_bytes{node="1",job="2"}': 65536, 'store_window_used_bytes{node="1",job="2"}': 1008,
                'store_window_used_bytes{node="0",job="2"}': 0, 'store_device_bytes{node="0",job="1"}': 1 << 20,
                'store_copies{node="1",job="2"}': 1, 'store_works{node="1",job="2"}': 0, "store_up": 1, "store_nodes": 2,
                'store_sessions{node="0"}': 0, 'store_sessions{node="1"}': 1, "store_restarts_total": 0, "store_admissions_total": 4,
                "store_descriptors_needed": 2082, "store_usage_faults": 0, 'store_spilled_bytes{node="0"}': 0,
            }
            self.assertEqual({name: found.get(name) for name in due}, due)
            above = ("uptime_seconds", "resident_bytes", "threads", "descriptors", 'spill_free_bytes{node="1"}', "look_seconds")
            for name in above:
                self.assertGreater(found[f"store_{name}"], 0, name)

    def test_orders_and_refusals(self) -> None:
        with Place() as place:
            place.start_ready()
            for line in (f"admit 0 3 64 0 {KEY}", f"admit 0 2 64 0 {KEY}", "quota 0 3 128 0", "quota 0 3 129 0", "quota 0 9 64 0", "end 0 3"):
                place.ask(line)
            found = self.samples(place)
            due = {
                'store_orders_total{order="admit"}': 3, 'store_orders_total{order="quota"}': 3, 'store_orders_total{order="end"}': 1,
                'store_order_refusals_total{order="admit",number="3",name="Exists"}': 1,
                'store_order_refusals_total{order="quota",number="7",name="BadSize"}': 1,
                'store_order_refusals_total{order="quota",number="1",name="NotAdmitted"}': 1,
                "store_admissions_total": 2, "store_quota_changes_total": 1, "store_jobs_ended_total": 1,
            }
            self.assertEqual({name: found.get(name) for name in due}, due)

    def test_what_is_spilled_and_what_failed(self) -> None:
        with Place() as place:
            # blocks of 1,024 bytes
            place.start_ready(["bash", "-c", 'ulimit -f 24; exec "$@"', "_"])
            with place.session() as session:
                fill(session)
                until(place.spilled, "a spilled object")
                found = self.samples(place)
                self.assertEqual(found['store_spilled_bytes{node="0"}'], 20_000 * found['store_spilled_files{node="0"}'])
                self.assertGreater(found['store_device_used_bytes{node="0",job="1"}'], 0)
                with self.assertRaises(store_client.DeviceFailed):
                    for _ in range(3):
                        session.put(bytes(30_000))
                until(lambda: " failed: " in place.log(), "it is told")
                failed = self.samples(place)
            listed = failed['store_device_call_failures_total{node="0",job="1",call="write"}']
            self.assertEqual(listed, place.log().count("write failed: "))
            self.assertIn("store_device_call_failures_unlisted_total", failed)

    def test_restarts(self) -> None:
        with Place() as place:
            place.start_ready()
            os.kill(place.server(), signal.SIGKILL)
            until(lambda: len(place.said()) > 1, "ready again")
            found = self.samples(place)
            self.assertEqual((found["store_restarts_total"], found["store_admissions_total"]), (1, 2))

    def test_storectl_prints_them(self) -> None:
        with Place() as place:
            place.start_ready()
            status, printed, complained = ctl(place, "metrics")
            self.assertEqual((status, complained, read(printed)["store_up"]), (0, "", 1))


class Page(unittest.TestCase):
    def test_the_operators_page_names_each_and_no_other(self) -> None:
        table = (ROOT / "docs/OPERATING.md").read_text().split("| Names, after `store_` | Of |")[1].split("\n\n")[0]
        named = [name for row in table.splitlines()[2:] for name in re.findall("`([a-z_]+)`", row.split("|")[1])]
        with Counting() as place:
            place.serve()
            with place.control() as daemon:
                there = re.findall("^# TYPE store_([a-z_]+) ", daemon.metrics(), re.MULTILINE)
        self.assertEqual(sorted(named), sorted(there))


class Served(unittest.TestCase):
    def test_over_a_socket_of_the_owners(self) -> None:
        with Place() as place:
            place.write(1, (1,), metrics="metrics", watch="0")
            daemon = place.start_ready()
            path = place.path / "metrics"
            self.assertEqual(stat.S_IMODE(path.stat().st_mode), 0o600)
            status, text = got(OverSocket(str(path)), "/metrics")
            self.assertEqual((status, read(text)["store_up"]), (200, 1))
            self.assertEqual(got(OverSocket(str(path)), "/health"), (200, "ok\n"))
            self.assertEqual(got(OverSocket(str(path)), "/other")[0], 404)
            server = place.server()
            os.kill(server, signal.SIGSTOP)
            try:
                time.sleep(1.1)
                self.assertEqual(got(OverSocket(str(path)), "/health"), (503, "node 0: no answer for 4 seconds\n"))
                status, text = got(OverSocket(str(path)), "/metrics")
                self.assertEqual((status, read(text)["store_usage_faults"]), (200, 1))
            finally:
                os.kill(server, signal.SIGCONT)
            self.assertEqual(place.end(daemon), 0)
            self.assertFalse(path.exists())

    def test_over_a_port_by_the_command_line(self) -> None:
        with Place() as place:
            port = free_port()
            place.start_ready(more=("--metrics", f"127.0.0.1:{port}"))
            self.assertEqual(got(http.client.HTTPConnection("127.0.0.1", port, timeout=PATIENCE), "/health"), (200, "ok\n"))

    def test_unix_sockets_are_all_that_it_needs(self) -> None:
        """The unit file allows no others; a port wants more, and says so."""
        confined = (sys.executable, CONFINED)
        with Place() as place:
            place.write(1, (1,), metrics="metrics")
            place.start_ready(confined)
            self.assertEqual(got(OverSocket(str(place.path / "metrics")), "/health"), (200, "ok\n"))
        with Place() as place:
            port = free_port()
            place.write(1, (1,), metrics=f"127.0.0.1:{port}")
            self.assertEqual(place.start(confined).wait(PATIENCE), 1)
            due = f"store-daemon: metrics 127.0.0.1:{port}: Address family not supported by protocol: the unit file wants "
            self.assertEqual(place.log().splitlines()[-1], f"{due}RestrictAddressFamilies=AF_UNIX AF_INET")

    def test_another_address_is_refused_in_a_line(self) -> None:
        with Place() as place:
            for text in ("0.0.0.0:9470", "localhost:9470", "[::]:9470", ":9470"):
                command = [sys.executable, DAEMON, "--metrics", text, str(place.settings)]
                done = subprocess.run(command, capture_output=True, text=True, check=False, timeout=PATIENCE)
                due = f"store-daemon: --metrics: '{text}' isn't 127.0.0.1:PORT, nor a path: only this machine may ask\n"
                self.assertEqual((done.returncode, done.stdout, done.stderr), (1, "", due))
            place.write(1, (1,), metrics="127.0.0.1:0")
            self.assertIn("[store] metrics: '0' isn't a port from 1 to 65535", place.refused())

    def test_clients_that_say_nothing_hold_nobody_up_for_ever(self) -> None:
        with Place() as place:
            place.write(1, (1,), metrics="metrics")
            place.start_ready()
            path = str(place.path / "metrics")
            idle = []
            try:
                for _ in range(40):
                    stream = socket.socket(socket.AF_UNIX)
                    idle.append(stream)
                    stream.connect(path)
                self.assertEqual(place.ask("usage 0 1"), "n0 op usage 65536 0 1048576 0 0 0")
                until(lambda: self.is_served(path), "they are cut off")
            finally:
                for stream in idle:
                    stream.close()

    @staticmethod
    def is_served(path: str) -> bool:
        with contextlib.closing(OverSocket(path)) as connection, contextlib.suppress(OSError, http.client.HTTPException):
            return got(connection, "/health") == (200, "ok\n")
        return False

    def test_many_scrapes_are_one_look(self) -> None:
        with Place(2, range(1, 21)) as place:
            place.write(2, range(1, 21), metrics="metrics", memory="4M")
            place.start_ready()
            texts: List[Tuple[int, str]] = []

            def scrape() -> None:
                texts.append(got(OverSocket(str(place.path / "metrics")), "/metrics"))

            threads = [threading.Thread(target=scrape) for _ in range(8)]
            for thread in threads:
                thread.start()
            for thread in threads:
                thread.join()
            seconds = {read(text)["store_look_seconds"] for _, text in texts}
            self.assertEqual((len(texts), len(seconds)), (8, 1))


if __name__ == "__main__":
    unittest.main()
