"""The server's own counts: as its lines tell them, in the metrics, in storectl, and what the log tells of strangers.

A program stands in for one that counts. The last tests are at the program itself, and are left out if it is older than these lines.
"""

from __future__ import annotations

import asyncio
import json
import os
import re
import signal
import socket
import time
import unittest
from typing import Any, Dict, List, Tuple

from driving import PATIENCE, Counting, Place, crash, ctl, until
from test_metrics import read

import store_client
from store_operator.counting import OwnHellos
from store_operator.counts import Counts, CountsFault, JobCounts, NodeCounts, counts_text, read_counts, read_job, read_node
from store_operator.relaying import relay

NODE = "n0 op counts hellos:7 hellos-refused:1000 malformed:2 lock-waits:12 lock-sleeps:3 end-folds:8"
OF_JOB = {
    "create": 2, "get-wait": 5, "refused.4": 1, "refused.10": 3, "bytes-in": 4096, "bytes-out": 8192, "spills": 2, "restores-failed": 1,
    "pulls": 4, "arrivals": 6, "locates": 9, "fetched": 10, "sources-gone": 11, "chunks-sent": 12, "not-here": 13, "evictions": 14,
    "removals": 15,
}
JOB = " ".join(["n0 op counts 1", *(f"{name}:{count}" for name, count in OF_JOB.items())])
SAMPLES = {
    'store_commands_total{node="0",job="1",command="create"}': 2, 'store_commands_total{node="0",job="1",command="get-wait"}': 5,
    'store_refusals_total{node="0",job="1",number="4",name="Absent"}': 1,
    'store_refusals_total{node="0",job="1",number="10",name="Pending"}': 3,
    'store_session_bytes_total{node="0",job="1",direction="in"}': 4096, 'store_session_bytes_total{node="0",job="1",direction="out"}': 8192,
    'store_device_calls_total{node="0",job="1",call="spill",result="done"}': 2,
    'store_device_calls_total{node="0",job="1",call="restore",result="failed"}': 1,
    'store_pulls_total{node="0",job="1"}': 4, 'store_arrivals_total{node="0",job="1"}': 6,
    'store_fetches_total{node="0",job="1",stage="directory"}': 9, 'store_fetches_total{node="0",job="1",stage="whole"}': 10,
    'store_fetches_total{node="0",job="1",stage="absent"}': 11, 'store_served_total{node="0",job="1",answer="chunk"}': 12,
    'store_served_total{node="0",job="1",answer="absent"}': 13, 'store_evictions_total{node="0",job="1"}': 14,
    'store_removals_total{node="0",job="1"}': 15,
    'store_hellos_total{node="0",result="taken"}': 7, 'store_hellos_total{node="0",result="refused"}': 1000,
    'store_malformed_sessions_total{node="0"}': 2, 'store_lock_waits_total{node="0"}': 12, 'store_lock_sleeps_total{node="0"}': 3,
    'store_end_folds_total{node="0"}': 8, 'store_hellos_total{node="1",result="taken"}': 0, "store_counts_faults": 0,
}
FAMILIES = tuple(
    f"store_{name}"
    for name in (
        "commands", "refusals", "session_bytes", "device_calls", "pulls", "arrivals", "fetches", "served", "evictions", "removals",
        "hellos", "malformed", "lock", "end_folds", "counts_faults",
    )
)
OLDER = "this server has no line counts: its program is older than that"
# what the log tells of strangers
HELLOS, SESSIONS = r"(?:\d+ Hellos? w\w+ refused)?", r"(?:\d+ sessions? sent what is no frame)?"
TOLD = re.compile(rf" WARNING (node \d: {HELLOS}(?: and )?{SESSIONS}, in [0-9.]+ seconds)$", re.MULTILINE)


def samples(place: Place) -> Dict[str, float]:
    # what was seen is told again for a second
    time.sleep(1.1)
    with place.control() as daemon:
        return read(daemon.metrics())


def strangers(place: Place) -> List[str]:
    """The lines of the log that tell of them."""
    return TOLD.findall(place.log())


def refused(count: int, malformed: int = 0) -> str:
    return f"n0 op counts hellos:0 hellos-refused:{count} malformed:{malformed} lock-waits:0 lock-sleeps:0 end-folds:0"


class Lines(unittest.TestCase):
    def test_what_they_say(self) -> None:
        self.assertEqual(read_node(NODE, 0), NodeCounts(0, 7, 1000, 2, 12, 3, 8))
        row = read_job(JOB, 0, 1)
        assert row is not None
        self.assertEqual((row, row.commands), (JobCounts(0, 1, OF_JOB), 7))
        self.assertEqual(read_job("n0 op counts 1", 0, 1), JobCounts(0, 1, {}))
        self.assertIsNone(read_job("n0 op refused 1 NotAdmitted", 0, 1))

    def test_what_says_nothing_is_a_fault(self) -> None:
        wrong = (NODE.replace("hellos:7 ", ""), NODE.replace(":7", ":x"), NODE.replace(":7", ""))
        for answer in ("", "n1 op counts hellos:1", "n0 op counts", *wrong):
            self.assertRaises(CountsFault, read_node, answer, 0)
        for answer in ("", "n0 op counts 12 get:1", "n0 op counts 1 get", "n0 op refused 2 BadId", "not done: a fault"):
            self.assertRaises(CountsFault, read_job, answer, 0, 1)

    def test_the_daemon_s_own_hellos_are_left_out_and_what_is_told_never_falls(self) -> None:
        own, told = OwnHellos(), []
        for sent, unread, count in ((0, 0, 2), (1, 0, 2), (0, 0, 3), (2, 0, 9), (1, 1, 9)):
            for _ in range(sent):
                own.sent(0)
            for _ in range(unread):
                own.unread(0)
            told.append(own.left_out(NodeCounts(0, 0, count, 0, 0, 0, 0)).hellos_refused)
        self.assertEqual(told, [2, 2, 2, 6, 6])
        own.begin()
        own.sent(0)
        self.assertEqual(own.left_out(NodeCounts(0, 0, 0, 0, 0, 0, 0)).hellos_refused, 0)


class Asked(unittest.TestCase):
    def test_metrics(self) -> None:
        with Counting(2) as place:
            place.serve(counts_0=NODE, counts_0_1=JOB)
            found = samples(place)
            self.assertEqual({name: found.get(name) for name in SAMPLES}, SAMPLES)
            ours = [name for name in found if name.startswith(FAMILIES)]
            # of node 1 there are five more, which are 0
            self.assertEqual(len(ours), len(SAMPLES) + 5, ours)

    def test_pings_are_the_daemon_s_own(self) -> None:
        with Counting() as place:
            place.serve(counts_0=refused(3))
            place.ask("ping")
            place.ask("ping")
            self.assertEqual(samples(place)['store_hellos_total{node="0",result="refused"}'], 1)

    def test_a_look_at_a_job_that_has_just_ended_is_no_hello(self) -> None:
        with Counting() as place:
            place.serve(counts_0=refused(3))
            # not by the daemon, which takes it for one that lives
            self.assertEqual(asyncio.run(relay(place.path / "store.new.c", "end 0 1", PATIENCE)), "n0 op ok")
            self.assertEqual((place.ask("usage 0 1"), place.ask("usages")), ("n0 op refused 1 NotAdmitted", "usages"))
            with place.control() as daemon:
                self.assertEqual([row.hellos_refused for row in daemon.counts().nodes], [3])

    def test_storectl_shows_them(self) -> None:
        with Counting(2) as place:
            place.serve(counts_0=NODE, counts_0_1=JOB, counts_1_1="n1 op counts 1 list:4")
            nodes = (
                "NODE  HELLOS  REFUSED  MALFORMED  LOCK WAITS  LOCK SLEEPS  END FOLDS\n"
                "   0       7     1000          2          12            3          8\n"
            )
            status, printed, complained = ctl(place, "counts")
            self.assertEqual((status, complained), (0, ""))
            first, second = printed.split("\n\n")
            self.assertEqual(first + "\n", nodes + "   1       0        0          0           0            0          0\n")
            self.assertEqual(second.splitlines()[0], "NODE  JOB               COUNT  NUMBER")
            self.assertIn("   0    1           evictions      14\n", second)
            self.assertIn("   0    1  refused 10 Pending       3\n", second)
            self.assertTrue(second.endswith("   1    1                list       4\n"), second)
            self.assertEqual(ctl(place, "counts", "1", "1")[1].splitlines()[-2:], ["NODE  JOB  COUNT  NUMBER", "   1    1   list       4"])
            self.assertEqual(ctl(place, "counts", "0", "9")[1], f"{nodes}\nNODE  JOB  COUNT  NUMBER\n")
            self.assertEqual(ctl(place, "counts", "2"), (1, "", "storectl: there is no node 2: the server has 0 to 1\n"))
            told: Any = json.loads(ctl(place, "--json", "counts", "0")[1])
            names = {"node": 0, "hellos": 7, "hellos_refused": 1000, "malformed": 2, "lock_waits": 12, "lock_sleeps": 3, "end_folds": 8}
            self.assertEqual(told, [{**names, "jobs": [{"job": 1, "counts": OF_JOB}]}])

    def test_top_has_a_column_of_them(self) -> None:
        with Counting() as place:
            place.serve(counts_0_1=JOB)
            lines = ctl(place, "top", "--once")[1].splitlines()
            self.assertIn("  OF  COMMANDS/S  DEVICE  ", lines[3])

    def test_a_job_that_has_ended_is_left_out(self) -> None:
        with Counting() as place:
            place.serve()
            with place.control() as daemon:
                self.assertEqual((len(daemon.counts().nodes), daemon.counts().jobs), (1, ()))


class Faults(unittest.TestCase):
    def test_an_older_server(self) -> None:
        with Place(1, (1,), watch="0.2") as place:
            place.start_ready()
            if not place.ask("counts").startswith("not done: this server has no line counts"):
                self.skipTest("the program has these lines")
            self.assertEqual(place.ask("counts"), f"not done: {OLDER}")
            self.assertEqual(ctl(place, "counts"), (1, "", f"storectl: {OLDER}\n"))
            with place.control() as daemon:
                told = daemon.metrics()
            self.assertEqual([line for line in told.splitlines() if line.startswith(tuple(f"# TYPE {name}" for name in FAMILIES))], [])
            self.assertEqual(read(told)["store_up"], 1)
            self.assertTrue(ctl(place, "top", "--once")[1].splitlines()[3].endswith("  +COPIES"))
            self.assertNotIn("WARNING", place.log())

    def test_a_connection_that_ends_is_told_and_nothing_else_changes(self) -> None:
        with Counting() as place:
            place.serve(counts_0_1="")
            found = samples(place)
            due = {"store_up": 1, "store_usage_faults": 0, "store_counts_faults": 1}
            self.assertEqual({name: found[name] for name in due}, due)
            self.assertEqual([name for name in found if name.startswith(FAMILIES)], ["store_counts_faults"])
            self.assertEqual(place.ask("counts"), "not done: the server's control socket: it ended before it answered")
            self.assertEqual(ctl(place, "top", "--once")[0], 0)

    def test_an_answer_of_another_kind_is_told(self) -> None:
        with Counting() as place:
            place.serve(counts_0="n0 op counts hellos:1")
            self.assertEqual(place.ask("counts"), "not done: the server's control socket: 'n0 op counts hellos:1' isn't the counts of a node")
            self.assertEqual(samples(place)["store_counts_faults"], 1)

    def test_a_control_socket_that_says_nothing_is_bounded(self) -> None:
        with Counting() as place:
            place.serve()
            server_control = place.path / "store.new.c"
            server_control.unlink()
            with socket.socket(socket.AF_UNIX) as silent:
                silent.bind(str(server_control))
                silent.listen()
                begun = time.monotonic()
                found = samples(place)
                self.assertLess(time.monotonic() - begun, 20)
                self.assertEqual((found["store_up"], found["store_counts_faults"]), (1, 1))

    def test_a_server_that_was_started_again_counts_anew(self) -> None:
        with Counting() as place:
            place.serve(counts_0=refused(5))
            self.assertEqual(samples(place)['store_hellos_total{node="0",result="refused"}'], 5)
            place.tell({"counts 0": refused(1)})
            crash(place)
            self.assertEqual(samples(place)['store_hellos_total{node="0",result="refused"}'], 1)


class Strangers(unittest.TestCase):
    def test_a_line_tells_of_what_has_risen(self) -> None:
        with Counting(watch="0.3") as place:
            place.serve()
            place.tell({"counts 0": refused(0, 1)})
            until(lambda: len(strangers(place)) == 1, "the first line")
            self.assertRegex(strangers(place)[0], r"^node 0: 1 session sent what is no frame, in [0-9.]+ seconds$")
            place.tell({"counts 0": refused(1_000_000, 3)})
            until(lambda: len(strangers(place)) == 2, "the second line")
            # the daemon's own until then are left out
            said = r"^node 0: 999\d{3} Hellos were refused and 2 sessions sent what is no frame, in [0-9.]+ seconds$"
            self.assertRegex(strangers(place)[1], said)
            time.sleep(1.5)
            self.assertEqual((len(strangers(place)), place.log().count("WARNING")), (2, 2))

    def test_a_look_that_is_not_answered_says_nothing(self) -> None:
        with Counting(watch="0.3") as place:
            place.serve(counts_0="")
            time.sleep(1.5)
            self.assertNotIn("WARNING", place.log())
            place.tell({"counts 0": refused(0, 2)})
            until(lambda: strangers(place), "the next look tells it")
            self.assertIn("node 0: 2 sessions sent what is no frame, in ", strangers(place)[0])

class AtTheProgram(unittest.TestCase):
    """What the program itself counts."""

    def need_lines(self, place: Place) -> None:
        if place.ask("counts") == f"not done: {OLDER}":
            self.skipTest("the program is older than the lines counts")

    def test_it_counts_what_a_session_does(self) -> None:
        with Place(1, (1, 2), watch="0") as place:
            place.start_ready()
            self.need_lines(place)
            with place.session(2) as session:
                held = session.put(bytes(1_000))
                for _ in range(3):
                    session.usage()
                with session.get(held) as view:
                    self.assertEqual(bytes(view), bytes(1_000))
            time.sleep(1.1)
            with place.control() as daemon:
                told = {(row.node, row.job): row.counts for row in daemon.counts().jobs}
            due = {"create": 1, "write": 1, "seal": 1, "usage": 3, "bytes-in": 1_000, "bytes-out": 1_000}
            self.assertEqual({name: told[0, 2].get(name) for name in due}, due)
            self.assertNotIn("bytes-in", told[0, 1])

    def test_a_scrape_is_no_session_and_no_entry(self) -> None:
        """What it costs a node's lock is a look at each job: no step is made."""
        with Place(2, (1, 2), watch="0") as place:
            place.start_ready()
            for _ in range(3):
                samples(place)
            self.assertEqual((ctl(place, "usage")[0], ctl(place, "top", "--once")[0]), (0, 0))
            if place.ask("counts") != f"not done: {OLDER}":
                found = samples(place)
                self.assertEqual([name for name in found if name.startswith("store_commands_total")], [])
                self.assertEqual([found[f'store_hellos_total{{node="{node}",result="taken"}}'] for node in (0, 1)], [0, 0])
            # four admissions
            self.assertEqual(place.ask("close"), "report 4 4 0 0 0")

    def test_strangers_are_told_and_its_own_hellos_are_not(self) -> None:
        with Place(1, (1,), watch="0.5") as place:
            place.start_ready()
            self.need_lines(place)
            time.sleep(2)
            self.assertEqual(strangers(place), [])
            for _ in range(3):
                self.assertRaises(store_client.NotAdmitted, store_client.connect, str(place.socket()), 1, bytes(32))
            with socket.socket(socket.AF_UNIX) as stream:
                stream.connect(str(place.socket()))
                stream.sendall(b"\xff" * 64)
                stream.recv(64)
            until(lambda: told_in_all(place) == (3, 1), "both are told")


    def test_own_hellos_that_are_answered_late_are_not_told(self) -> None:
        with Place(1, (1,), watch="0.3", watch_patience="1") as place:
            place.start_ready()
            self.need_lines(place)
            server = place.server()
            os.kill(server, signal.SIGSTOP)
            until(lambda: "has not answered" in place.log(), "it is noticed")
            os.kill(server, signal.SIGCONT)
            until(lambda: "answers again" in place.log(), "it goes on")
            time.sleep(1)
            self.assertEqual(strangers(place), [])


def told_in_all(place: Place) -> Tuple[int, int]:
    """The Hellos and the sessions of which the lines tell."""
    lines = "\n".join(strangers(place))
    hellos, sessions = re.findall(r"(\d+) Hello", lines), re.findall(r"(\d+) session", lines)
    return sum(map(int, hellos)), sum(map(int, sessions))


class Text(unittest.TestCase):
    def test_the_daemon_s_line_is_read_again(self) -> None:
        counts = Counts(12.5, (NodeCounts(0, 1, 2, 3, 4, 5, 6),), (JobCounts(0, 1, OF_JOB),))
        self.assertEqual(read_counts(json.loads(counts_text(counts))), counts)


if __name__ == "__main__":
    unittest.main()
