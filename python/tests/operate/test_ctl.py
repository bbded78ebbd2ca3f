"""storectl at a daemon that serves: its tables, what it says to programs, and its statuses."""

from __future__ import annotations

import json
import socket
import subprocess
import threading
import unittest
from typing import Any, List, Tuple

from driving import PATIENCE, Place, crash, ctl, ctl_words, until

import store_client

EMPTY = {"window_used": 0, "device_used": 0, "copies": 0, "works": 0}
EXISTS = "refused 3 Exists: this number or a greater one was admitted before; numbers rise until the server starts again"


class Ctl(unittest.TestCase):
    def admit(self, place: Place, job: int, *words: str) -> Tuple[int, str, str]:
        return ctl(place, "admit", str(job), "--window", "128K", "--device", "1G", "--key-file", str(place.key_file), *words)

    def test_tables(self) -> None:
        with Place(2) as place:
            place.start_ready()
            self.assertEqual(self.admit(place, 3), (0, "n0 op ok\nn1 op ok\n", ""))
            self.assertEqual(self.admit(place, 2, "--node", "1"), (1, f"n1 op {EXISTS}\n", ""))
            jobs = "NODE  JOB  WINDOW  DEVICE\n   0    1     64K      1M\n   0    3    128K      1G\n   1    1     64K      1M\n   1    3    128K      1G\n"
            self.assertEqual(ctl(place, "jobs"), (0, jobs, ""))
            with place.session(3, 1) as session:
                session.put(bytes(2048))
            usage = "NODE  JOB  WINDOW  USED  DEVICE  USED  COPIES  WORKS\n   0    3    128K     0      1G     0       0      0\n"
            self.assertEqual(ctl(place, "usage", "--job", "3"), (0, usage + "   1    3    128K    2K      1G     0       1      0\n", ""))
            self.assertEqual(ctl(place, "quota", "3", "--window", "64K", "--device", "0", "--node", "0"), (0, "n0 op ok\n", ""))
            self.assertEqual(ctl(place, "end", "3"), (0, "n0 op ok\nn1 op ok\n", ""))
            self.assertEqual(ctl(place, "end", "3")[0], 1)

    def test_an_order_goes_where_its_job_lives(self) -> None:
        with Place(2) as place:
            place.start_ready()
            self.assertEqual(self.admit(place, 3, "--node", "1"), (0, "n1 op ok\n", ""))
            self.assertEqual(ctl(place, "quota", "3", "--window", "1K", "--device", "0"), (0, "n1 op ok\n", ""))
            self.assertEqual(ctl(place, "end", "3"), (0, "n1 op ok\n", ""))

    def test_for_programs(self) -> None:
        with Place() as place:
            place.start_ready()
            row = {"node": 0, "job": 1, "window": 65536, "device": 1 << 20}
            self.assertEqual(self.json(place, "jobs"), [row])
            self.assertEqual(self.json(place, "usage"), [{**row, **EMPTY}])
            status = self.json(place, "status")
            self.assertEqual([status[name] for name in ("state", "nodes", "jobs", "restarts", "spilled_files")], ["running", 1, [1], 0, 0])
            self.assertEqual(self.json(place, "end", "1"), [{"node": 0, "answer": "n0 op ok"}])
            self.assertRegex(self.json(place, "close")["answer"], r"^report (\d+) \1 0 0 0$")

    def json(self, place: Place, *words: str) -> Any:
        status, printed, complained = ctl(place, "--json", *words)
        self.assertEqual((status, complained), (0, ""))
        return json.loads(printed)

    def test_sessions_are_listed(self) -> None:
        with Place(2, (1, 2)) as place:
            place.start_ready()
            self.need_lines(place)
            with place.session(2) as first, place.session(2) as second, place.session(1) as third:
                for session, commands in ((first, 3), (second, 1), (third, 2)):
                    for _ in range(commands):
                        session.usage()
                until(lambda: self.json(place, "sessions", "--node", "0")[0]["sessions"] == 3, "three sessions")
                found = self.json(place, "sessions")
                rows = [tuple(row[name] for name in ("session", "job", "commands")) for row in found[0]["streams"]]
                self.assertEqual(rows, [(1, 1, 2), (1, 2, 3), (2, 2, 1)])
                self.assertTrue(all(0 <= row["seconds"] < PATIENCE for row in found[0]["streams"]), found)
                self.assertEqual(found[1], {"node": 1, "sessions": 0, "streams": []})
                status, printed, complained = ctl(place, "sessions", "--node", "0")
                self.assertEqual((status, complained), (0, ""))
                self.assertRegex(printed, r"^NODE  SESSIONS\n   0         3\n\nNODE  SESSION  JOB  AGE  COMMANDS\n   0        1    1 +\d+[sm]         2\n")
            until(lambda: self.json(place, "sessions", "--node", "0")[0]["streams"] == [], "no session")

    def test_a_session_without_a_hello_is_not_listed(self) -> None:
        with Place() as place, socket.socket(socket.AF_UNIX) as silent:
            place.start_ready()
            self.need_lines(place)
            silent.connect(str(place.socket()))
            until(lambda: self.json(place, "sessions")[0]["sessions"] == 1, "one stream")
            self.assertEqual(self.json(place, "sessions"), [{"node": 0, "sessions": 1, "streams": []}])
            self.assertEqual(ctl(place, "kick", "0", "0", "0"), (1, "n0 op no session 0 0\n", ""))
            silent.settimeout(0.2)
            self.assertRaises(socket.timeout, silent.recv, 1)

    def test_a_kicked_session_ends_and_no_other(self) -> None:
        with Place(1, (1, 2)) as place:
            place.start_ready()
            self.need_lines(place)
            with place.session(1) as kept, place.session(2) as ended, place.session(2) as other:
                held = other.put(b"held")
                self.assertEqual(self.json(place, "kick", "0", "2", "1"), {"answer": "n0 op kicked 2 1"})
                self.assertRaises(store_client.ConnectionLost, ended.usage)
                self.assertEqual((kept.usage().copies, other.usage().copies), (0, 1))
                with other.get(held) as view:
                    self.assertEqual(bytes(view), b"held")
                until(lambda: ctl(place, "kick", "0", "2", "1") == (1, "n0 op no session 2 1\n", ""), "its end")
                self.assertEqual(ctl(place, "kick", "0", "1", "9"), (1, "n0 op no session 1 9\n", ""))
            self.assertIn(" kick 0 2 1: n0 op kicked 2 1\n", place.log())
            self.assertRegex(ctl(place, "close")[1], r"^report (\d+) \1 0 0 0\n$")

    def test_a_session_that_waits_is_kicked_too(self) -> None:
        with Place() as place:
            place.start_ready()
            self.need_lines(place)
            lost: List[BaseException] = []
            with place.session() as waiting:

                def wait() -> None:
                    try:
                        waiting.get(waiting.new_id(), 10 * PATIENCE)
                    except store_client.StoreError as fault:
                        lost.append(fault)

                thread = threading.Thread(target=wait)
                thread.start()
                until(lambda: any(row["commands"] for row in self.json(place, "sessions")[0]["streams"]), "a call that asks again and again")
                self.assertEqual(ctl(place, "kick", "0", "1", "1"), (0, "n0 op kicked 1 1\n", ""))
                thread.join(PATIENCE)
                self.assertEqual([type(fault) for fault in lost], [store_client.ConnectionLost])
            until(lambda: self.json(place, "sessions")[0]["sessions"] == 0, "its end")

    def test_an_older_server_is_told_in_plain_words(self) -> None:
        with Place() as place:
            place.start_ready()
            if self.has_lines(place):
                self.skipTest("the program has these lines")
            older = "storectl: this server has no line {}: its program is older than that"
            status, printed, complained = ctl(place, "sessions")
            self.assertEqual((status, complained), (0, f"{older.format('streams')}; so only their number is known\n"))
            self.assertRegex(printed, r"^NODE  SESSIONS\n   0         \d\n$")
            self.assertEqual(ctl(place, "kick", "0", "1", "1"), (1, "", f"{older.format('kick')}\n"))
            self.assertEqual(place.ask("sessions 0")[: len("n0 op sessions ")], "n0 op sessions ")

    def test_a_kick_after_a_crash_asks_the_next_server(self) -> None:
        with Place() as place:
            place.start_ready()
            crash(place)
            answer = place.ask("kick 0 1 7")
            self.assertIn(answer, ("n0 op no session 1 7", "not done: this server has no line kick: its program is older than that"))

    def need_lines(self, place: Place) -> None:
        if not self.has_lines(place):
            self.skipTest("the program is older than the lines streams and kick")

    def has_lines(self, place: Place) -> bool:
        return not place.ask("streams 0").startswith("not done: this server has no line streams")

    def test_watch_shows_what_changes_and_ends_with_the_daemon(self) -> None:
        with Place() as place:
            place.start_ready()
            words = ctl_words(place, "watch", "--every", "0.1", "--job", "1")
            with open(place.path / "watched", "w") as watched:
                watching = subprocess.Popen(words, stdout=watched, stderr=subprocess.PIPE, text=True)
            shown = place.path / "watched"
            until(lambda: "64K     0" in shown.read_text(), "nothing used")
            with place.session() as session:
                session.put(bytes(4096))
                until(lambda: "64K    4K" in shown.read_text(), "an object")
            self.assertEqual(ctl(place, "close"), (0, place.log().rsplit("ended: ")[-1], ""))
            _, complained = watching.communicate(timeout=PATIENCE)
            self.assertEqual(watching.returncode, 1)
            self.assertIn("storectl: ", complained)

    def test_faults(self) -> None:
        with Place() as place:
            status, printed, complained = ctl(place, "status")
            self.assertEqual((status, printed), (1, ""))
            self.assertIn("control: No such file or directory: does store-daemon run", complained)
            place.start_ready()
            self.assertEqual(ctl(place, "jobs", "--node", "1"), (1, "", "storectl: there is no node 1: the server has 0 to 0\n"))
            self.assertEqual(ctl(place, "kick", "1", "1", "1"), (1, "", "storectl: there is no node 1: the server has 0 to 0\n"))
            self.assertIn("SESSION isn't a number from 0 to 4294967295", place.ask("kick 0 1 -1"))
            self.assertIn("it is kick NODE JOB SESSION", place.ask("kick 0 1"))
            place.write_key(0o644)
            self.assertIn("every user may use it", self.admit(place, 3)[2])
            for words in (("quota", "1", "--window", "1X", "--device", "0"), ("end", "one"), ("halt",), (), ("kick", "0", "1"), ("watch", "--every", "0")):
                status, printed, complained = ctl(place, *words)
                self.assertEqual((status, printed), (2, ""))
                self.assertIn("usage: storectl", complained)
            self.assertEqual(ctl(place, "jobs")[0], 0)


if __name__ == "__main__":
    unittest.main()
