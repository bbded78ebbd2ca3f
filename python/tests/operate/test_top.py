"""storectl top: what it shows of a server, and of what has changed."""

from __future__ import annotations

import os
import pty
import re
import select
import signal
import subprocess
import unittest
from typing import Dict

from driving import PATIENCE, Place, ctl, ctl_words, until

from store_operator.asking import Mark, UsageRow
from store_operator.counts import Counts, JobCounts
from store_operator.top import Seen, top_text

STATUS: Dict[str, Mark] = {
    "state": "running", "process": 7, "seconds": 3_725, "restarts": 1, "nodes": 2, "jobs": [1, 0], "sessions": [3, 0], "threads": 9,
    "descriptors": 12, "descriptors_needed": 2074, "resident": 8 << 20, "processor_seconds": 12.5, "spilled_files": 2,
    "spilled_bytes": 4096, "spill_free": 5 << 30, "grace": 10,
}
FIRST = UsageRow(0, 1, 65536, 16384, 1 << 20, 8192, 3, 0)
LATER = UsageRow(0, 1, 65536, 49152, 1 << 20, 4096, 4, 1)
HEAD = "NODE  JOB                  WINDOW       USED   OF  DEVICE  OF  COPIES  WORKS  +USED  +DEVICE  +COPIES"
ROW = "   0    1  [###############.....]  75%   48K  64K      4K  1M       4      1   +32K      -4K       +1"
# the widest that there can be, and how wide a terminal is at least
WIDEST, TERMINAL = UsageRow(7, (1 << 32) - 1, (1 << 30) - 1, (1 << 30) - 1, 1 << 20, 8192, 3, 0), 80


class Texts(unittest.TestCase):
    def test_what_has_changed(self) -> None:
        first, later = Seen(10.0, STATUS, (FIRST,)), Seen(12.0, {**STATUS, "processor_seconds": 13.5}, (LATER,))
        lines = top_text(later, first).splitlines()
        self.assertEqual(lines[0], "store: running, up 1 h 2 m, 2 nodes, 3 sessions, 1 restart")
        self.assertEqual(
            lines[1], "memory 8M, processor 50 %, 9 threads, 12 of 2074 descriptors, 2 files with 4K spilled, 5G free"
        )
        self.assertEqual(lines[3:], [HEAD, ROW])

    def test_the_first_look_has_no_changes(self) -> None:
        lines = top_text(Seen(10.0, STATUS, (FIRST,)), None).splitlines()
        self.assertIn("processor 12.5 s, ", lines[1])
        self.assertTrue(lines[4].rstrip().endswith(" 3      0"), lines[4])

    def test_another_process_begins_anew(self) -> None:
        first, later = Seen(10.0, STATUS, ()), Seen(12.0, {**STATUS, "process": 8, "processor_seconds": 0.5, "seconds": 2}, ())
        self.assertIn("processor 0.5 s, ", top_text(later, first))
        self.assertIn(", up 2 s, ", top_text(later, first))

    def test_commands_in_a_second_if_they_are_counted(self) -> None:
        first = Seen(10.0, STATUS, (FIRST,), Counts(5.0, (), (JobCounts(0, 1, {"get": 10, "refused.10": 4, "bytes-in": 999}),)))
        later = Seen(12.5, STATUS, (LATER,), Counts(7.0, (), (JobCounts(0, 1, {"get": 40, "get-wait": 30, "refused.10": 90}),)))
        counted = [HEAD.replace("OF  DEVICE", "OF  COMMANDS/S  DEVICE"), ROW.replace("64K", "64K          30")]
        self.assertEqual(top_text(later, first).splitlines()[3:], counted)
        again = first._replace(status={**STATUS, "process": 8})
        for before in (None, again, later, first._replace(counts=None), first._replace(counts=Counts(5.0, (), ()))):
            self.assertIn(f" 64K  {' ' * len('COMMANDS/S')}      4K ", top_text(later, before), before)

    def test_a_terminal_shows_the_commands_of_the_widest_row(self) -> None:
        counts = Counts(5.0, (), (JobCounts(WIDEST.node, WIDEST.job, {}),))
        more = counts._replace(moment=6.0, jobs=(JobCounts(WIDEST.node, WIDEST.job, {"get": 987_654_321}),))
        lines = top_text(Seen(11.0, STATUS, (WIDEST,), more), Seen(10.0, STATUS, (WIDEST,), counts)).splitlines()
        self.assertIn("  COMMANDS/S  ", lines[3][:TERMINAL])
        self.assertIn(" 987654321  ", lines[4][:TERMINAL])


class Shown(unittest.TestCase):
    def test_once_for_a_pipe(self) -> None:
        with Place(2, (1, 2)) as place:
            place.start_ready()
            with place.session(2, 1) as session:
                session.put(bytes(32_768))
                status, printed, complained = ctl(place, "top", "--once")
            self.assertEqual((status, complained), (0, ""))
            lines = printed.splitlines()
            self.assertRegex(lines[0], r"^store: running, up \d+ s, 2 nodes, 1 session, 0 restarts$")
            self.assertEqual(len(lines), 4 + 4)
            self.assertRegex(lines[7], r"^   1    2  \[#{10}\.{10}\] +50% +32K +64K ")
            self.assertNotIn("\033", printed)
            self.assertEqual(len(ctl(place, "top", "--once", "--node", "1", "--job", "2")[1].splitlines()), 4 + 1)

    def test_a_server_that_does_not_answer_has_a_header(self) -> None:
        with Place() as place:
            place.write(1, (1,), watch="0.2", watch_patience="1")
            place.start_ready()
            server = place.server()
            os.kill(server, signal.SIGSTOP)
            try:
                until(lambda: "WARNING" in place.log(), "it is noticed")
                status, printed, _ = ctl(place, "top", "--once")
            finally:
                os.kill(server, signal.SIGCONT)
            self.assertEqual(status, 0)
            self.assertRegex(printed, "^store: not answering since 2")
            self.assertEqual(len(printed.splitlines()), 4)

    def test_a_terminal_is_drawn_again(self) -> None:
        with Place() as place:
            place.start_ready()
            above, below = pty.openpty()
            showing = subprocess.Popen(ctl_words(place, "top", "--interval", "0.1"), stdin=below, stdout=below, stderr=subprocess.PIPE)
            os.close(below)
            try:
                text = ""

                def drawn() -> int:
                    nonlocal text
                    if select.select([above], [], [], 0)[0]:
                        text += os.read(above, 4096).decode()
                    return len(re.findall(r"\x1b\[H\x1b\[Jstore: running", text))

                until(lambda: drawn() >= 3, "it is drawn three times")
            finally:
                showing.send_signal(signal.SIGINT)
                _, complained = showing.communicate(timeout=PATIENCE)
                os.close(above)
            self.assertEqual((showing.returncode, complained), (130, b""))


if __name__ == "__main__":
    unittest.main()
