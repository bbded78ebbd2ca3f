"""SIGHUP: the settings are read again, and the jobs are made what they say."""

from __future__ import annotations

import contextlib
import os
import pty
import signal
import subprocess
import sys
import time
import unittest

from driving import DAEMON, KEY, PATIENCE, Place, is_running, until

# seconds after the end of a terminal in which no signal tells of it any more
LONG_AFTER = 5.0


class Reload(unittest.TestCase):
    def reload(self, place: Place, text: str) -> str:
        """What is logged of it, once it has ended with this text."""
        before = len(place.log())
        place.daemons[-1].send_signal(signal.SIGHUP)
        until(lambda: text in place.log()[before:], text)
        return place.log()[before:]

    def test_jobs_become_what_the_settings_say(self) -> None:
        with Place(2, (1, 2)) as place:
            place.start_ready()
            server = place.server()
            with place.session() as session:
                kept = session.put(b"kept")
                place.write(2, (1, 3))
                place.settings.write_text(place.settings.read_text().replace("window = 64K", "window = 32K", 1))
                said = self.reload(place, "the settings were read again: 4 orders")
                with session.get(kept) as view:
                    self.assertEqual(bytes(view), b"kept")
            self.assertEqual(place.server(), server)
            jobs = " 1:32768:1048576 2:65536:1048576 3:65536:1048576"
            self.assertEqual([place.ask(f"jobs {node}") for node in (0, 1)], [f"n0 op jobs{jobs}", f"n1 op jobs{jobs}"])
            for node in (0, 1):
                self.assertIn(f"INFO job 2 at node {node} has gone from the settings, and is left alone", said)
            self.assertNotIn(KEY, said)
            with place.session(3) as session:
                session.put(b"new")
            self.reload(place, "the settings were read again: 0 orders")

    def test_other_options_want_a_restart(self) -> None:
        with Place() as place:
            place.start_ready()
            place.write(1, (1,), grace="7", log_level="error", memory="2M")
            said = self.reload(place, "read again")
            self.assertIn("WARNING these options have changed, and want a restart: memory, log_level, grace\n", said)
            self.assertIn("grace=0.5", place.ask("status"))

    def test_a_node_more_wants_a_restart_and_ends_nothing(self) -> None:
        with Place() as place:
            place.start_ready()
            server = place.server()
            with place.session() as session:
                kept = session.put(b"kept")
            place.write(2, (1, 2))
            said = self.reload(place, "the settings were read again: 1 orders")
            self.assertIn("WARNING these options have changed, and want a restart: nodes\n", said)
            self.assertNotIn("the server says", said)
            with place.session() as session, session.get(kept) as view:
                self.assertEqual(bytes(view), b"kept")
            self.assertEqual((place.server(), place.ask("jobs 0")), (server, "n0 op jobs 1:65536:1048576 2:65536:1048576"))

    def test_a_wrong_file_changes_nothing(self) -> None:
        with Place() as place:
            place.start_ready()
            right = place.settings.read_text()
            wrong = (
                ("[job 1]", "[job 1]\nwindo = 1"), ("window = 64K", "window = 512M"), ("key_file = key", "key_file = lost"),
                ("[store]", ""),
            )
            for old, new in wrong:
                place.settings.write_text(right.replace(old, new) + right[right.index("[job 1]") :].replace("[job 1]", "[job 5]"))
                said = self.reload(place, "nothing is changed")
                self.assertRegex(said, "^[^ ]* ERROR the settings were read again, and nothing is changed: ")
                self.assertEqual(said.count("\n"), 1)
            place.settings.unlink()
            self.assertIn("No such file", self.reload(place, "nothing is changed"))
            self.assertEqual(place.ask("jobs 0"), "n0 op jobs 1:65536:1048576")

    def test_what_the_server_refuses_is_told(self) -> None:
        with Place(jobs=(2,)) as place:
            place.start_ready()
            place.write(1, (1, 2, 3))
            said = self.reload(place, "2 orders")
            self.assertIn("ERROR not done: admit 0 1 65536 1048576 KEY: n0 op refused 3 Exists: this number or a greater one", said)
            self.assertEqual(place.ask("jobs 0"), "n0 op jobs 2:65536:1048576 3:65536:1048576")

    def test_a_change_meanwhile_is_read_too(self) -> None:
        with Place() as place:
            daemon = place.start_ready()
            for number in range(2, 12):
                place.write(1, range(1, number + 1))
                daemon.send_signal(signal.SIGHUP)
            until(lambda: " 11:" in place.ask("jobs 0"), "the last job")

    def test_the_end_of_its_terminal_ends_it(self) -> None:
        with Place() as place:
            process, terminal = pty.fork()
            if process == 0:
                # as a shell at a terminal that closes, even if these tests run under nohup
                signal.signal(signal.SIGHUP, signal.SIG_DFL)
                os.execv("/bin/sh", ["sh", "-c", f"{sys.executable} {DAEMON} {place.settings} > {place.path}/out 2> {place.path}/log; :"])
            until(lambda: (place.path / "out").exists() and place.said(), "ready")
            server = place.server()
            os.close(terminal)
            os.waitpid(process, 0)
            until(lambda: not is_running(server), "the server's end")
            until(lambda: not (place.path / "control").exists(), "the daemon's end")
            self.assertIn("the server has ended: report", place.log())

    def test_long_after_the_end_of_its_terminal_it_reads_again(self) -> None:
        """In the background it isn't told of that end."""
        with Place() as place:
            words = f"{sys.executable} {DAEMON} {place.settings} > {place.path}/out 2> {place.path}/log"
            process, terminal = pty.fork()
            if process == 0:
                signal.signal(signal.SIGHUP, signal.SIG_DFL)
                os.posix_spawn("/bin/sh", ["sh", "-c", f"echo $$ > {place.path}/daemon; exec {words}"], os.environ, setpgroup=0)
                signal.pause()
            until(lambda: (place.path / "out").exists() and place.said(), "ready")
            daemon, server = int((place.path / "daemon").read_text()), place.server()
            self.addCleanup(self.kill, daemon)
            os.close(terminal)
            os.waitpid(process, 0)
            time.sleep(LONG_AFTER)
            place.write(1, (1, 2))
            os.kill(daemon, signal.SIGHUP)
            until(lambda: "the settings were read again: 1 orders" in place.log(), "a reading")
            self.assertEqual((place.server(), place.ask("jobs 0")), (server, "n0 op jobs 1:65536:1048576 2:65536:1048576"))
            place.ask("close now")
            until(lambda: not is_running(daemon), "the daemon's end")

    def kill(self, process: int) -> None:
        with contextlib.suppress(ProcessLookupError):
            os.kill(process, signal.SIGKILL)

    def test_under_nohup_it_reads_again(self) -> None:
        with Place() as place:
            place.start_ready(["nohup"])
            place.write(1, (1, 2))
            self.reload(place, "the settings were read again: 1 orders")
            self.assertEqual(place.ask("jobs 0"), "n0 op jobs 1:65536:1048576 2:65536:1048576")


class Check(unittest.TestCase):
    def check(self, place: Place) -> "subprocess.CompletedProcess[str]":
        words = [sys.executable, DAEMON, "--check", str(place.settings)]
        return subprocess.run(words, capture_output=True, text=True, check=False, timeout=PATIENCE)

    def test_ranges_and_sums(self) -> None:
        with Place(2, (1, 2)) as place:
            text = place.settings.read_text()
            sums = [f"[store] memory: the windows of the jobs at node {node} are 1.1M, and its memory is 1M" for node in (0, 1)]
            rows = (
                ("window = 64K", "window = 2M", ["[job 1] window: 2M is more than a node's memory, 1M"]),
                ("window = 64K", "window = 100", ["[job 1] window: 100 isn't 16 to 256M and a multiple of 16"]),
                ("device = 1M", "device = 2T", ["[job 1] device: 2T is more than 1T"]),
                ("window = 64K", "window = 1M", sums),
            )
            for old, new, due in rows:
                place.settings.write_text(text.replace(old, new, 1))
                done = self.check(place)
                self.assertEqual((done.returncode, done.stdout), (1, ""))
                said = done.stderr.splitlines()
                self.assertEqual([fault for fault in due if f"store-daemon: {place.settings}: {fault}" not in said], [])
            place.settings.write_text(text.replace("window = 64K", "window = 512M").replace("memory = 1M", "memory = 16G"))
            self.assertIn("[job 1] window: 512M isn't 16 to 256M", self.check(place).stderr)

    def test_a_line_that_is_none_is_told_with_its_number(self) -> None:
        with Place() as place:
            text = place.settings.read_text()
            rows = (
                (f"{text}nonsense\n", f"line {text.count(chr(10)) + 1}: 'nonsense' is neither an option, as window = 64M, nor a section"),
                (f"nodes = 1\n{text}", "line 1: 'nodes = 1' stands before any section, as [store] is one"),
            )
            for written, due in rows:
                place.settings.write_text(written)
                self.assertEqual(self.check(place).stderr, f"store-daemon: {place.settings}: {due}\n")

    def test_what_the_machine_has_not_is_a_warning(self) -> None:
        with Place(8, (1, 2)) as place:
            text = place.settings.read_text().replace("memory = 1M", "memory = 16G").replace("device = 1M", "device = 1T")
            place.settings.write_text(text)
            done = self.check(place)
            self.assertEqual((done.returncode, done.stdout), (0, f"{place.settings}: 8 nodes, 16 admissions\n"))
            self.assertRegex(done.stderr, r"a warning: \[store\] memory: 8 nodes of 16G are more than the machine has, ")
            self.assertRegex(done.stderr, r"a warning: \[store\] spill: the device quotas of the jobs there are 16T in all, and ")
            self.assertEqual(done.stderr.count("\n"), 2)


class Levels(unittest.TestCase):
    def test_what_is_below_the_level_is_not_logged(self) -> None:
        with Place() as place:
            place.write(1, (1,), log_level="warning")
            daemon = place.start_ready()
            os.kill(place.server(), signal.SIGKILL)
            until(lambda: len(place.said()) > 1, "ready again")
            self.assertEqual(place.end(daemon), 0)
            self.assertRegex(place.log(), "ERROR the server ended by itself: SIGKILL\n.* WARNING it is started again")
            self.assertNotIn("INFO", place.log())


if __name__ == "__main__":
    unittest.main()
