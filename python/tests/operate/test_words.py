"""The words that the daemon reads: orders, sizes, settings, keys. No server is started."""

from __future__ import annotations

import os
import subprocess
import sys
import tempfile
import unittest
from pathlib import Path
from typing import Tuple
from unittest import mock

from driving import CLIENT, CTL, DAEMON, KEY, PROGRAM, Place

from store_operator.keys import KeyFault, read_key
from store_operator.orders import Admit, End, NotAnOrder, Quota, read_order, server_line, told
from store_operator.settings import Settings, SettingsFault, read_settings
from store_operator.sizes import parse_size, size_text

RIGHT = (
    f"admit 0 1 1048576 0 {KEY}", f"admit 1 4294967295 18446744073709551615 16 {KEY}", "quota 1 2 64 0", "end 0 0",
)
WRONG = (
    "admitt 0 2", " end 0 1", "end 0 1 ", "end  0 1", "END 0 1", "end 0 1\r", "end\t0 1", "end 0 01", "end 0 +1", "end 0 -1",
    "end 0 1.0", "end 0 0x1", "end 0 4294967296", "end 2 1", "end 00 1", "end 0", "end 0 1 2", "end 0 \u0661", "quota 0 1 64",
    "quota 0 1 1M 0", "quota 0 1 18446744073709551616 0", "quota 0 1  0", f"admit 0 1 64 0 {KEY.upper()}", f"admit 0 1 64 0 {KEY[1:]}",
    f"admit 0 1 64 0 {KEY}0", "admit 0 1 64 0", "jobs", "jobs 2", "usage 0", "status 0", "close later", "close now ", "help", "\0", "\xff",
)
SETTINGS_FAULTS = (
    ("memory = 1M", "memory = 1X", "[store] memory: '1X' is no size"),
    ("memory = 1M", "memory = 17G", "[store] memory: 17G is more than 17179869184 bytes"),
    ("memory = 1M", "memroy = 1M", "[store] memroy: there is no such option"),
    ("memory = 1M\n", "", "[store] memory: it isn't there"),
    ("memory = 1M", "memory = 1M\novercommit = perhaps", "[store] overcommit: 'perhaps' isn't yes or no"),
    ("nodes = 2", "nodes = 9", "[store] nodes: '9' isn't nodes from 1 to 8"),
    ("socket = store", "socket = " + 120 * "s", "longer than 107 bytes"),
    ("socket = store", "socket = store\nsocket_mode = 0777", "[store] socket_mode: '0777' isn't one of 0600, 0660, 0666"),
    ("socket = store", "socket = store\nsocket_group = nobody knows", "[store] socket_group: there is no group 'nobody knows'"),
    ("grace = 0.5", "grace = 0.5\nlog =", "[store] log: a path is expected"),
    ("grace = 0.5", "grace = 0.5\nlog_level = debug", "[store] log_level: 'debug' isn't one of info, warning, error"),
    ("grace = 0.5", "grace = 0.5\nwatch = often", "[store] watch: 'often' isn't a number of seconds from 0 to 86400"),
    ("grace = 0.5", "grace = 0.5\nwatch_patience = 0", "[store] watch_patience: '0' isn't a number of seconds from 0.1 to 86400"),
    ("grace = 0.5", "grace = 0.5\nrestart_stuck = 1", "[store] restart_stuck: '1' isn't yes or no"),
    ("grace = 0.5", "grace = 0.5\nmetrics = 10.0.0.1:80", "[store] metrics: '10.0.0.1:80' isn't 127.0.0.1:PORT, nor a path"),
    ("grace = 0.5", "grace = soon", "[store] grace: 'soon' isn't a number of seconds"),
    (f"program = {PROGRAM}", "program = missing", "there is no such program"),
    ("[job 1]", "[job 0]", "section [job 0]: '0' isn't a job's number"),
    ("[job 1]", "[jobs]", "there is no section [jobs]"),
    ("[job 1]", "[job 2]", "section 'job 2' already exists"),
    ("[job 1]", "[job 02]", "job 2 has two sections for node 0"),
    ("[job 1]", "[job 1]\nnodes = 2", "[job 1] nodes: '2' isn't a node from 0 to 1"),
    ("key_file = key", "key_file = lost", "lost: No such file or directory"),
    ("[store]", "[stor]", "there is no section [store]"),
    ("[store]", "store", "stands before any section"),
)


class Orders(unittest.TestCase):
    def test_what_the_server_is_given_is_the_line_itself(self) -> None:
        for line in RIGHT:
            order = read_order(line, 2)
            assert isinstance(order, (Admit, Quota, End)), f"{line}: not an order of the server's"
            self.assertEqual(server_line(order), line)
            self.assertNotIn(KEY, told(order))

    def test_what_is_no_order_is_refused_and_no_key_is_told(self) -> None:
        for line in WRONG:
            with self.assertRaises(NotAnOrder, msg=line) as refused:
                read_order(line, 2)
            self.assertNotIn(KEY[:30], str(refused.exception).lower())

    def test_it_is_said_what_was_expected(self) -> None:
        rows = (
            ("admitt 0", '"admitt ..": the orders are admit NODE JOB WINDOW DEVICE KEY, '), ("end 0", '"end ..": it is end NODE JOB, '),
            ("end 5 1", '"end ..": NODE is a node\'s number, 0 to 1'), ("quota 0 1 1M 0", '"quota ..": WINDOW isn\'t a number from 0 to '),
        )
        for line, text in rows:
            with self.assertRaises(NotAnOrder) as refused:
                read_order(line, 2)
            self.assertTrue(str(refused.exception).startswith(text), str(refused.exception))


class Sizes(unittest.TestCase):
    def test_sizes(self) -> None:
        for text, size in (("0", 0), ("65536", 65536), ("64K", 65536), ("64KiB", 65536), ("1M", 1 << 20), ("3G", 3 << 30), ("1T", 1 << 40)):
            self.assertEqual(parse_size(text), size)
        for text in ("", "M", "1.5M", "-1", "1 M", "1m", "0x10", "1E", "\u0661"):
            self.assertRaises(ValueError, parse_size, text)
        for size, text in ((0, "0"), (1000, "1000"), (1024, "1K"), (1536, "1.5K"), (1 << 26, "64M"), (5 << 40, "5T")):
            self.assertEqual(size_text(size), text)


class Environment(unittest.TestCase):
    def test_modules_that_the_environment_names_arent_run(self) -> None:
        with tempfile.TemporaryDirectory() as folder:
            for name in ("sitecustomize", "argparse"):
                Path(folder, f"{name}.py").write_text(f"open({folder!r} + '/seen', 'w').close()\n")
            names = {**os.environ, "PYTHONPATH": folder, "PATH": f"{Path(sys.executable).parent}:{os.environ['PATH']}"}
            for command in (DAEMON, CTL, CLIENT):
                done = subprocess.run([command, "--help"], env=names, capture_output=True, check=False)
                self.assertEqual((done.returncode, Path(folder, "seen").exists()), (0, False), (command, done.stderr))


class SettingsFiles(unittest.TestCase):
    def read(self, place: Place) -> Settings:
        return read_settings(place.settings, lambda: Path(PROGRAM))

    def test_jobs_come_by_number_and_node(self) -> None:
        with Place(2, (3, 1)) as place:
            text = place.settings.read_text().replace("[job 3]", "[job 3]\nnodes = 1")
            place.settings.write_text(text)
            found = [(job.job, job.node, job.window, job.device, job.key) for job in self.read(place).jobs]
            self.assertEqual(found, [(1, 0, 65536, 1 << 20, KEY), (1, 1, 65536, 1 << 20, KEY), (3, 1, 65536, 1 << 20, KEY)])
            self.assertEqual(self.read(place).sockets(), (place.socket(0), place.socket(1)))

    def test_faults_name_file_section_and_option(self) -> None:
        for old, new, said in SETTINGS_FAULTS:
            with Place(2, (1, 2)) as place:
                text = place.settings.read_text()
                self.assertIn(old, text)
                place.settings.write_text(text.replace(old, new, 1))
                with self.assertRaises(SettingsFault, msg=new) as fault:
                    self.read(place)
                self.assertIn(said, str(fault.exception))
                self.assertIn("store.ini", str(fault.exception))

    def test_a_key_that_every_user_may_read_is_refused(self) -> None:
        with Place() as place:
            self.assertEqual(read_key(place.key_file), KEY)
            place.write_key(0o640)
            self.assertEqual(read_key(place.key_file), KEY)
            place.write_key(0o604)
            self.assertRaisesRegex(KeyFault, "every user may use it .mode 0604.", read_key, place.key_file)
            for text in (KEY.upper(), KEY[:-1], f"{KEY}0", f"{KEY}\n", f" {KEY}"):
                place.write_key(0o600, text)
                self.assertRaisesRegex(KeyFault, "not 64 lower-case hexadecimal digits", read_key, place.key_file)

    def test_settings_that_others_may_write_are_refused(self) -> None:
        with Place() as place:
            os.chown(place.settings, -1, os.getegid())
            place.settings.chmod(0o664)
            self.read(place)
            place.settings.chmod(0o602)
            self.assertRaisesRegex(SettingsFault, "every user may write it .mode 0602.", self.read, place)
            place.settings.chmod(0o664)
            with mock.patch("os.getegid", return_value=os.getegid() + 1):
                self.assertRaisesRegex(SettingsFault, f"group {os.getegid() - 1} may write it .mode 0664.: chmod g-w", self.read, place)
                place.settings.chmod(0o644)
                self.read(place)

    def test_settings_of_another_user_are_refused(self) -> None:
        with Place() as place:
            other = os.geteuid() + 7
            if os.geteuid() == 0:
                os.chown(place.settings, other, -1)
                self.assertRaisesRegex(SettingsFault, f"user {other} owns it, who is neither root nor runs this: chown", self.read, place)
                with mock.patch("os.geteuid", return_value=other):
                    self.read(place)
                os.chown(place.settings, 0, -1)
                with mock.patch("os.geteuid", return_value=other):
                    self.read(place)
                return
            with mock.patch("os.geteuid", return_value=other):
                self.assertRaisesRegex(SettingsFault, "owns it, who is neither root nor runs this: chown", self.read, place)

    def test_a_key_file_that_is_none_is_refused_at_once(self) -> None:
        with Place() as place:
            pipe = place.path / "pipe"
            os.mkfifo(pipe, 0o600)
            self.assertRaisesRegex(KeyFault, "not 64 lower-case hexadecimal digits", read_key, pipe)
            self.assertRaisesRegex(KeyFault, "Is a directory|not 64", read_key, place.path)

    def test_a_folder_to_begin_with(self) -> None:
        with Place() as place:
            folder = place.path / "first"
            self.assertEqual(self.daemon("--new", str(folder)), (0, f"{DAEMON} {folder}/store.ini\n", ""))
            self.assertEqual(self.daemon("--check", f"{folder}/store.ini"), (0, f"{folder}/store.ini: 1 node, 1 admission\n", ""))
            modes = {path.name: path.stat().st_mode & 0o777 for path in (folder, *folder.iterdir())}
            self.assertEqual(modes, {"first": 0o700, "store.ini": 0o600, "job1.key": 0o600})
            status, said, fault = self.daemon("--new", str(folder))
            self.assertEqual((status, said), (1, ""))
            self.assertIn("File exists", fault)

    def daemon(self, *words: str) -> Tuple[int, str, str]:
        done = subprocess.run([sys.executable, DAEMON, *words], capture_output=True, text=True, check=False, env={"STORE_PROGRAM": PROGRAM})
        return done.returncode, done.stdout, done.stderr


if __name__ == "__main__":
    unittest.main()
