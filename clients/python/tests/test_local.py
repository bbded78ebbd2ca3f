"""A server of a process's own: how it begins, what it is used for, and that it ends with the process in any case."""

from __future__ import annotations

import contextlib
import gc
import importlib
import multiprocessing
import os
import pickle
import shutil
import signal
import subprocess
import sys
import tempfile
import unittest
from pathlib import Path
from typing import Dict, List, Tuple, Union
from unittest import mock

from support import PATIENCE, PROGRAM, ROOT, in_child

import store_client
from store_client import ConnectionLost, NotStarted, ObjectId, Pool, embedded
from store_operator.sizes import parse_size
from store_testing.waiting import until

CLIENT = ROOT / "clients/python/src"
# what a script begins with
BEGIN = "import os, signal, sys, time, store_client\nstore = store_client.local('1M')\nprint(store.path, flush=True)\n"


def servers(folder: Path) -> List[int]:
    """The processes whose command line names something in the folder."""
    found = []
    for place in Path("/proc").glob("[0-9]*"):
        with contextlib.suppress(OSError):
            if os.fsencode(folder) in (place / "cmdline").read_bytes():
                found.append(int(place.name))
    return found


def line_of(process: "subprocess.Popen[str]") -> str:
    """The next line of its output."""
    assert process.stdout
    return process.stdout.readline()


def kill_all(group: int) -> None:
    with contextlib.suppress(ProcessLookupError):
        os.killpg(group, signal.SIGKILL)


def put_and_get(pool: Pool, number: int) -> Tuple[int, bytes]:
    """What a worker does."""
    id = pool.put(bytes([number]) * 1000)
    with pool.get(id) as view:
        return bytes(view)[0], id.to_bytes()


class Local(unittest.TestCase):
    """In a folder for temporary files that nobody else has."""

    def setUp(self) -> None:
        folder = tempfile.TemporaryDirectory()
        self.addCleanup(folder.cleanup)
        self.folder = Path(folder.name)
        self.temporary = self.folder / "tmp"
        self.temporary.mkdir()
        patches = contextlib.ExitStack()
        self.addCleanup(patches.close)
        place = {"STORE_PROGRAM": PROGRAM, "TMPDIR": str(self.temporary), "PYTHONPATH": str(CLIENT)}
        patches.enter_context(mock.patch.dict(os.environ, place))
        patches.enter_context(mock.patch.object(tempfile, "tempdir", str(self.temporary)))

    def program(self, line: str) -> str:
        """A script that stands in for the program."""
        path = self.folder / "program"
        path.write_text(f"#!/bin/sh\n{line}\n", encoding="ascii")
        path.chmod(0o755)
        return str(path)

    def assert_nothing_is_left(self) -> None:
        until(lambda: not os.listdir(self.temporary), "an empty folder", PATIENCE)
        until(lambda: not servers(self.temporary / "store-"), "the server's end", PATIENCE)


class Use(Local):
    def test_a_block(self) -> None:
        with store_client.local("1M", "2M", timeout=float("inf")) as store:
            with store.get(store.put(b"Hello")) as view:
                self.assertEqual(bytes(view), b"Hello")
            folder = Path(store.path).parent
            self.assertEqual((folder.parent, folder.stat().st_mode & 0o777), (self.temporary, 0o700))
            self.assertEqual(len(servers(folder)), 1)
            self.assertEqual((store.usage().window, store.usage().device), (2**20, 2**21))
        self.assertEqual((os.listdir(self.temporary), servers(folder)), ([], []))
        self.assertFalse(store.is_usable)
        self.assertRaises(ConnectionLost, store.put, b"Hello")

    def test_what_memory_has_no_room_for_is_on_the_disk(self) -> None:
        with store_client.local("1M", "8M") as store:
            ids = [store.put(bytes([number]) * 2**19) for number in range(8)]
            for number, id in enumerate(ids):
                with store.get(id) as view:
                    self.assertEqual((view[0], len(view)), (number, 2**19))

    def test_without_a_block(self) -> None:
        for closed in (1, 2, 0):
            store = store_client.local("1M")
            store.put(b"Hello")
            for _ in range(closed):
                store.close()
            del store
            gc.collect()
            self.assertEqual(os.listdir(self.temporary), [])

    def test_two_at_once(self) -> None:
        with store_client.local("1M") as one, store_client.local("2M") as two:
            id = one.put(b"Hello")
            self.assertEqual((one.contains(id), two.contains(id)), (True, False))
            one.close()
            self.assertEqual(two.put(b"Hello", id), id)
        self.assert_nothing_is_left()

    def test_processes_of_a_pool_put_and_get(self) -> None:
        for method in ("fork", "spawn"):
            with store_client.local("1M") as store:
                with multiprocessing.get_context(method).Pool(4) as workers:
                    done = workers.starmap_async(put_and_get, [(store.pool(), number) for number in range(20)]).get(PATIENCE)
                for number, (first, id) in enumerate(done):
                    with store.get(ObjectId.from_bytes(id)) as view:
                        self.assertEqual((first, bytes(view)), (number, bytes([number]) * 1000))
        self.assert_nothing_is_left()

    def test_its_pools_have_a_keeper_unless_it_is_not_wanted(self) -> None:
        for wanted in (False, True):
            with store_client.local("1M", keeper=wanted) as store:
                pools = (store.pool(), pickle.loads(pickle.dumps(store.pool())))
                for number, pool in enumerate(pools, 1):
                    with pool:
                        pool.put(b"Hello", store.task(1).object(number))
                self.assertEqual(len(list(self.temporary.glob("store-keepers-*"))), int(wanted))
        self.assert_nothing_is_left()

    def test_a_child_that_ends_leaves_the_server(self) -> None:
        with store_client.local("1M") as store:
            self.assertIn("ConnectionLost", in_child(lambda: store.put(b"Hello")))
            self.assertEqual(in_child(store.close), "None")
            self.assertEqual(in_child(lambda: store_client.connect(store.path, store.job, store.key).put(b"Hello").job), "1")
            store.put(b"Hello")

    def test_a_child_has_a_server_of_its_own(self) -> None:
        def own() -> bool:
            with store_client.local("1M") as other:
                return other.contains(other.put(b"Hello"))

        with store_client.local("1M") as store:
            self.assertEqual(in_child(own), "True")
            store.put(b"Hello")
        self.assert_nothing_is_left()

    def test_a_long_path_for_temporary_files(self) -> None:
        long = self.temporary / ("x" * 100)
        long.mkdir()
        with mock.patch.object(tempfile, "tempdir", str(long)), store_client.local("1M") as store:
            self.assertEqual(Path(store.path).parent.parent, Path("/tmp"))
            store.put(b"Hello")
        self.assertFalse(Path(store.path).parent.exists())

    def test_what_keeps_the_server_is_killed(self) -> None:
        with store_client.local("1M") as store:
            store._server._keeper.kill()
            store.put(b"Hello")
        self.assert_nothing_is_left()

    def test_a_server_that_is_lost(self) -> None:
        with store_client.local("1M") as store:
            (server,) = servers(Path(store.path).parent)
            os.kill(server, signal.SIGKILL)
            with self.assertRaises(ConnectionLost):
                store.put(b"Hello")
        self.assert_nothing_is_left()


class Ends(Local):
    """Of a script's process, of each kind."""

    def begin(self, script: str) -> Tuple["subprocess.Popen[str]", Path]:
        """The process, and its server's folder."""
        words, pipe = [sys.executable, "-c", BEGIN + script], subprocess.PIPE
        process = subprocess.Popen(words, stdout=pipe, stderr=pipe, text=True, start_new_session=True)
        self.addCleanup(process.communicate)
        self.addCleanup(process.kill)
        return process, Path(line_of(process).strip()).parent

    def test_by_itself(self) -> None:
        for script, status in (("", 0), ("sys.exit(3)", 3), ("with store: raise ValueError()", 1), ("os._exit(4)", 4), ("os.abort()", -6)):
            process, folder = self.begin(script)
            self.assertEqual(process.wait(PATIENCE), status)
            until(lambda: not folder.exists() and not servers(folder), f"the end after {script!r}", PATIENCE)

    def test_by_a_signal(self) -> None:
        for number in (signal.SIGINT, signal.SIGTERM, signal.SIGHUP, signal.SIGKILL):
            process, folder = self.begin("time.sleep(600)")
            self.assertEqual(len(servers(folder)), 1)
            process.send_signal(number)
            process.wait(PATIENCE)
            until(lambda: not folder.exists() and not servers(folder), f"the end after {number.name}", PATIENCE)

    def test_ctrl_c_that_the_process_outlives(self) -> None:
        script = "try:\n print('begun', flush=True)\n time.sleep(600)\n"
        script += "except KeyboardInterrupt:\n print(store.contains(store.put(b'Hello')))"
        process, folder = self.begin(script)
        self.assertEqual(line_of(process), "begun\n")
        os.killpg(process.pid, signal.SIGINT)
        self.assertEqual(process.communicate(timeout=PATIENCE), ("True\n", ""))
        self.assertFalse(folder.exists())

    def test_killed_while_a_child_lives_on(self) -> None:
        process, folder = self.begin("child = os.fork()\nif child: print(child, flush=True)\ntime.sleep(600)")
        child = int(line_of(process))
        self.addCleanup(os.kill, child, signal.SIGKILL)
        process.kill()
        until(lambda: not folder.exists() and not servers(folder), "the end", PATIENCE)
        os.kill(child, 0)

    def test_a_child_that_exits_as_python_does(self) -> None:
        fork = "child = os.fork()\nif not child: sys.exit()\nos.waitpid(child, 0)\n"
        process, _ = self.begin(f"{fork}print(store.contains(store.put(b'Hello')))")
        self.assertEqual(process.communicate(timeout=PATIENCE), ("True\n", ""))
        self.assert_nothing_is_left()

    def test_killed_while_it_starts(self) -> None:
        slow = self.program("sleep 600")
        process = subprocess.Popen([sys.executable, "-c", BEGIN], env={**os.environ, "STORE_PROGRAM": slow})
        until(lambda: servers(self.temporary / "store-"), "the server", PATIENCE)
        process.kill()
        process.wait()
        self.assert_nothing_is_left()

    def test_a_program_that_is_none(self) -> None:
        for line, said in (
            ("exit 0", "^the server didn't start: the server ended at once$"), ("echo no memory >&2; exit 1", "start: no memory$"),
            ("echo 'store: ready' >&2; echo 'n0 op refused 7 BadSize'", "the server answered n0 op refused 7 BadSize$"),
            ("sleep 600", r"^the server isn't ready after 0\.5 seconds$"),
        ):
            with mock.patch.dict(os.environ, STORE_PROGRAM=self.program(line)), self.assertRaisesRegex(NotStarted, said):
                store_client.local("1M", timeout=0.5 if "sleep" in line else None)
            self.assert_nothing_is_left()

    def test_no_folder_for_temporary_files(self) -> None:
        with mock.patch.object(tempfile, "tempdir", "/nowhere"), self.assertRaisesRegex(NotStarted, "/nowhere: No such file or directory$"):
            store_client.local("1M")


class Sizes(Local):
    def test_what_is_no_size(self) -> None:
        values: Tuple[Union[int, str], ...] = ("", "x", "1.5M", "-1", "1 M", "1X", "1G", "15", 15, 0, -1, 2**28 + 1)
        # some are wrong for memory alone
        devices: Dict[Union[int, str], Union[int, str]] = {"1G": "2T", "15": "1Q", 15: -2, 0: -3, 2**28 + 1: 2**40 + 1}
        for value in values:
            with self.assertRaisesRegex(ValueError, "^memory", msg=repr(value)):
                store_client.local(value)
            with self.assertRaisesRegex(ValueError, "^device", msg=repr(value)):
                store_client.local("1M", devices.get(value, value))
        wrong: object
        for wrong in (None, 1.5, b"1M", []):
            self.assertRaises(TypeError, store_client.local, wrong)
        self.assertEqual(os.listdir(self.temporary), [])

    def test_texts_are_read_as_the_daemon_reads_them(self) -> None:
        for text in ("0", "65536", "64K", "64KiB", "64KB", " 1M ", "3G", "1T"):
            self.assertEqual(embedded._size(text, "", 0, embedded.MOST_DEVICE), parse_size(text))
        for text in ("", "M", "1.5M", "-1", "1 M", "1m", "0x10", "1E", "\u0661"):
            self.assertRaises(ValueError, parse_size, text)
            self.assertRaises(ValueError, embedded._size, text, "", 0, embedded.MOST_DEVICE)

    def test_what_isn_t_whole_units_is_rounded_down(self) -> None:
        with store_client.local(1_000_007, 0) as store:
            self.assertEqual((store.usage().window, store.usage().device), (1_000_000, 0))

    def test_the_limits_are_the_server_s(self) -> None:
        text = (ROOT / "docs/rules/limits.md").read_text(encoding="utf-8").replace(",", "")
        self.assertIn(f"\n| window of a job | 16 to {embedded.MOST_MEMORY} a multiple of 16 |", text)
        self.assertIn(f"\n| device quota of a job | 0 to {embedded.MOST_DEVICE} |", text)


class Programs(Local):
    """Which program is taken. The package is a copy, which is in no checkout unless a test says so."""

    def setUp(self) -> None:
        super().setUp()
        self.top = self.folder / "top"
        self.copy = self.top / "clients/python/src"
        shutil.copytree(CLIENT / "store_client", self.copy / "store_client", ignore=shutil.ignore_patterns("__pycache__"))
        self.binaries = self.folder / "bin"
        self.binaries.mkdir()

    def found(self, **names: str) -> Tuple[int, str, str]:
        """Status, output and complaints of a process that asks for the program, with these names in an empty environment."""
        words = [sys.executable, "-c", "from store_client.server_program import find_program; print(find_program())"]
        place: Dict[str, str] = {"PYTHONPATH": str(self.copy), "PATH": str(self.binaries), "PYTHONDONTWRITEBYTECODE": "1", **names}
        done = subprocess.run(words, capture_output=True, text=True, check=False, timeout=PATIENCE, env=place, cwd="/")
        return done.returncode, done.stdout.strip(), done.stderr.strip().rpartition("\n")[2]

    def write(self, path: Path, text: str) -> None:
        path.parent.mkdir(exist_ok=True)
        path.write_text(text, encoding="ascii")
        path.chmod(0o755)

    def test_there_is_none(self) -> None:
        status, _, said = self.found()
        self.assertEqual(status, 1)
        for way in ("NotStarted: there is no program", "STORE_PROGRAM", "store-server by pip", "`store` of a release on PATH", "checkout"):
            self.assertIn(way, said)

    def test_the_first_that_is_there(self) -> None:
        self.write(self.top / "operate/program", "import sys\nprint('/of/checkout')\nprint('which one', file=sys.stderr)\n")
        self.assertEqual(self.found(), (0, "/of/checkout", "which one"))
        self.write(self.binaries / "store", "")
        self.assertEqual(self.found(), (0, str(self.binaries / "store"), ""))
        self.write(self.copy / "store_server/__init__.py", "def path(): return '/of/package'\n")
        self.assertEqual(self.found(), (0, "/of/package", ""))
        self.write(self.folder / "named", "")
        self.assertEqual(self.found(STORE_PROGRAM=str(self.folder / "named")), (0, str(self.folder / "named"), ""))

    def test_a_name_that_leads_to_none(self) -> None:
        self.write(self.binaries / "store", "")
        for path in ("/nowhere", "/etc/passwd", str(self.folder)):
            said = f"store_client.refusals.NotStarted: STORE_PROGRAM names {path}, which is no program"
            self.assertEqual(self.found(STORE_PROGRAM=path), (1, "", said))

    def test_the_checkout_says_why_there_is_none(self) -> None:
        self.write(self.top / "operate/program", "import sys\nsys.exit('program: there is no release')\n")
        status, _, said = self.found()
        self.assertEqual(status, 1)
        self.assertRegex(said, "NotStarted: program: there is no release; otherwise name it in STORE_PROGRAM")


class CommandLine(Local):
    def run_local(self, *words: str, given: str = "", **names: str) -> Tuple[int, str, str]:
        """Status, output and complaints of the command line."""
        command = [sys.executable, "-m", "store_client.local", *words]
        done = subprocess.run(
            command, input=given, capture_output=True, text=True, check=False, timeout=PATIENCE, env={**os.environ, **names}, cwd="/"
        )
        self.assert_nothing_is_left()
        return done.returncode, done.stdout, done.stderr

    def test_a_command(self) -> None:
        client = f"{sys.executable} -m store_client"
        script = f"echo Hello | {client} put - --id t1.1 && {client} get t1.1 && {client} usage; exit 7"
        told = self.run_local("--memory", "1M", "sh", "-c", script)
        self.assertEqual(told, (7, "t1.1\nHello\nwindow 16/1048576, device 0/1073741824, copies 1, works 0\n", ""))

    def test_a_shell(self) -> None:
        status, output, said = self.run_local(given="echo $STORE_JOB; exit 5\n", SHELL="/bin/sh")
        self.assertEqual((status, output), (5, "1\n"))
        self.assertRegex(said, r"^store_client\.local: the store is at /\S+/store\.0, and ends with this shell\n$")

    def test_options_after_the_command_are_its_own(self) -> None:
        for words in (("echo", "--memory"), ("--", "echo", "--memory")):
            self.assertEqual(self.run_local(*words), (0, "--memory\n", ""))

    def test_statuses(self) -> None:
        self.assertEqual(self.run_local("sh", "-c", "kill -KILL $$")[0], 128 + signal.SIGKILL)
        self.assertEqual(self.run_local("/nowhere"), (127, "", "store_client.local: /nowhere: No such file or directory\n"))
        self.assertEqual(self.run_local("/etc"), (126, "", "store_client.local: /etc: Permission denied\n"))

    def test_what_is_missing_or_wrong_is_one_line(self) -> None:
        cases: Tuple[Tuple[Tuple[str, ...], Dict[str, str], str], ...] = (
            (("--memory", "x"), {}, "memory: 'x' is no size: "), (("--memory", "1G"), {}, "memory, in bytes, is 16 to "),
            (("--device", "x"), {}, "device: 'x' is no size: "), ((), {"STORE_PROGRAM": "/nowhere"}, "STORE_PROGRAM names /nowhere, "),
        )
        for words, names, said in cases:
            status, output, complaint = self.run_local(*words, "true", **names)
            self.assertEqual((status, output, complaint.count("\n")), (2, "", 1))
            self.assertTrue(complaint.startswith(f"store_client.local: {said}"), complaint)

    def test_signals_are_the_command_s(self) -> None:
        # as a terminal sends them to all of its foreground, and as another process sends them to this one
        for number, send in [(signal.SIGINT, os.killpg), (signal.SIGQUIT, os.killpg), (signal.SIGTERM, os.kill), (signal.SIGHUP, os.kill)]:
            script = "trap 'exit 9' INT TERM HUP QUIT; echo begun; while :; do sleep 0.05; done"
            words = [sys.executable, "-m", "store_client.local", "sh", "-c", script]
            pipe, nothing = subprocess.PIPE, subprocess.DEVNULL
            process = subprocess.Popen(words, stdout=pipe, stderr=nothing, text=True, start_new_session=True)
            self.addCleanup(process.communicate)
            self.addCleanup(kill_all, process.pid)
            self.assertEqual(line_of(process), "begun\n")
            send(process.pid, number)
            self.assertEqual(process.wait(PATIENCE), 9, number.name)
            self.assert_nothing_is_left()

    def test_ctrl_c_while_it_starts(self) -> None:
        place = {**os.environ, "STORE_PROGRAM": self.program("sleep 600")}
        with subprocess.Popen([sys.executable, "-m", "store_client.local", "true"], stderr=subprocess.PIPE, env=place) as process:
            until(lambda: servers(self.temporary / "store-"), "the server", PATIENCE)
            process.send_signal(signal.SIGINT)
            assert process.stderr
            self.assertEqual((process.wait(PATIENCE), process.stderr.read()), (130, b""))
        self.assert_nothing_is_left()

    def test_the_command_line_is_no_module(self) -> None:
        with self.assertRaisesRegex(ImportError, "^store_client.local is a call"):
            importlib.import_module("store_client.local")
        self.assertTrue(callable(store_client.local))
