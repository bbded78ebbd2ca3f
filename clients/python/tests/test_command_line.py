"""The command line at a running server."""

from __future__ import annotations

import io
import os
import pty
import signal
import subprocess
import sys
import tempfile
import time
import unittest
from pathlib import Path
from typing import Optional

from support import PATIENCE, ROOT, Server, key

import store_client

try:
    import numpy
except ImportError:
    numpy = None


class CommandLine(unittest.TestCase):
    def setUp(self) -> None:
        self.server = Server()
        self.addCleanup(self.server.close)
        self.store = self.server.connect()
        self.addCleanup(self.store.close)
        self.one = self.store.task(1).object(1)

    def command_line(self) -> tuple[list[str], dict[str, str]]:
        """The words of a command line but for the command, and the environment."""
        words = [sys.executable, "-m", "store_client", "--socket", self.server.path, "--job", "1", "--key", key(1).hex()]
        return words, {**os.environ, "PYTHONPATH": str(ROOT / "clients/python/src")}

    def test_usage_is_watched(self) -> None:
        words, place = self.command_line()
        with subprocess.Popen(words + ["watch", "--every", "0.01"], stdout=subprocess.PIPE, env=place, text=True) as watch:
            assert watch.stdout
            self.assertEqual(watch.stdout.readline(), "window 0/33554432, device 0/0, copies 0, works 0\n")
            self.store.create(self.one, 5)
            self.assertEqual(watch.stdout.readline(), "window 16/33554432, device 0/0, copies 1, works 0\n")
            watch.send_signal(signal.SIGINT)
            self.assertEqual((watch.wait(PATIENCE), watch.stdout.read()), (130, ""))

    def at_a_terminal(self, server: Server, *words: str, data: bytes = b"") -> tuple[bytes, str]:
        """What job 9's command gives, and what a terminal is told meanwhile."""
        place = {**os.environ, "PYTHONPATH": str(ROOT / "clients/python/src")}
        place.update(STORE_SOCKET=server.path, STORE_JOB="9", STORE_KEY=key(9).hex())
        our_end, their_end = pty.openpty()
        with open(our_end, "rb", buffering=0) as ours, open(their_end, "wb", buffering=0) as theirs:
            done = subprocess.run([sys.executable, "-m", "store_client", *words], input=data, stdout=subprocess.PIPE, stderr=theirs,
                                  env=place, check=False, timeout=PATIENCE)
            self.assertEqual(done.returncode, 0)
            theirs.write(b".")
            return done.stdout, ours.read(10_000).decode()

    def test_a_long_file_goes_in_parts_and_a_terminal_is_told_how_far_it_is(self) -> None:
        server = Server(memory=2**28)
        self.addCleanup(server.close)
        server.admit(0, 9, 2**27)
        data = os.urandom(2**20) * 64
        told, seen = self.at_a_terminal(server, "put", "-", "--id", "t1.1", data=data)
        self.assertEqual(told, b"t1.1\n")
        self.assertIn(f"\rput: [{'#' * 40}] 100 % of 64 MiB", seen)
        self.assertIn(f"\rput: [{'#' * 20}{' ' * 20}] 50 % of 64 MiB", seen)
        told, seen = self.at_a_terminal(server, "get", "t1.1")
        self.assertEqual(told == data, True)
        self.assertIn(f"\rget: [{'#' * 40}] 100 % of 64 MiB", seen)
        with server.connect(9) as store:
            self.assertEqual(len(store.list()[0]), 9)
            self.at_a_terminal(server, "delete", "t1.1")
            self.assertEqual(store.list()[0], [])
        self.assertEqual(self.at_a_terminal(server, "put", "-", "--id", "t1.2", data=bytes(2**20)), (b"t1.2\n", "."))

    @unittest.skipIf(numpy is None, "numpy isn't there")
    def test_files_of_numpy(self) -> None:
        with tempfile.TemporaryDirectory() as folder:
            file, objects = f"{folder}/numbers.npy", f"{folder}/objects.npy"
            numbers = numpy.asfortranarray(numpy.arange(12.0).reshape(3, 4))
            numpy.save(file, numbers)
            numpy.save(objects, numpy.array([{}], dtype=object), allow_pickle=True)
            self.assertEqual(self.run_as(1, "put", file, "--array", "--id", "t1.1").stdout, b"t1.1\n")
            self.assertEqual(self.store.get_array(self.one).tolist(), numbers.tolist())
            self.store.put_array(numbers * 2, self.store.task(1).object(2))
            got = self.run_as(1, "get", "t1.2", "--array")
            self.assertEqual(numpy.load(io.BytesIO(got.stdout)).tolist(), (numbers * 2).tolist())
            self.store.put(b"Hello", self.store.task(1).object(3))
            none = "is no array: it isn't in numpy's format .npy, as put_array stores it"
            for words, told in (
                (("put", "/dev/null", "--array"), f"/dev/null {none}"), (("get", "t1.3", "--array"), f"t1.3 {none}"),
                (("put", objects, "--array"), "its items are Python objects, which would have to be unpickled"),
            ):
                done = self.run_as(1, *words)
                self.assertEqual((done.returncode, done.stdout, done.stderr.count(b"\n")), (1, b"", 1))
                self.assertIn(told, done.stderr.decode())
            self.assertEqual(len(self.store.list()[0]), 3)

    def test_files_of_numpy_where_there_is_no_numpy(self) -> None:
        with tempfile.TemporaryDirectory() as folder:
            Path(folder, "numpy.py").write_text("raise ImportError\n", encoding="ascii")
            Path(folder, "file").write_bytes(b"\x93NUMPY")
            place = {"PYTHONPATH": f"{folder}:{ROOT / 'clients/python/src'}"}
            done = self.run_as(1, "put", f"{folder}/file", "--array", place=place)
            self.assertEqual((done.returncode, done.stderr.count(b"\n")), (1, 1))
            self.assertIn(b"store-client: put_array and get_array need numpy", done.stderr)

    def test_parts_are_granted_together(self) -> None:
        server = Server(memory=2**27)
        self.addCleanup(server.close)
        place, value = {"STORE_SOCKET": server.path}, bytes(2**24)
        server.admit(0, 9, 2**25)
        with server.connect(9) as store, server.connect(1) as other:
            id = store.put_value(value, store.task(1).object(1))
            self.assertEqual(self.run_as(9, "grant", "t1.1", "1", place=place).returncode, 0)
            self.assertEqual(len(other.list()[1]), 10)
            self.assertEqual(other.get_value(id, trust=True) == value, True)
            self.assertEqual(self.run_as(9, "withdraw", "t1.1", "1", place=place).returncode, 0)
            self.assertEqual(other.list()[1], [])

    def test_what_can_t_be_read_is_deleted_all_the_same(self) -> None:
        self.store.create(self.one, 4)
        self.assertEqual(self.run_as(1, "delete", "t1.1").returncode, 0)
        self.assertEqual(self.store.list()[0], [])

    def test_the_version_names_the_client(self) -> None:
        done = self.run_as(1, "--version")
        self.assertEqual(done.stdout.decode(), f"store-client {store_client.__version__}\n")

    def test_the_command_line(self) -> None:
        words, place = self.command_line()

        def run(*more: str, data: bytes = b"") -> bytes:
            done = subprocess.run(words + list(more), input=data, capture_output=True, env=place, check=False, timeout=PATIENCE)
            self.assertEqual((done.returncode, done.stderr), (0, b""))
            return done.stdout

        self.assertEqual(run("put", "-", "--id", "t1.1", data=b"Hello"), b"t1.1\n")
        self.assertEqual(run("get", "t1.1"), b"Hello")
        self.assertEqual(run("list"), b"t1.1 sealed primary 5\n")
        self.assertEqual(run("usage"), b"window 16/33554432, device 0/0, copies 1, works 0\n")
        run("delete", "t1.1")
        failed = subprocess.run(words + ["delete", "t1.1"], capture_output=True, env=place, check=False, timeout=PATIENCE)
        self.assertEqual(failed.returncode, 1)
        self.assertTrue(failed.stderr.startswith(b"store-client: 4 Absent"))

    def run_as(self, job: int, *more: str, place: Optional[dict[str, str]] = None) -> subprocess.CompletedProcess[bytes]:
        """A command of this job, whose key and socket stand in the environment."""
        words = [sys.executable, "-m", "store_client", *more]
        known = {"STORE_SOCKET": self.server.path, "STORE_JOB": str(job), "STORE_KEY": key(job).hex()}
        around = {**os.environ, "PYTHONPATH": str(ROOT / "clients/python/src"), **known, **(place or {})}
        return subprocess.run(words, capture_output=True, env=around, check=False, timeout=PATIENCE)

    def test_grants(self) -> None:
        self.store.put(b"Hello", self.one)
        for job, words, told in [
            (1, "grant t1.1 2", b""),
            (2, "list", b"1/t1.1 granted 5 depth 1\n"),
            (2, "peek 1/t1.1 1 3", b"ell"),
            (2, "get 1/t1.1", b"Hello"),
            (1, "withdraw t1.1 2", b""),
            (2, "list", b""),
            (1, "end-task t1", b""),
            (1, "list", b""),
        ]:
            done = self.run_as(job, *words.split())
            self.assertEqual((done.returncode, done.stdout, done.stderr), (0, told, b""), words)
        done = self.run_as(2, "get", "1/t1.1", "--timeout", "0.1")
        self.assertEqual((done.returncode, done.stderr[:27]), (1, b"store-client: 13 NotGranted"))

    def test_what_is_left_unsealed_can_be_listed(self) -> None:
        self.store.put(b"Hello", self.one)
        self.store.create(self.store.task(1).object(2), 4)
        self.assertEqual(self.run_as(1, "list", "--created").stdout, b"t1.2 created primary 4\n")

    def test_a_key_in_a_file(self) -> None:
        with tempfile.NamedTemporaryFile("w", suffix=".key") as file:
            file.write(key(1).hex() + "\n")
            file.flush()
            for other in (key(2).hex(), "no key", ""):
                done = self.run_as(1, "--key-file", file.name, "usage", place={"STORE_KEY": other})
                self.assertEqual((done.returncode, done.stderr), (0, b""))

    def test_wrong_words_are_told_without_a_traceback(self) -> None:
        for words, told in [
            ("--job -1 usage", "a job is 1 to 4294967295, not -1"),
            ("--job 4294967296 usage", "a job is 1 to 4294967295, not 4294967296"),
            ("--job one usage", "argument --job: a job is a whole number, not 'one'"),
            ("--key 00 usage", "a key is 64 hexadecimal digits"),
            ("--key-file /nowhere usage", "No such file"),
            ("get t1.1 --timeout -1", "from 0 on"),
            ("grant t1.1 -1", "argument"),
        ]:
            done = self.run_as(1, *words.split())
            self.assertEqual(done.returncode, 2, words)
            self.assertIn(told, done.stderr.decode().splitlines()[-1], words)
        for words, told in [
            ("get t1", "'t1' is no id: one looks like t1.1, or 2/t1.1 of job 2, or has 56"),
            ("put /nowhere", "No such file"),
            ("end-task 1", "'1' is no task: one looks like t1, or has 40"),
        ]:
            done = self.run_as(1, *words.split())
            self.assertEqual((done.returncode, done.stderr.count(b"\n")), (1, 1), words)
            self.assertIn(told, done.stderr.decode())

    def test_a_length_that_no_object_has_is_told_with_the_limit(self) -> None:
        done = self.run_as(1, "put", "/dev/null", "--id", "t1.1")
        told = "store-client: 7 BadSize: A length outside its range. (create t1.1, 0 bytes; an object has 1 to 16777216"
        self.assertEqual((done.returncode, done.stderr.decode()[: len(told)]), (1, told))

    def test_a_reader_that_goes_away_is_no_traceback(self) -> None:
        words, place = self.command_line()
        self.store.put(bytes(2**18), self.one)
        for unbuffered in ("", "1"):
            place["PYTHONUNBUFFERED"] = unbuffered
            with subprocess.Popen([*words, "get", "t1.1"], stdout=subprocess.PIPE, stderr=subprocess.PIPE, env=place) as client:
                assert client.stdout and client.stderr
                os.read(client.stdout.fileno(), 1)
                client.stdout.close()
                told = client.stderr.read()
                self.assertEqual((client.wait(PATIENCE), told), (1, b"store-client: [Errno 32] Broken pipe\n"))

    def test_a_server_that_stands_still_is_told(self) -> None:
        """Within the time that the command has, at least a second."""
        self.server.program.send_signal(signal.SIGSTOP)
        self.addCleanup(self.server.program.send_signal, signal.SIGCONT)
        for words in ("get t1.1 --timeout 1", "put /dev/null --timeout 0.1"):
            began = time.monotonic()
            done = self.run_as(1, *words.split())
            told = f"store-client: {self.server.path}: the connection was lost: the server didn't answer in time\n"
            self.assertEqual((done.returncode, done.stderr.decode()), (1, told))
            self.assertLess(time.monotonic() - began, PATIENCE / 4)

    def test_what_is_wrong_in_the_environment_is_named(self) -> None:
        for name, value, told in [
            ("STORE_JOB", "one", "STORE_JOB in the environment: a job is a whole number, not 'one'"),
            ("STORE_JOB", "0", "STORE_JOB in the environment: a job is 1 to 4294967295, not 0"),
            ("STORE_KEY", "00", "STORE_KEY in the environment: a key is 64 hexadecimal digits"),
            ("STORE_KEY", "", "--key-file is needed, or STORE_KEY in the environment"),
            ("STORE_SOCKET", "", "--socket is needed, or STORE_SOCKET in the environment"),
        ]:
            done = self.run_as(1, "usage", place={name: value})
            said = done.stderr.decode().splitlines()[-1]
            self.assertEqual((done.returncode, said), (2, f"store-client: error: {told}"))

    def test_what_is_missing_is_named(self) -> None:
        done = subprocess.run([sys.executable, "-m", "store_client", "usage"], capture_output=True, check=False, timeout=PATIENCE,
                              env={"PYTHONPATH": str(ROOT / "clients/python/src")})
        self.assertEqual(done.returncode, 2)
        self.assertIn(b"--socket is needed, or STORE_SOCKET in the environment", done.stderr)
