"""A daemon that serves: orders while sessions work, what is ready when, and who may use what it makes."""

from __future__ import annotations

import contextlib
import grp
import os
import re
import resource
import socket
import signal
import stat
import threading
import time
import unittest
from pathlib import Path
from typing import Dict, List

from driving import KEY, PATIENCE, Place, fill, is_running, listens, until

import store_client
from store_operator.asking import AskFault, Daemon
from store_operator.inspection import look_at

WRONG = ("admitt 0 2", "end 0 01", "", "close  now", "quit", "ADMIT", "admit 0 1 64 0", "end 7 1", "\x00\xff", "#end", 5000 * "x")
ROUNDS = 20
MOST_CONNECTIONS = 200
# of a node with the one usual job
JOBS = "n0 op jobs 1:65536:1048576"


def exchange(place: Place, lines: List[str]) -> List[str]:
    """All lines at once; the answers until the connection ends."""
    with socket.socket(socket.AF_UNIX) as stream:
        stream.settimeout(PATIENCE)
        stream.connect(str(place.path / "control"))
        stream.sendall("".join(f"{line}\n" for line in lines).encode("latin-1"))
        stream.shutdown(socket.SHUT_WR)
        with stream.makefile("r", encoding="utf-8", newline="\n") as answers:
            return [answer.rstrip("\n") for answer in answers]


def work(place: Place, job: int, faults: List[str]) -> None:
    """A session that puts and gets, and compares."""
    try:
        with place.session(job) as session:
            for number in range(ROUNDS):
                data = bytes([job, number]) * 2_000
                one = session.put(data)
                with session.get(one) as view:
                    if bytes(view) != data:
                        faults.append(f"job {job}, object {number}: other bytes")
                session.delete(one)
    except (store_client.StoreError, OSError) as fault:
        faults.append(f"job {job}: {fault!r}")


class WrongLines(unittest.TestCase):
    def test_200_wrong_lines_while_sessions_work(self) -> None:
        answered = [line for line in WRONG if line and not line.startswith("#")]
        rounds = -(-200 // (4 * len(answered)))
        faults: List[str] = []
        answers: List[List[str]] = []
        with Place(jobs=(1, 2)) as place:
            place.start_ready()
            server = place.server()
            threads = [threading.Thread(target=work, args=(place, job, faults)) for job in (1, 2)]
            lines = rounds * list(WRONG)
            threads += [threading.Thread(target=lambda: answers.append(exchange(place, lines))) for _ in range(4)]
            for thread in threads:
                thread.start()
            for thread in threads:
                thread.join()
            self.assertEqual(faults, [])
            numbers = [number for number, line in enumerate(lines, 1) if line and not line.startswith("#")]
            self.assertGreaterEqual(4 * len(numbers), 200)
            for told in answers:
                starts = [f"line {number}: not an order: " for number in numbers]
                self.assertEqual([answer[: len(start)] for answer, start in zip(told, starts)], starts)
                self.assertEqual(len(told), len(numbers))
            self.assertEqual(place.server(), server)
            self.assertEqual(place.ask("end 0 2"), "n0 op ok")

    def test_a_line_without_its_end_is_no_order(self) -> None:
        with Place() as place:
            place.start_ready()
            with socket.socket(socket.AF_UNIX) as stream:
                stream.settimeout(PATIENCE)
                stream.connect(str(place.path / "control"))
                stream.sendall(b"end 0 1")
                stream.shutdown(socket.SHUT_WR)
                self.assertIn(b"line 1: not an order: no line feed", stream.recv(4096))
            self.assertEqual(place.ask("jobs 0"), JOBS)

    def test_a_line_that_comes_in_pieces_is_one(self) -> None:
        with Place() as place:
            place.start_ready()
            with socket.socket(socket.AF_UNIX) as stream, stream.makefile("r", newline="\n") as answers:
                stream.settimeout(PATIENCE)
                stream.connect(str(place.path / "control"))
                for letter in "jobs 0\njobs 0":
                    stream.sendall(letter.encode())
                    time.sleep(0.002)
                self.assertEqual(answers.readline(), f"{JOBS}\n")
                stream.sendall(b"\n")
                self.assertEqual(answers.readline(), f"{JOBS}\n")

    def test_a_line_without_end_takes_no_memory(self) -> None:
        with Place() as place:
            daemon = place.start_ready()
            before = look_at(daemon.pid).resident
            with socket.socket(socket.AF_UNIX) as stream:
                stream.settimeout(PATIENCE)
                stream.connect(str(place.path / "control"))
                for _ in range(64):
                    stream.sendall(bytes(1 << 20))
                self.assertLess(look_at(daemon.pid).resident - before, 16 << 20)
                stream.shutdown(socket.SHUT_WR)
                self.assertIn(b"line 1: not an order: ", stream.recv(4096))
            self.assertEqual(place.ask("jobs 0"), JOBS)

    def test_idle_connections_make_room(self) -> None:
        with Place() as place, contextlib.ExitStack() as opened:
            place.start_ready()

            def begin() -> Daemon:
                control = opened.enter_context(place.control())
                self.assertEqual(control.ask("jobs 0"), JOBS)
                return control

            first, *others = (begin() for _ in range(MOST_CONNECTIONS))
            self.assertEqual(first.ask("jobs 0"), JOBS)
            for made_room in others[:2]:
                begin()
                self.assertRaises(AskFault, made_room.ask, "jobs 0")
            for control in (first, *others[2:]):
                self.assertEqual(control.ask("jobs 0"), JOBS)

    def test_wrong_lines_dont_fill_the_log(self) -> None:
        with Place() as place:
            place.start_ready()
            began = time.monotonic()
            for _ in range(4):
                exchange(place, 500 * ["help"])
            time.sleep(1.1)
            self.assertIn("not an order", place.ask("help"))
            seconds = time.monotonic() - began
            told = [line for line in place.log().splitlines() if "not an order" in line]
            self.assertLessEqual(len(told), 1 + seconds)
            untold = [re.search(r"\(and (\d+) more since the last line\)$", line) for line in told]
            self.assertEqual(len(told) + sum(int(found[1]) for found in untold if found), 4 * 500 + 1)


class Orders(unittest.TestCase):
    def test_orders_of_two_connections_at_once(self) -> None:
        with Place(2) as place:
            place.start_ready()
            with place.control() as first, place.control() as second:
                self.assertEqual(first.ask(f"admit 0 7 64 0 {KEY}"), "n0 op ok")
                self.assertEqual(second.ask(f"admit 0 7 64 0 {KEY}"), "n0 op refused 3 Exists")
                self.assertEqual(second.ask("quota 0 7 128 32"), "n0 op ok")
                self.assertEqual(first.ask("jobs 0"), "n0 op jobs 1:65536:1048576 7:128:32")
                self.assertEqual(first.ask("quota 0 7 129 32"), "n0 op refused 7 BadSize")
                self.assertEqual(second.ask("usage 0 7"), "n0 op usage 128 0 32 0 0 0")
                self.assertEqual(second.ask("usage 1 7"), "n1 op refused 1 NotAdmitted")
                self.assertEqual(first.ask("end 0 7"), "n0 op ok")
                self.assertEqual(first.ask("jobs 0"), JOBS)

    def test_usage_and_status_say_what_sessions_did(self) -> None:
        with Place(2) as place:
            place.start_ready()
            with place.session() as session:
                session.put(bytes(1_000))
                self.assertEqual(place.ask("usage 0 1"), "n0 op usage 65536 1008 1048576 0 1 0")
                # also one that has looked whether the server listens goes, after a moment
                with place.control() as daemon:
                    until(lambda: daemon.status()["sessions"] == [1, 0], "one session")
                    status = daemon.status()
            self.assertEqual((status["state"], status["restarts"], status["jobs"]), ("running", 0, [1, 1]))


class Ready(unittest.TestCase):
    def test_ready_is_told_once_all_listen(self) -> None:
        with Place(3) as place, socket.socket(socket.AF_UNIX, socket.SOCK_DGRAM) as manager:
            place.write(3, (1,), ready="ready")
            manager.settimeout(PATIENCE)
            manager.bind(str(place.path / "manager"))
            daemon = place.start(names={"NOTIFY_SOCKET": str(place.path / "manager")})
            self.assertEqual(manager.recv(4096).splitlines()[0], b"READY=1")
            self.assertTrue(all(listens(place.socket(node)) for node in range(3)))
            self.assertEqual(place.ask("jobs 2"), "n2 op jobs 1:65536:1048576")
            self.assertEqual((place.path / "ready").read_text(), f"{place.server()}\n")
            self.assertEqual(until(place.said, "a line"), ["store-daemon: ready"])
            self.assertEqual(place.end(daemon), 0)
            self.assertEqual(manager.recv(4096), b"STOPPING=1")
            self.assertFalse((place.path / "ready").exists())

    def test_a_link_in_the_place_of_the_ready_file_is_replaced(self) -> None:
        with Place() as place:
            place.write(1, (1,), ready="ready")
            victim = place.path / "victim"
            victim.write_text("kept")
            (place.path / "ready").symlink_to(victim)
            place.start_ready()
            self.assertEqual((place.path / "ready").read_text(), f"{place.server()}\n")
            self.assertEqual(victim.read_text(), "kept")

    def test_a_ready_file_that_cannot_be_made_ends_the_start(self) -> None:
        with Place() as place:
            place.write(1, (1,), ready="missing/ready")
            self.assertIn("missing/ready", place.refused())
            self.assertFalse(place.socket().exists() or (place.path / "control").exists())

    def test_nohup_keeps_it_when_a_terminal_ends(self) -> None:
        with Place() as place:
            daemon = place.start_ready(["nohup"])
            daemon.send_signal(signal.SIGHUP)
            self.assertEqual(place.ask("jobs 0"), JOBS)
            self.assertEqual(place.end(daemon), 0)


class Modes(unittest.TestCase):
    def mode(self, path: Path) -> int:
        return stat.S_IMODE(path.lstat().st_mode)

    def test_all_is_the_owners_alone(self) -> None:
        with Place() as place:
            # it is started with the umask that is usual
            place.start_ready()
            with place.session() as session:
                fill(session)
                names = until(place.spilled, "a spilled object")
                self.assertEqual({self.mode(place.path / "spill/0" / name) for name in names}, {0o600})
            self.assertEqual(self.mode(place.socket()), 0o600)
            self.assertEqual(self.mode(place.path / "control"), 0o600)
            self.assertEqual([self.mode(place.path / name) for name in ("spill", "spill/0")], [0o700, 0o700])

    def test_others_may_connect_if_the_settings_say_so(self) -> None:
        with Place() as place:
            # root may give it to any group
            group = grp.getgrall()[1] if os.geteuid() == 0 else grp.getgrgid(os.getgroups()[0] if os.getgroups() else os.getegid())
            place.write(1, (1,), socket_mode="0660", socket_group=group.gr_name)
            place.start_ready()
            self.assertEqual((self.mode(place.socket()), place.socket().stat().st_gid), (0o660, group.gr_gid))
            self.assertEqual(self.mode(place.path / "control"), 0o600)


class Limits(unittest.TestCase):
    def limit(self, place: Place) -> int:
        return resource.prlimit(place.server(), resource.RLIMIT_NOFILE)[0]

    def test_the_limit_of_descriptors_is_raised(self) -> None:
        with Place(2) as place:
            place.start_ready(["bash", "-c", 'ulimit -Sn 256; exec "$@"', "_"])
            self.assertGreaterEqual(self.limit(place), 2 * 1028)
            self.assertNotIn("descriptors", place.log())

    def test_too_low_a_limit_is_told(self) -> None:
        with Place(2) as place:
            place.start_ready(["bash", "-c", 'ulimit -n 300; exec "$@"', "_"])
            self.assertEqual(self.limit(place), 300)
            self.assertIn("limit of 300 descriptors: 2082 are needed for 1024 sessions at each of 2 nodes", place.log())

    def test_the_allocator_gives_memory_back_unless_it_is_set_otherwise(self) -> None:
        none: Dict[str, str] = {}
        for names, kept in ((none, "1048576"), ({"MALLOC_MMAP_THRESHOLD_": "65536"}, "65536")):
            with self.subTest(names=names), Place() as place:
                place.start_ready(names=names)
                given = Path(f"/proc/{place.server()}/environ").read_bytes().split(b"\0")
                self.assertIn(f"MALLOC_MMAP_THRESHOLD_={kept}".encode(), given)
                self.assertIn(b"MALLOC_ARENA_MAX=4", given)
                self.assertIn(b"MALLOC_TRIM_THRESHOLD_=1048576", given)

    def test_a_limit_of_files_fails_a_spill_and_nothing_else(self) -> None:
        with Place(jobs=(1, 2)) as place:
            # blocks of 1,024 bytes
            place.start_ready(["bash", "-c", 'ulimit -f 8; exec "$@"', "_"])
            server = place.server()
            with place.session() as session, place.session(2) as other:
                kept = other.put(b"kept")
                self.assertRaises(store_client.DeviceFailed, fill, session)
                with other.get(kept) as view:
                    self.assertEqual(bytes(view), b"kept")
            self.assertTrue(is_running(server))


if __name__ == "__main__":
    unittest.main()
