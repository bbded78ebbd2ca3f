"""How a daemon ends, and how its server does: by an order, by a signal, by a crash, at its start."""

from __future__ import annotations

import os
import re
import signal
import threading
import unittest
from typing import List

from driving import KEY, PATIENCE, PROGRAM, Place, crash, fill, is_running, listens, until

import store_client


def work(place: Place, number: int, over: threading.Event, lost: List[int], faults: List[str]) -> None:
    """A session after another, each until the server has gone: two of three put and get, the third waits without end."""
    try:
        while not over.is_set():
            try:
                with place.session(1, number % 2) as session:
                    wait(session) if number % 3 == 0 else put_and_get(session)
            except store_client.ConnectionLost:
                lost.append(number)
                over.wait(0.05)
    except (store_client.StoreError, OSError, AssertionError) as fault:
        faults.append(f"session {number}: {fault!r}")


def wait(session: store_client.Connection) -> None:
    """For an object that is never put, longer than the test takes."""
    try:
        session.get(session.new_id(), 10 * PATIENCE)
    except store_client.Pending:
        pass


def put_and_get(session: store_client.Connection) -> None:
    kept = fill(session, 6)
    while True:
        for index, one in enumerate(kept):
            with session.get(one, PATIENCE) as view:
                assert bytes(view) == bytes([index]) * 20_000, f"{one}: other bytes"


class Crashes(unittest.TestCase):
    def test_after_a_crash_the_live_jobs_are_admitted_again(self) -> None:
        with Place(2, (1, 2)) as place:
            place.start_ready()
            first = place.server()
            for line in ("end 0 1", "quota 0 2 128 64", f"admit 1 9 64 32 {KEY}"):
                self.assertTrue(place.ask(line).endswith(" op ok"), line)
            self.assertNotEqual(crash(place), first)
            self.assertEqual([place.ask(f"jobs {node}") for node in (0, 1)], ["n0 op jobs 2:128:64", "n1 op jobs 1:65536:1048576 2:65536:1048576 9:64:32"])
            self.assertEqual(place.ask("usage 0 2"), "n0 op usage 128 0 64 0 0 0")
            self.assertRaises(store_client.NotAdmitted, place.session, 1, 0)
            with place.session(9, 1) as session, session.get(session.put(b"again")) as view:
                self.assertEqual(bytes(view), b"again")
            # numbers begin anew
            self.assertEqual(place.ask(f"admit 0 3 64 0 {KEY}"), "n0 op ok")

    def test_nobody_waits_and_nothing_stays_of_a_killed_server(self) -> None:
        with Place() as place:
            place.start_ready()
            faults: List[BaseException] = []
            with place.session() as session, place.session() as waiting:
                ids = fill(session)
                until(place.spilled, "a spilled object")
                (place.path / "spill/0/1.77.part").write_bytes(b"cut off")

                def work() -> None:
                    try:
                        while True:
                            waiting.delete(waiting.put(bytes(1_000)))
                    except store_client.StoreError as fault:
                        faults.append(fault)

                working = threading.Thread(target=work)
                working.start()
                crash(place)
                working.join()
                self.assertIsInstance(faults[0], store_client.ConnectionLost)
                self.assertRaises(store_client.ConnectionLost, session.get, ids[0])
            self.assertEqual(place.spilled(), [])
            self.assertTrue(listens(place.socket()))

    def test_kills_under_load_leave_nothing_and_nobody_waits(self) -> None:
        """Some sessions work, and some wait for what doesn't come, while the server is killed again and again."""
        with Place(2) as place:
            daemon = place.start_ready()
            over = threading.Event()
            lost: List[int] = []
            faults: List[str] = []
            threads = [threading.Thread(target=work, args=(place, number, over, lost, faults), daemon=True) for number in range(6)]
            try:
                for thread in threads:
                    thread.start()
                servers = [self.crash_under_load(place, lost, faults) for _ in range(3)]
                servers.append(place.server())
            finally:
                over.set()
            self.assertEqual(place.end(daemon), 0)
            for thread in threads:
                thread.join(PATIENCE)
                self.assertFalse(thread.is_alive(), "a session waits")
            self.assertEqual(faults, [])
            self.assertEqual([server for server in servers if is_running(server)], [])
            self.assertEqual([place.spilled(node) for node in (0, 1)], [[], []])
            self.assertEqual({path.name for path in place.path.iterdir()}, {"key", "store.ini", "spill", "out", "log"})

    def crash_under_load(self, place: Place, lost: List[int], faults: List[str]) -> int:
        """The process that was killed, once all its sessions were told so."""
        until(lambda: faults or (place.spilled() and place.spilled(1)), "spilled objects")
        self.assertEqual(faults, [])
        server, before = place.server(), set(lost)
        lost.clear()
        crash(place)
        until(lambda: faults or len(set(lost)) == 6, f"all sessions are lost; before {before}, now {lost}")
        return server

    def test_pauses_rise(self) -> None:
        with Place() as place:
            place.start_ready()
            for _ in range(3):
                crash(place)
            self.assertEqual(re.findall(r"started again in (\S+) seconds", place.log()), ["0.5", "1", "2"])
            self.assertIn("restarts=3", place.ask("status"))

    def test_orders_meanwhile_are_not_done(self) -> None:
        with Place() as place:
            program = place.path / "program"
            program.symlink_to(PROGRAM)
            place.write(1, (1,), program="program")
            place.start_ready()
            server = place.server()
            # it can't be started again for a while
            program.unlink()
            os.kill(server, signal.SIGKILL)
            with place.control() as daemon:
                until(lambda: daemon.status()["restarts"] == 3, "the third pause")
                self.assertEqual(daemon.ask("end 0 1"), "not done: the server is paused")
                self.assertEqual(daemon.ask("usage 0 1"), "not done: the server is paused")
                self.assertEqual(daemon.ask("jobs 0"), "n0 op jobs 1:65536:1048576")
                program.symlink_to(PROGRAM)
                until(lambda: daemon.status()["state"] == "running", "a run")
                self.assertEqual(daemon.ask("end 0 1"), "n0 op ok")


class Stops(unittest.TestCase):
    def nothing_stays(self, place: Place, server: int) -> None:
        self.assertFalse(is_running(server))
        self.assertEqual(place.spilled(), [])
        kept = {"key", "store.ini", "spill", "out", "log"}
        self.assertEqual({path.name for path in place.path.iterdir()}, kept)

    def test_signals_leave_nothing(self) -> None:
        for number in (signal.SIGTERM, signal.SIGINT):
            with Place() as place:
                daemon = place.start_ready()
                server = place.server()
                with place.session() as session:
                    fill(session)
                    until(place.spilled, "a spilled object")
                    # the session stays open beyond the grace period
                    self.assertEqual(place.end(daemon, number), 0)
                self.nothing_stays(place, server)
                self.assertIn("1 sessions are still open, and are cut off", place.log())

    def test_a_close_waits_for_sessions_and_reports(self) -> None:
        with Place() as place:
            place.write(1, (1,), grace="50")
            daemon = place.start_ready()
            server = place.server()
            told: List[str] = []
            with place.session() as session:
                fill(session)
                closing = threading.Thread(target=lambda: told.append(place.ask("close")))
                closing.start()
                until(lambda: "state=closing" in place.ask("status"), "closing")
                # it goes on, and takes no new one
                self.assertEqual(session.usage().copies, 4)
                until(lambda: not place.socket().exists(), "no socket")
                self.assertEqual(place.ask("end 0 1"), "not done: the server is closing")
            closing.join()
            self.assertRegex(told[0], r"^report (\d+) \1 0 0 0$")
            self.assertEqual(daemon.wait(), 0)
            self.nothing_stays(place, server)

    def test_a_close_at_once_cuts_sessions_off(self) -> None:
        for second in ("close now", "TERM"):
            with Place() as place:
                place.write(1, (1,), grace="1000")
                daemon = place.start_ready()
                server = place.server()
                with place.session() as session:
                    closing = threading.Thread(target=place.end, args=(daemon,))
                    closing.start()
                    until(lambda: "state=closing" in place.ask("status"), "closing")
                    if second == "TERM":
                        daemon.terminate()
                    else:
                        self.assertEqual(place.ask(second), "terminated")
                    closing.join()
                    self.assertRaises(store_client.ConnectionLost, session.usage)
                self.assertEqual(daemon.returncode, 0)
                self.nothing_stays(place, server)

    def test_a_stop_in_a_pause(self) -> None:
        with Place() as place:
            daemon = place.start_ready()
            server = place.server()
            os.kill(server, signal.SIGKILL)
            until(lambda: "state=paused" in place.ask("status"), "a pause")
            self.assertEqual(place.end(daemon), 0)
            self.nothing_stays(place, server)


class Starts(unittest.TestCase):
    def test_a_job_that_is_refused_ends_the_start(self) -> None:
        with Place() as place:
            place.settings.write_text(place.settings.read_text().replace("window = 64K", "window = 100"))
            self.assertEqual(
                place.refused(),
                "store-daemon: admit 0 1 100 1048576 KEY: n0 op refused 7 BadSize: a window is 16 to 256M and a multiple of 16, "
                "a device quota 0 to 1T",
            )
            self.assertFalse(place.socket().exists() or (place.path / "control").exists())

    def test_what_the_server_says_is_told(self) -> None:
        with Place(jobs=()) as place:
            program = place.path / "program"
            program.write_text("#!/bin/sh\necho 'store: no memory' >&2\nexit 1\n")
            program.chmod(0o700)
            place.write(1, (), program="program")
            self.assertEqual(place.refused(), "store-daemon: store: no memory")

    def test_a_socket_that_is_taken(self) -> None:
        with Place() as place:
            daemon = place.start_ready()
            with Place() as other:
                other.write(1, (1,), socket=str(place.path / "store"))
                self.assertEqual(other.refused(), f"store-daemon: socket {place.socket()}: a server listens there")
                other.write(1, (1,), control=str(place.path / "control"))
                self.assertEqual(other.refused(), f"store-daemon: socket {place.path}/control: a server listens there")
                other.write(1, (1,))
                other.socket().write_text("no socket")
                self.assertEqual(other.refused(), f"store-daemon: socket {other.socket()}: a file is there that is no socket")
                self.assertEqual(other.socket().read_text(), "no socket")
                other.write(1, (1,), socket="missing/store")
                self.assertEqual(other.refused(), f"store-daemon: socket {other.path}/missing/store.0: there is no such folder")
            self.assertIsNone(daemon.poll())
            self.assertTrue(listens(place.socket()))

    def test_of_several_at_once_one_serves(self) -> None:
        with Place() as place:
            # what a daemon that was killed left
            daemon = place.start_ready()
            server = place.server()
            place.end(daemon, signal.SIGKILL)
            until(lambda: not is_running(server), "the server's end")
            self.assertTrue((place.path / "control").exists())
            daemons = [place.start() for _ in range(4)]
            until(lambda: sum(each.poll() is None for each in daemons) == 1, "one of them is left")
            self.assertEqual(sorted(each.returncode for each in daemons if each.poll() is not None), [1, 1, 1])
            until(lambda: (place.path / "control").exists() and "state=running" in place.ask("status"), "a run")

    def test_another_daemons_control_socket_stays(self) -> None:
        with Place() as place, Place() as other:
            daemon = place.start_ready()
            control = place.path / "control"
            control.unlink()
            other.write(1, (1,), control=str(control))
            other.start_ready()
            self.assertEqual(place.end(daemon), 0)
            self.assertIn("state=running", place.ask("status"))


if __name__ == "__main__":
    unittest.main()
