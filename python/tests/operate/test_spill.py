"""Spill folders: what is swept, what is never touched, and who else may use them."""

from __future__ import annotations

import os
import shutil
import signal
import subprocess
import unittest
from pathlib import Path
from typing import List

from driving import KEY, PROGRAM, Place, fill, is_running, until

import store_client
from store_operator.spill import SpillFault, SpillFolders
from store_testing.server import Server

# what a store's own files are called, and what only looks like it
OWN = ("1.1", "4294967295.18446744073709551615", "0.0", "7.12.part")
FOREIGN = ("1", "1.", ".1", "01.1", "1.01", "1.1.1", "1.1.parts", "1.1.part.part", "1.x", "note.txt", "1.1~", "-1.1", "lock", "1.\u0661")


def folder(place: Place) -> Path:
    """The folder of node 0, as an earlier run left it."""
    spill = place.path / "spill/0"
    spill.mkdir(parents=True)
    spill.parent.chmod(0o700)
    spill.chmod(0o700)
    return spill


class Sweeps(unittest.TestCase):
    def test_only_what_an_earlier_run_left_is_removed(self) -> None:
        with Place() as place:
            spill = folder(place)
            for name in (*OWN, *FOREIGN):
                (spill / name).write_text(name)
            beside = spill.parent / "1.1"
            beside.write_text("beside")
            daemon = place.start_ready()
            self.assertEqual(place.spilled(), sorted(FOREIGN))
            self.assertEqual(place.end(daemon), 0)
            self.assertEqual({name: (spill / name).read_text() for name in place.spilled()}, {name: name for name in FOREIGN})
            self.assertEqual(beside.read_text(), "beside")

    def test_a_link_in_a_spilled_objects_place_is_never_followed(self) -> None:
        for name in ("1.1", "1.1.part"):
            with Place() as place:
                spill, victim = folder(place), place.path / "victim"
                victim.write_text("kept")
                (spill / name).symlink_to(victim)
                (spill / "1.2").write_text("left")
                self.assertEqual(
                    place.refused(),
                    f"store-daemon: spill folder {spill}: {name} is no file, and a spilled object would go there: remove it",
                )
                self.assertEqual((victim.read_text(), os.readlink(spill / name)), ("kept", str(victim)))

    def test_a_hard_link_is_removed_and_its_file_stays(self) -> None:
        with Place() as place:
            spill, victim = folder(place), place.path / "victim"
            victim.write_text("kept")
            os.link(victim, spill / "1.1.part")
            place.start_ready()
            with place.session() as session:
                fill(session)
                until(place.spilled, "a spilled object")
            self.assertEqual(victim.read_text(), "kept")

    def test_a_link_that_came_while_it_served_is_left_at_the_end(self) -> None:
        with Place() as place:
            daemon = place.start_ready()
            victim = place.path / "victim"
            victim.write_text("kept")
            (place.path / "spill/0/9.9").symlink_to(victim)
            self.assertEqual(place.end(daemon), 0)
            self.assertEqual(victim.read_text(), "kept")
            self.assertIn("9.9 is no file", place.log())


    def test_a_folder_that_has_come_into_the_place_of_a_moved_one_is_left_at_the_end(self) -> None:
        with Place() as place:
            spill, moved = folder(place), place.path / "moved"
            folders = SpillFolders(spill.parent, [spill])
            folders.take()
            self.addCleanup(folders.give_up)
            self.assertEqual(folders.sweep(), 0)
            (spill / "1.1").write_text("own")
            spill.rename(moved)
            spill.mkdir(mode=0o700)
            (spill / "1.1").write_text("another's")
            self.assertRaisesRegex(SpillFault, "it was moved or removed, and this is another one", folders.clear)
            self.assertEqual((spill / "1.1").read_text(), "another's")
            shutil.rmtree(spill)
            self.assertRaisesRegex(SpillFault, "No such file", folders.clear)
            moved.rename(spill)
            self.assertEqual((folders.clear(), place.spilled()), (1, []))


class EndedJobs(unittest.TestCase):
    def test_what_an_ended_job_left_is_removed_and_nothing_else(self) -> None:
        with Place(jobs=(1, 3)) as place:
            place.start_ready()
            spill, victim = place.path / "spill/0", place.path / "victim"
            victim.write_text("kept")
            with place.session(3) as session:
                ids = fill(session)
                names = until(place.spilled, "a spilled object")
                # of the job that ends, of the one that lives, of a number that never was and a later one, and what is no file
                for name in ("1.7", "1.8.part", "2.1", "3.99", "4.1"):
                    (spill / name).write_text(name)
                (spill / "1.9").symlink_to(victim)
                self.assertEqual(place.ask("end 0 1"), "n0 op ok")
                until(lambda: not (spill / "1.7").exists(), "the sweep")
                until(lambda: not (spill / "1.8.part").exists(), "the sweep")
                self.assertEqual(set(place.spilled()), {*names, "1.9", "3.99", "4.1"})
                for number, one in enumerate(ids):
                    with session.get(one) as view:
                        self.assertEqual(bytes(view), bytes([number]) * 20_000)
            self.assertEqual(victim.read_text(), "kept")
            self.assertEqual(place.ask(f"admit 0 5 64 0 {KEY}"), "n0 op ok")
            (spill / "4.1").write_text("4.1")
            self.assertEqual(place.ask("end 0 5"), "n0 op ok")
            until(lambda: not (spill / "4.1").exists(), "the sweep after another end")

    @unittest.skipUnless(os.geteuid() == 0 and shutil.which("mount"), "only root may mount a folder")
    def test_an_erase_that_failed_is_tried_again(self) -> None:
        with Place() as place:
            spill = folder(place)
            if subprocess.run(["mount", "--bind", spill, spill], capture_output=True, check=False).returncode:
                self.skipTest("no folder may be mounted")
            try:
                self.erase_again(place, spill)
            finally:
                subprocess.run(["umount", spill], check=True)

    def erase_again(self, place: Place, spill: Path) -> None:
        daemon = place.start_ready()
        try:
            with place.session() as session:
                fill(session)
                until(place.spilled, "a spilled object")
            subprocess.run(["mount", "-o", "remount,bind,ro", spill], check=True)
            self.assertEqual(place.ask("end 0 1"), "n0 op ok")
            until(lambda: "looked for again later" in place.log(), "a sweep that fails")
            self.assertNotEqual(place.spilled(), [])
            subprocess.run(["mount", "-o", "remount,bind,rw", spill], check=True)
            until(lambda: not place.spilled(), "the sweep")
        finally:
            self.assertEqual(place.end(daemon), 0)


class Refusals(unittest.TestCase):
    def test_a_folder_that_others_may_use(self) -> None:
        for which, mode in (("spill", 0o755), ("spill/0", 0o750), ("spill/0", 0o701)):
            with Place() as place:
                folder(place)
                (place.path / which).chmod(mode)
                said = place.refused()
                self.assertEqual(
                    said, f"store-daemon: spill folder {place.path}/{which}: others may use it (mode {mode:04o}): chmod 700 {place.path}/{which}"
                )

    def test_a_folder_that_is_a_link(self) -> None:
        with Place() as place:
            spill = folder(place)
            spill.rmdir()
            elsewhere = place.path / "elsewhere"
            elsewhere.mkdir(mode=0o700)
            (elsewhere / "1.1").write_text("kept")
            spill.symlink_to(elsewhere)
            self.assertIn(f"spill folder {spill}: ", place.refused())
            self.assertEqual((elsewhere / "1.1").read_text(), "kept")

    def test_a_folder_that_is_a_file(self) -> None:
        with Place() as place:
            (place.path / "spill").write_text("")
            self.assertEqual(place.refused(), f"store-daemon: spill folder {place.path}/spill: File exists")

    def test_a_folder_with_none_above_it(self) -> None:
        with Place(spill="missing/spill") as place:
            above = place.path / "missing"
            due = f"store-daemon: spill folder {above}/spill: there is no folder {above}: make it for the user that runs this"
            self.assertEqual(place.refused(), due)
            self.assertFalse(above.exists())

    @unittest.skipIf(os.geteuid() != 0, "only root can give a folder away")
    def test_a_folder_of_another_user(self) -> None:
        with Place() as place:
            os.chown(folder(place), 65534, -1)
            self.assertEqual(place.refused(), f"store-daemon: spill folder {place.path}/spill/0: it belongs to another user (65534)")


class InUse(unittest.TestCase):
    def test_two_daemons_never_share_a_folder(self) -> None:
        with Place() as place, Place() as other:
            other.write(1, (1,), spill=str(place.path / "spill"))
            daemon = place.start_ready()
            with place.session() as session:
                ids = fill(session)
                names = until(place.spilled, "a spilled object")
                self.assertEqual(
                    other.refused(), f"store-daemon: spill folder {place.path}/spill: a live server uses it (daemon {daemon.pid})"
                )
                self.assertEqual(place.spilled(), names)
                with session.get(ids[0]) as view:
                    self.assertEqual(bytes(view), bytes(20_000))
            place.end(daemon)
            other.start_ready()

    def test_a_server_whose_daemon_was_killed_keeps_its_folder(self) -> None:
        with Place() as place, Place() as other:
            other.write(1, (1,), spill=str(place.path / "spill"))
            daemon = place.start_ready()
            server = place.server()
            with place.session() as session:
                ids = fill(session)
                until(place.spilled, "a spilled object")
                place.end(daemon, signal.SIGKILL)
                self.assertIn("a live server uses it", other.refused())
                self.assertEqual((session.usage().copies, bool(place.spilled())), (len(ids), True))
            # the end of its input is a close, and nobody is there any more
            until(lambda: not is_running(server), "the server's end")
            other.start_ready()
            self.assertEqual(place.spilled(), [])

    def test_a_server_that_was_started_by_hand_keeps_its_folder(self) -> None:
        with Place() as place, Server([PROGRAM], place.path, 1, 1 << 20, name="hand", key_of=lambda _: bytes.fromhex(KEY)) as server:
            server.admit(0, 1, 65536, 1 << 20)
            with store_client.connect(server.path(), 1, bytes.fromhex(KEY)) as session:
                ids = fill(session)
                names = until(place.spilled, "a spilled object")
                said = place.refused()
                self.assertEqual(place.spilled(), names)
                self.assertEqual(self.whole(session, ids), len(ids))
                self.assertEqual(said, f"store-daemon: spill folder {place.path}/spill/0: a live server uses it")

    def test_what_has_come_into_the_place_of_a_moved_folder_is_another_server_s(self) -> None:
        with Place() as place, Place() as other:
            place.start_ready()
            (place.path / "spill").rename(place.path / "moved")
            other.write(1, (1,), spill=str(place.path / "spill"))
            other.start_ready()
            with other.session() as session:
                ids = fill(session)
                names = until(place.spilled, "a spilled object")
                with place.control() as control:
                    self.assertEqual(control.status()["spilled_files"], 0)
                self.assertEqual(place.ask("end 0 1"), "n0 op ok")
                until(lambda: "it was moved or removed, and this is another one" in place.log(), "a sweep of ended jobs")
                os.kill(place.server(), signal.SIGKILL)
                until(lambda: "can't be started: spill folder" in place.log(), "another start")
                self.assertIn(f"spill folder {place.path}/spill/0: a live server uses it", place.log())
                self.assertEqual(place.spilled(), names)
                self.assertEqual(self.whole(session, ids), len(ids))

    def whole(self, session: store_client.Connection, ids: "List[store_client.ObjectId]") -> int:
        """How many of the objects that fill the session's window have the bytes that were put."""
        count = 0
        for number, one in enumerate(ids):
            with session.get(one) as view:
                count += bytes(view) == bytes([number]) * 20_000
        return count


if __name__ == "__main__":
    unittest.main()
