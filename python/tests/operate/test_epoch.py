"""The file beside the sockets by which clients tell one run of the server from the next."""

from __future__ import annotations

import grp
import os
import socket
import stat
import struct
import threading
import unittest
from pathlib import Path
from typing import List, Tuple

from driving import KEY, Place, crash, until

import store_client
from store_client import LostAtRestart


def epoch_file(place: Place) -> Path:
    return place.path / "store.epoch"


class Epochs(unittest.TestCase):
    def test_each_run_has_its_own_and_none_stays(self) -> None:
        with Place(2) as place:
            daemon = place.start_ready()
            epochs = [epoch_file(place).read_text(encoding="ascii")]
            for _ in range(2):
                crash(place)
                epochs.append(epoch_file(place).read_text(encoding="ascii"))
            for text in epochs:
                self.assertRegex(text, r"\A[0-9a-f]{32}\n\Z")
            self.assertEqual(len(set(epochs)), 3)
            self.assertEqual(place.end(daemon), 0)
            self.assertEqual({path.name for path in place.path.iterdir()}, {"key", "store.ini", "spill", "out", "log"})

    def test_a_client_tells_a_crash_from_a_removal(self) -> None:
        with Place(2) as place, store_client.Pool(str(place.socket()), 1, bytes.fromhex(KEY)) as pool:
            place.start_ready()
            epoch = pool.epoch
            removed, lost = pool.put(b"removed"), pool.put(b"lost")
            with place.session(1, 1) as far:
                self.assertEqual(far.epoch, epoch)
            pool.delete(removed)
            with self.assertRaises(store_client.Absent) as told:
                pool.get(removed, since=epoch)
            self.assertIs(type(told.exception), store_client.Absent)
            crash(place)
            self.assertRaises(store_client.ConnectionLost, pool.get, lost, since=epoch)
            self.assertRaises(LostAtRestart, pool.get, lost, since=epoch)
            self.assertNotEqual(pool.epoch, epoch)
            with pool.get(pool.put(b"again", lost), since=epoch) as view:
                self.assertEqual(bytes(view), b"again")

    def test_no_session_reads_that_of_an_earlier_run(self) -> None:
        """Sessions connect all the time while the server is killed: one that can put an object has the epoch of its own server."""
        with Place() as place:
            place.start_ready()
            over = threading.Event()
            found: List[Tuple[int, str]] = []
            threads = [threading.Thread(target=put_again_and_again, args=(place, over, found), daemon=True) for _ in range(3)]
            servers = {}
            try:
                for thread in threads:
                    thread.start()
                for _ in range(3):
                    process = place.server()
                    until(lambda: any(server == process for server, _ in found), "puts at this server")
                    servers[process] = epoch_file(place).read_text(encoding="ascii").strip()
                    crash(place)
            finally:
                over.set()
            for thread in threads:
                thread.join()
            self.assertEqual(len(servers), 3)
            for server, epoch in found:
                self.assertEqual(epoch, servers.get(server, epoch))

    def test_who_may_connect_may_read_it(self) -> None:
        for mode, expected in (("0600", 0o600), ("0660", 0o640), ("0666", 0o644)):
            with Place() as place:
                group = grp.getgrall()[1] if os.geteuid() == 0 else grp.getgrgid(os.getegid())
                place.write(1, (1,), socket_mode=mode, socket_group=group.gr_name)
                place.start_ready()
                found = epoch_file(place).lstat()
                self.assertEqual((stat.S_IMODE(found.st_mode), found.st_gid, found.st_uid), (expected, group.gr_gid, os.geteuid()))

    def test_a_link_in_its_place_is_replaced(self) -> None:
        with Place() as place:
            victim = place.path / "victim"
            victim.write_text("kept")
            epoch_file(place).symlink_to(victim)
            place.start_ready()
            self.assertTrue(stat.S_ISREG(epoch_file(place).lstat().st_mode))
            self.assertEqual(victim.read_text(), "kept")

    def test_one_that_can_t_be_made_ends_the_start(self) -> None:
        with Place() as place:
            epoch_file(place).mkdir()
            self.assertEqual(place.refused(), f"store-daemon: epoch {epoch_file(place)}: Is a directory")
            self.assertFalse(place.socket().exists() or (place.path / "control").exists())
            self.assertTrue(epoch_file(place).is_dir())

    def test_another_one_s_stays(self) -> None:
        with Place() as place:
            daemon = place.start_ready()
            other = place.path / "other"
            other.write_text("another's")
            other.replace(epoch_file(place))
            self.assertEqual(place.end(daemon), 0)
            self.assertEqual(epoch_file(place).read_text(), "another's")


def put_again_and_again(place: Place, over: threading.Event, found: List[Tuple[int, str]]) -> None:
    """What server a session put at, by its process, and the epoch that it had read."""
    while not over.is_set():
        try:
            with place.session() as session:
                session.delete(session.put(b"Hello"))
                found.append((peer(session), session.epoch or ""))
        except store_client.StoreError:
            over.wait(0.01)


def peer(session: store_client.Connection) -> int:
    """The process that listens at the other end."""
    credentials = session._stream._socket.getsockopt(socket.SOL_SOCKET, socket.SO_PEERCRED, struct.calcsize("3i"))
    process: int = struct.unpack("3i", credentials)[0]
    return process


if __name__ == "__main__":
    unittest.main()
