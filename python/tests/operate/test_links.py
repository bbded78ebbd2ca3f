"""What another user may do who may write the sockets' folder: no file's mode or group is changed by a link, and no such folder is used."""

from __future__ import annotations

import os
import stat
import unittest
from pathlib import Path

from driving import Place, fill, until

# listens as a server does; when it is given its job, whoever may write the folder puts a link in its socket's place
SERVER = """#!/usr/bin/env python3
import os, socket, sys
path = sys.argv[sys.argv.index("--socket") + 1] + ".0"
listening = socket.socket(socket.AF_UNIX)
listening.bind(path)
listening.listen()
print("store: ready", file=sys.stderr, flush=True)
for line in sys.stdin:
    if line == "close\\n":
        break
    os.unlink(path)
    {attack}
    print("n0 op ok", flush=True)
"""


def mode(path: Path) -> int:
    return stat.S_IMODE(path.stat().st_mode)


class Swapped(unittest.TestCase):
    def refused(self, place: Place, attack: str) -> str:
        program = place.path / "program"
        program.write_text(SERVER.replace("{attack}", attack))
        program.chmod(0o700)
        place.write(1, (1,), program="program", socket_mode="0666")
        return place.refused()

    def test_a_link_in_the_place_of_a_socket_is_not_followed(self) -> None:
        with Place() as place:
            victim = place.path / "victim"
            victim.write_text("kept")
            victim.chmod(0o600)
            said = self.refused(place, f"os.symlink({str(victim)!r}, path)")
            self.assertEqual((mode(victim), victim.read_text()), (0o600, "kept"))
            self.assertEqual(said, f"store-daemon: socket {place.path}/store.new.0: another file has come into its place")
            self.assertFalse(place.socket().is_symlink())

    def test_nor_is_another_name_of_a_file_taken(self) -> None:
        with Place() as place:
            victim = place.path / "victim"
            victim.write_text("kept")
            victim.chmod(0o600)
            said = self.refused(place, f"os.link({str(victim)!r}, path)")
            self.assertEqual(mode(victim), 0o600)
            self.assertIn("another file has come into its place", said)
            self.assertFalse(place.socket().exists())


class Folders(unittest.TestCase):
    def test_a_folder_that_others_may_write_is_refused(self) -> None:
        for name in ("socket", "control"):
            with self.subTest(name=name), Place() as place:
                folder = place.path / "open"
                folder.mkdir()
                folder.chmod(0o777)
                place.write(1, (1,), **{name: "open/it"})
                path = f"{folder}/it" + (".0" if name == "socket" else "")
                self.assertEqual(
                    place.refused(), f"store-daemon: socket {path}: others may write its folder (mode 0777): chmod go-w {folder}"
                )
                self.assertEqual(list(folder.iterdir()), [])

    def test_one_with_a_sticky_bit_is_taken(self) -> None:
        with Place() as place:
            folder = place.path / "open"
            folder.mkdir()
            folder.chmod(0o1777)
            place.write(1, (1,), socket="open/it", socket_mode="0666")
            daemon = place.start_ready()
            self.assertEqual(mode(folder / "it.0"), 0o666)
            self.assertEqual(place.end(daemon), 0)

    @unittest.skipUnless(os.geteuid() == 0, "root alone gives a folder away")
    def test_a_folder_of_another_user_is_refused(self) -> None:
        with Place() as place:
            folder = place.path / "theirs"
            folder.mkdir(mode=0o755)
            os.chown(folder, 65_534, -1)
            place.write(1, (1,), socket="theirs/it")
            self.assertEqual(
                place.refused(), f"store-daemon: socket {folder}/it.0: its folder belongs to another user (65534), who may put others there"
            )


class Made(unittest.TestCase):
    def test_the_mode_is_that_of_the_settings(self) -> None:
        for text in ("0600", "0660", "0666"):
            with self.subTest(text=text), Place() as place:
                place.write(2, (1,), socket_mode=text)
                place.start_ready()
                self.assertEqual([mode(place.socket(node)) for node in (0, 1)], 2 * [int(text, 8)])
                self.assertEqual([mode(place.path / name) for name in ("spill", "spill/0", "spill/1")], 3 * [0o700])
                with place.session() as session:
                    fill(session)
                    names = until(place.spilled, "a spilled object")
                    self.assertEqual({mode(place.path / "spill/0" / name) for name in names}, {0o600})


if __name__ == "__main__":
    unittest.main()
