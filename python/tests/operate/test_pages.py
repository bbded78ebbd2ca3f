"""What stands beside the programs: the unit file, the settings to begin with, the manual pages, and the page for operators."""

from __future__ import annotations

import re
import shutil
import subprocess
import sys
import unittest
from pathlib import Path
from typing import List, Tuple

from driving import DAEMON, PROGRAM, ROOT, Place, ctl, until

from store_operator.asking import Daemon, Mark
from store_operator.limits import needed_descriptors
from store_operator.orders import SUMMARY
from store_operator.settings import JOB_OPTIONS, MOST_NODES, STORE_OPTIONS, read_settings

OPERATE = ROOT / "operate"
PAGES = sorted((OPERATE / "man").glob("*.1"))
OPERATING = ROOT / "docs/OPERATING.md"
# of the page, what is indented
BLOCK = re.compile(r"^(?:    .*\n|\n(?=    ))+", re.MULTILINE)


class Unit(unittest.TestCase):
    text = (OPERATE / "store.service").read_text()

    @unittest.skipUnless(shutil.which("systemd-analyze"), "there is no systemd-analyze")
    def test_systemd_finds_nothing_wrong(self) -> None:
        with Place() as place:
            unit = place.path / "store.service"
            # it looks for the program
            unit.write_text(self.text.replace("/opt/store/bin/store-daemon", DAEMON))
            done = subprocess.run(["systemd-analyze", "verify", "--man=no", str(unit)], capture_output=True, text=True, check=False)
            self.assertEqual((done.returncode, done.stdout, done.stderr), (0, "", ""))

    def test_its_limits_are_enough_for_all_nodes(self) -> None:
        limits = {name: int(value) for name, value in re.findall(r"^(LimitNOFILE|TasksMax)=(\d+)$", self.text, re.MULTILINE)}
        self.assertEqual(limits["LimitNOFILE"], needed_descriptors(MOST_NODES))
        self.assertGreater(limits["TasksMax"], threads_of(MOST_NODES, 1024 * MOST_NODES))


def block_with(text: str) -> str:
    """The one block of the page that has this text."""
    (block,) = [block for block in BLOCK.findall(OPERATING.read_text()) if text in block]
    return re.sub("^    ", "", block, flags=re.MULTILINE).lstrip("\n")


class SettingsToBeginWith(unittest.TestCase):
    def read(self, text: str) -> None:
        with Place() as place:
            (place.path / "job1.key").symlink_to(place.key_file)
            place.settings.write_text(text)
            settings = read_settings(place.settings, lambda: Path(PROGRAM))
            self.assertEqual((settings.nodes, settings.memory, str(settings.control)), (1, 1 << 30, "/run/store/control"))
            self.assertEqual([(job.job, job.window, job.device) for job in settings.jobs], [(1, 1 << 26, 1 << 30)])

    def test_the_file_with_its_job(self) -> None:
        text = (OPERATE / "store.ini").read_text()
        self.read(text.replace("#[job 1]", "[job 1]").replace("#window", "window").replace("#device", "device").replace("#key", "key"))

    def test_those_of_the_page_for_operators(self) -> None:
        self.read(block_with("[store]\n"))

    def test_a_key_is_made_as_the_page_says(self) -> None:
        (line,) = block_with("/dev/urandom").splitlines()
        self.assertIn(f"\n{line}\n", (OPERATE / "store.ini").read_text())

    def test_they_are_checked_as_the_page_says(self) -> None:
        printed = block_with("1 node, 1 admission").splitlines()[1]
        with Place() as place:
            done = subprocess.run([sys.executable, DAEMON, "--check", str(place.settings)], capture_output=True, text=True, check=False)
        self.assertEqual((done.returncode, done.stdout.replace(str(place.settings), "/etc/store/store.ini")), (0, f"{printed}\n"), done.stderr)


class Orders(unittest.TestCase):
    """What the page for operators shows of storectl is what it prints."""

    def shown(self, first: str) -> List[Tuple[str, str]]:
        """Each command of storectl in the block that has this one, and what is shown after it."""
        typed = re.split("^# ", block_with(f"# {first}"), flags=re.MULTILINE)
        commands = (one.partition("\n") for one in typed if one.startswith("storectl "))
        return [(line[len("storectl ") :], printed) for line, _, printed in commands]

    def compare(self, place: Place, shown: List[Tuple[str, str]]) -> None:
        for line, printed in shown:
            words = line.replace("/etc/store/job7.key", str(place.key_file)).split()
            self.assertEqual(ctl(place, *words), (0, printed, ""), line)

    def test_a_job_s_life(self) -> None:
        with Place(memory="256M") as place:
            place.start_ready()
            self.compare(place, self.shown("storectl admit 7 "))

    def test_a_session_s_end(self) -> None:
        with Place(1, (7,)) as place:
            place.start_ready()
            with place.session(7), place.session(7), place.session(7):
                self.compare(place, self.shown("storectl kick 0 7 3"))

    def test_what_the_metrics_tell_of_a_job(self) -> None:
        due = block_with("control metrics | grep ").splitlines()[1:]
        with Place(memory="256M") as place:
            place.start_ready()
            place.ask(f"quota 0 1 {64 << 20} {1 << 30}")
            with place.session() as session:
                session.put(b"Hello\n")
            printed = ctl(place, "metrics")[1].splitlines()
        self.assertEqual([line for line in printed if 'job="1"' in line][: len(due)], due)
        counted = block_with("store_commands_total{").splitlines()
        if any(line.startswith("store_hellos_total") for line in printed):
            self.assertEqual([line for line in counted if line not in printed], [])

    def test_nobody_is_left(self) -> None:
        with Place() as place:
            place.start_ready()
            self.compare(place, self.shown("storectl sessions"))


class Manual(unittest.TestCase):
    @unittest.skipUnless(shutil.which("mandoc"), "there is no mandoc")
    def test_mandoc_finds_nothing_wrong(self) -> None:
        self.assertEqual([page.name for page in PAGES], ["store-client.1", "store-daemon.1", "store.1", "storectl.1"])
        for page in PAGES:
            # it looks for the pages that a page names in its folder
            words = ["mandoc", "-T", "lint", "-W", "style", page.name]
            done = subprocess.run(words, capture_output=True, text=True, check=False, cwd=page.parent)
            self.assertEqual((done.returncode, done.stdout, done.stderr), (0, "", ""))

    def test_each_option_and_order_has_its_place(self) -> None:
        text = (OPERATE / "man/store-daemon.1").read_text()
        items = [line[len(".It Cm ") :].replace(" Ar ", " ") for line in text.splitlines() if line.startswith(".It Cm ")]
        named = [name for item in items for name in item.split(" , ")]
        for name in (*STORE_OPTIONS, *JOB_OPTIONS, *SUMMARY.split(", ")):
            self.assertTrue(name in named or name in items or f"{name} , close now" in items, f"{name}: {named}")

    def test_each_command_of_the_client_has_its_place(self) -> None:
        text = (OPERATE / "man/store-client.1").read_text()
        items = " ".join(line for line in text.splitlines() if line.startswith(".It Cm "))
        told = subprocess.run([sys.executable, OPERATE / "store-client", "--help"], capture_output=True, text=True, check=True).stdout
        commands = re.findall(r"^    ([a-z][a-z-]*) ", told, re.MULTILINE)
        self.assertIn("put", commands)
        self.assertEqual([name for name in commands if not re.search(rf"\b{name}\b", items)], [])


def threads_of(nodes: int, sessions: int) -> int:
    """What the page says: main's, a listener and a worker a node, four receivers a node if there are several, and the sessions'."""
    return 1 + 2 * nodes + (4 * nodes if nodes > 1 else 0) + sessions


def counts(daemon: Daemon) -> List[Mark]:
    status = daemon.status()
    return [status["threads"], status["descriptors"]]


class Formula(unittest.TestCase):
    def test_descriptors_and_threads(self) -> None:
        for nodes in (1, 2, 3, 8):
            with Place(nodes) as place:
                place.start_ready()
                sessions = [place.session(1, node) for node in range(nodes) for _ in range(2)]
                # the control socket takes two of each
                due = [threads_of(nodes, len(sessions)) + 2, 4 + 3 * nodes + len(sessions) + 2]
                with place.control() as daemon:
                    # those that only looked whether the server listens have gone, after a moment
                    until(lambda: counts(daemon) == due, f"{due} at {nodes} nodes")
                for session in sessions:
                    session.close()


if __name__ == "__main__":
    unittest.main()
