"""Tests of bench/picture, and of the replay by the plain model that it draws from; of bench/parts, bench/crates_picture,
bench/top_picture and bench/metrics_picture; of tests/proof_picture; and of bench/guarantee, with the plain model in place of the program.
No program is needed. The last line counts them."""

from __future__ import annotations

import json
import os
import re
import shutil
import subprocess
import sys
import tempfile
import unittest
from collections import Counter
from pathlib import Path
from typing import Any, Dict, Optional, Set, Tuple

from store_model.drawing import Drawing
from store_model.replay import Replay, read_journal, replayed
from store_model.store import PrivateStore
from store_model.words import Kind
from store_model.worked import read_worked
from store_bench import crates_picture, picture
from store_bench.drawing import COLOURS
from store_testing import ROOT

PICTURES = ROOT / "docs/pictures"
WORKED = ROOT / "crates/schedules/data/replays"
SEEDS = range(1, 61)
# what the picture of the proof doesn't look at
OTHERS = shutil.ignore_patterns("out", "proofs", "data", "must-fail", "__pycache__")
FIRST = """journal 3
n0 j1 1 begin 64 0 = ok
n0 j1 2 s1 create t1.1 20 = placed 0 32
n0 j1 3 s1 seal t1.1 = ok
n0 j1 4 s1 copy t1.2 32 = placed 32 32
n0 j1 5 s1 seal t1.2 = ok
n1 j2 1 begin 16 0 = ok
n0 j1 6 s1 create t1.3 16 = placed 32 16
n0 j1 7 s1 delete t1.1 = ok
"""
# in place of the last line but one
NO_ENTRIES = (
    "", "n0 j1 6", "n0 j1 6 = ok", "n0 j1 6 quota 64 = ok", "n0 j1 7 quota 64 0 = ok", "n8 j1 1 begin 64 0 = ok",
    "n0 j0 1 begin 64 0 = ok", "n0 j1 6 s1 fill t1.3 = ok", "n0 j1 6 s1 write t1.1 0 00 = ok",
    "n0 j1 6 s1 create 1/t1.3 16 = placed 32 16", "n0 j1 6 answer 1 perhaps = ok", "n0 j1 6 located t1.1 1 0:3 = ok", "n0 j1 6 s1 create t1.3 016 = placed 32 16",
    "n0 j1 6 withdrawn 2/t1.1 0 1 = ok", "n0 j1 6 quota 64 0", "n0  j1 6 quota 64 0 = ok",
)


def draw(journal: str, *words: str) -> Tuple[int, str, str]:
    """The status of bench/picture, what it says, and what it draws."""
    with tempfile.TemporaryDirectory() as folder:
        source, drawn = Path(folder) / "journal", Path(folder) / "svg"
        source.write_text(journal)
        command = [str(ROOT / "bench/picture"), str(source), "-o", str(drawn), *words]
        done = subprocess.run(command, capture_output=True, text=True, check=False)
        return done.returncode, done.stderr, drawn.read_text() if drawn.exists() else ""


def shown(store: PrivateStore) -> Tuple[Any, ...]:
    """What a picture could show of a store, and what its later answers hang on."""
    copies = [
        (one, copy.kind, copy.length, copy.state, copy.offset, copy.doomed, copy.backed_by, copy.holds)
        for one, copy in store.copies.items()
    ]
    return store.window, store.device_quota, store.device_bytes(), store.works, copies, store.given, list(store.received)


class Replays(unittest.TestCase):
    def test_the_models_own_journals(self) -> None:
        for seed in SEEDS:
            drawing = Drawing(seed, (), Counter())
            stores: Dict[Tuple[int, int], Replay] = {}
            for entry in read_journal(drawing.schedule().journal):
                replay = stores.setdefault((entry.node, entry.job), Replay(PrivateStore(entry.job, entry.node)))
                self.assertEqual(replay.take(entry), entry.answer, f"seed {seed}, line {entry.line}")
            for (node, job), replay in stores.items():
                due = shown(drawing.world.nodes[node].store(job))
                self.assertEqual(shown(replay.store), due, f"seed {seed}, job {job} at {node}")

    def test_worked_journals(self) -> None:
        journals = sorted(WORKED.glob("*.journal"))
        self.assertTrue(journals)
        for path in journals:
            printed, fault, status = replayed(read_worked(path))
            told = printed + fault + (f"status {status}\n" if status else "")
            self.assertEqual(told, path.with_suffix(".expected").read_text(), path.stem)


class Pictures(unittest.TestCase):
    def test_what_is_drawn(self) -> None:
        history = picture.History(0, 1)
        for entry in read_journal(FIRST):
            if (entry.node, entry.job) == (0, 1):
                history.take(entry)
        history.end()
        spans = [
            ("t1.1", Kind.PRIMARY, False, 0, 32, 2, 3), ("t1.1", Kind.PRIMARY, True, 0, 32, 3, 7),
            ("t1.2", Kind.SECONDARY, False, 32, 32, 4, 5), ("t1.2", Kind.SECONDARY, True, 32, 32, 5, 6),
            ("t1.3", Kind.PRIMARY, False, 32, 16, 6, 8),
        ]
        found = sorted(history.spans, key=lambda span: span.first)
        self.assertEqual(found, spans)
        self.assertEqual(history.marks, [("eviction", 6, 48)])
        self.assertEqual(history.levels, [(64, 0, 0)] * 7)

    def test_the_marks_of_the_example(self) -> None:
        drawn = picture.picture(self.journal(), None, None).svg()
        # of a legend one each; a cross is four lines
        filled = re.findall(r'<polygon .* fill="(.*)" stroke=', drawn)
        self.assertEqual(Counter(filled), {COLOURS[3]: 4, COLOURS[2]: 4, "white": 3})
        self.assertEqual(drawn.count('stroke-width="5"'), 2 * (1 + 5))

    def test_what_entries_say(self) -> None:
        said = [picture.said_by(line) for line in FIRST.splitlines()[1:4]]
        self.assertEqual(said, [("begin 64 0", False), ("create t1.1 20", False), ("seal t1.1", False)])
        self.assertEqual(picture.said_by("n0 j1 6 s12 get t1.1 = refused 10 Pending"), ("get t1.1: 10 Pending", True))
        drawn = picture.picture(self.journal(), None, None).svg()
        upwards = re.findall(r"<text [^>]*rotate[^>]*>([^<]*)<", drawn)
        # beside the names of two axes
        self.assertEqual((len(upwards), upwards.count("get t1.1: 10 Pending")), (39 + 2, 2))
        self.assertEqual(len(re.findall(f'fill="{picture.REFUSED_INK}"', drawn)), 8)

    def test_entries_that_stand_too_close_say_nothing(self) -> None:
        many = "".join(f"n0 j1 {number} s1 usage = ok\n" for number in range(2, 72))
        with self.assertRaises(ValueError):
            picture.picture(f"journal 3\nn0 j1 1 begin 64 0 = ok\n{many}", None, None)
        many = "".join(f"n0 j1 {number} s1 usage = usage 64 0 0 0 0 0\n" for number in range(2, 72))
        drawn = picture.picture(f"journal 3\nn0 j1 1 begin 64 0 = ok\n{many}", None, None).svg()
        self.assertNotIn(">usage<", drawn)

    def test_a_neighbour_is_not_seen(self) -> None:
        lines = (PICTURES / "spilling.schedule").read_text().splitlines(keepends=True)
        alone = [line for line in lines if line.split()[:3:2] not in (["admit", "2"], ["cmd", "2"], ["end", "2"])]
        self.assertEqual(len(alone), len(lines) - 4)
        self.assertEqual(draw(self.journal("".join(alone))), (0, "", (PICTURES / "spilling.svg").read_text()))

    def journal(self, schedule: Optional[str] = None) -> str:
        """The journal of a schedule, of the example's otherwise."""
        schedule = schedule or (PICTURES / "spilling.schedule").read_text()
        words = [sys.executable, str(ROOT / "tests/model"), "journal"]
        return subprocess.run(words, input=schedule, capture_output=True, check=True, text=True).stdout

    def test_the_example_is_drawn_again_alike(self) -> None:
        self.assertEqual(draw(self.journal()), (0, "", (PICTURES / "spilling.svg").read_text()))

    def test_node_and_job(self) -> None:
        first, second = "Job 1 at node 0", "Job 2 at node 1"
        for words, title in (((), first), (("--job", "2"), second), (("--node", "1"), second)):
            status, said, drawn = draw(FIRST, *words)
            self.assertEqual((status, said), (0, ""))
            self.assertIn(f"<title>{title}: ", drawn)
        self.assertEqual(draw(FIRST, "--node", "0", "--job", "2"), (1, "picture: no entry of such a job and node\n", ""))

    def test_faults(self) -> None:
        lines = FIRST.splitlines()
        for wrong in NO_ENTRIES:
            journal = "".join(line + "\n" for line in [*lines[:7], wrong, lines[8]])
            self.assertEqual(draw(journal), (1, "picture: line 8: not an entry\n", ""), wrong)
        self.assertEqual(draw(FIRST.replace("journal 3", "journal 4")), (1, "picture: line 1: not an entry\n", ""))
        self.assertEqual(draw(FIRST[:-1]), (1, "picture: line 9: not an entry\n", ""))
        wrong = FIRST.replace("placed 32 16", "placed 48 16")
        self.assertEqual(draw(wrong), (1, "picture: line 8: had placed 48 16, should be placed 32 16\n", ""))


class Parts(unittest.TestCase):
    def test_the_picture_is_drawn_again_alike(self) -> None:
        with tempfile.TemporaryDirectory() as folder:
            drawn = Path(folder) / "svg"
            subprocess.run([str(ROOT / "bench/parts"), "-o", str(drawn)], check=True)
            self.assertEqual(drawn.read_text(), (PICTURES / "parts.svg").read_text())


class Crates(unittest.TestCase):
    def test_the_picture_is_drawn_again_alike(self) -> None:
        with tempfile.TemporaryDirectory() as folder:
            drawn = Path(folder) / "svg"
            subprocess.run([str(ROOT / "bench/crates_picture"), "-o", str(drawn)], check=True)
            self.assertEqual(drawn.read_text(), (PICTURES / "crates.svg").read_text())

    def test_the_longest_chain(self) -> None:
        named: Dict[str, Set[str]] = {"low": set(), "left": {"low"}, "right": {"low"}, "high": {"left", "right", "low"}, "alone": set()}
        minutes = {"low": 1.0, "left": 2.0, "right": 3.0, "high": 0.5, "alone": 4.4}
        self.assertEqual(crates_picture.longest_chain(named, minutes), ["low", "right", "high"])
        self.assertEqual(crates_picture.longest_chain(named, {**minutes, "alone": 4.6}), ["alone"])
        # what has no minutes is passed through
        self.assertEqual(crates_picture.longest_chain(named, {"low": 1.0, "high": 1.0})[::2], ["low", "high"])

    def test_the_gates_page_names_the_longest_chain(self) -> None:
        page = (ROOT / "docs/GATE.md").read_text()
        minutes = crates_picture.read_minutes(page)
        chain = crates_picture.longest_chain(crates_picture.read_crates((ROOT / "crates.txt").read_text()).named, minutes)
        said = re.search(r"The longest chain is ([^:]*): (\d+) minutes of a processor", page)
        assert said
        self.assertEqual((re.findall(r"`(\w+)`", said[1]), int(said[2])), (chain, round(sum(minutes[crate] for crate in chain))))
        self.assertIn(f"the chain has {said[2]} of a processor", page)

    def test_what_follows_from_others_is_left_out(self) -> None:
        named: Dict[str, Set[str]] = {"low": set(), "middle": {"low"}, "high": {"low", "middle"}}
        self.assertEqual(crates_picture.reduced(named), {"low": set(), "middle": {"low"}, "high": {"middle"}})

    def test_layers(self) -> None:
        layers = "# One, and another\nlow: bytes\nmiddle: low\n\n# Tests, in order\nhigh: middle hex\n"
        crates = crates_picture.read_crates(f"# How it is read.\n\n{layers}")
        self.assertEqual(crates.layers, (("One, and another", ("low", "middle")), ("Tests", ("high",))))
        self.assertEqual(crates.named, {"low": set(), "middle": {"low"}, "high": {"middle"}})
        with self.assertRaises(crates_picture.Missing):
            crates_picture.read_minutes("| `low` | many |\n")


class Top(unittest.TestCase):
    def draw(self, looks: Path) -> str:
        with tempfile.TemporaryDirectory() as folder:
            drawn = Path(folder) / "svg"
            subprocess.run([str(ROOT / "bench/top_picture"), str(looks), "-o", str(drawn)], check=True)
            return drawn.read_text()

    def test_the_picture_is_drawn_again_alike(self) -> None:
        self.assertEqual(self.draw(PICTURES / "top.json"), (PICTURES / "top.svg").read_text())

    def test_it_shows_what_the_looks_have(self) -> None:
        looks = json.loads((PICTURES / "top.json").read_text())
        looks["seen"]["rows"][0][1] = 4_321
        for name, moment, count in (("last", 10.0, 0), ("seen", 12.0, 2 * 56_789)):
            counts = looks[name]["counts"]
            counts["moment"], counts["jobs"][1]["counts"] = moment, {"get": count}
        with tempfile.NamedTemporaryFile("w", suffix=".json") as file:
            json.dump(looks, file)
            file.flush()
            drawn = self.draw(Path(file.name))
        self.assertIn(">4321</text>", drawn)
        self.assertIn(">56789</text>", drawn)


class Metrics(unittest.TestCase):
    def draw(self, scrape: str) -> Tuple[int, str, str]:
        """The status of bench/metrics_picture, what it says, and what it draws."""
        with tempfile.TemporaryDirectory() as folder:
            source, drawn = Path(folder) / "txt", Path(folder) / "svg"
            source.write_text(scrape)
            command = [str(ROOT / "bench/metrics_picture"), str(source), "-o", str(drawn)]
            done = subprocess.run(command, capture_output=True, text=True, check=False)
            return done.returncode, done.stderr, drawn.read_text() if drawn.exists() else ""

    def saved(self) -> str:
        return (PICTURES / "metrics.txt").read_text()

    def test_the_picture_is_drawn_again_alike(self) -> None:
        self.assertEqual(self.draw(self.saved()), (0, "", (PICTURES / "metrics.svg").read_text()))

    def test_the_metrics_have_each_family_that_it_shows(self) -> None:
        # the tests of the daemon compare this table with what a server's metrics have
        table = (ROOT / "docs/OPERATING.md").read_text().split("| Names, after `store_` | Of |")[1].split("\n\n")[0]
        named = {f"store_{name}" for row in table.splitlines()[2:] for name in re.findall("`([a-z_]+)`", row.split("|")[1])}
        self.assertEqual(set(re.findall("^# TYPE (store_[a-z_]+) ", self.saved(), re.MULTILINE)), named)
        shown = set(re.findall("store_[a-z_]+", (PICTURES / "metrics.svg").read_text()))
        self.assertTrue(shown)
        self.assertEqual(shown - named, set())

    def test_it_shows_what_the_scrape_has(self) -> None:
        drawn = (PICTURES / "metrics.svg").read_text()
        changed = self.saved()
        for name, count, text in (
            ('commands_total{node="1",job="1",command="get"}', 4_321, "4,321"),
            ('refusals_total{node="1",job="1",number="5",name="NotSealed"}', 5_432, "5,432"),
            ('window_used_bytes{node="0",job="2"}', 65_536, "50% 64K of 128K"), ("threads", 6_543, "6,543"),
        ):
            self.assertNotIn(f">{text}</text>", drawn)
            changed, found = re.subn(f"^store_{re.escape(name)} .*$", f"store_{name} {count}", changed, flags=re.MULTILINE)
            self.assertEqual(found, 1, name)
            drawn = self.draw(changed)[2]
            self.assertIn(f">{text}</text>", drawn)

    def test_what_is_not_there_is_told_in_a_line(self) -> None:
        without = "".join(line for line in self.saved().splitlines(keepends=True) if "store_evictions_total" not in line)
        self.assertEqual(self.draw(without), (1, "metrics_picture: the scrape has no store_evictions_total\n", ""))
        self.assertEqual(self.draw("up\n"), (1, "metrics_picture: no sample of a family that was named: 'up'\n", ""))


class Proof(unittest.TestCase):
    def test_the_picture_is_drawn_again_alike(self) -> None:
        with tempfile.TemporaryDirectory() as folder:
            drawn = Path(folder) / "svg"
            subprocess.run([str(ROOT / "tests/proof_picture"), "-o", str(drawn)], check=True)
            self.assertEqual(drawn.read_text(), (PICTURES / "proof.svg").read_text())

    def test_what_is_not_in_the_sources_is_not_drawn(self) -> None:
        runs = "crates/world_core/src/runs.rt"
        said = self.said(runs, "ensures private", "ensures alone")
        self.assertEqual(said, "proof: world_core: run has no clause private that cites IsPrivate\n")
        self.assertEqual(self.said(runs, "pub fn run(", "pub fn ran("), f"proof: no pub fn run in {runs}\n")
        trace = "crates/private_store/specs/rules/Trace.antt"
        self.assertEqual(self.said(trace, "abbrev pub Agree :", "abbrev pub Same :"), f"proof: no Agree in {trace}\n")
        said = self.said("crates/world_core/src/runs.rt", "world.step(", "world.stepped(")
        self.assertEqual(said, "proof: nothing that world_core is made of calls World::step\n")
        self.assertIn("README says: For every interleaving", self.said("README.md", "equal replies", "the same replies"))

    def said(self, name: str, old: str, new: str) -> str:
        """What the script complains of over these sources with one text changed."""
        with tempfile.TemporaryDirectory() as folder:
            root = Path(folder)
            for part in ("bench", "crates", "python", "crates.txt", "README.md"):
                if (ROOT / part).is_dir():
                    shutil.copytree(ROOT / part, root / part, ignore=OTHERS)
                else:
                    shutil.copy(ROOT / part, root)
            (root / "tests").mkdir()
            shutil.copy(ROOT / "tests/proof_picture", root / "tests")
            changed = (root / name).read_text()
            self.assertIn(old, changed)
            (root / name).write_text(changed.replace(old, new))
            words = [str(root / "tests/proof_picture"), "-o", str(root / "svg")]
            done = subprocess.run(words, capture_output=True, text=True, check=False)
            self.assertEqual((done.returncode, (root / "svg").exists()), (1, False))
            return done.stderr


# answers each command of a session Ok; if LEAKS it refuses job 1 a List while another job has a session
SERVER = """
import os, socket, sys, threading
from store_testing.frames import frame, read_frame

def serve(stream):
    job = 0
    while came := read_frame(stream):
        kind, body = came[4], came[5:]
        if kind == 1:
            job = int.from_bytes(body[:4], "big")
            jobs.add(job)
        leaks = LEAKS and kind == 16 and job == 1 and len(jobs) > 1
        stream.sendall(frame(143, bytes([9])) if leaks else frame(128))

def accept():
    while True:
        threading.Thread(target=serve, args=(listener.accept()[0],), daemon=True).start()

jobs, listener = set(), socket.socket(socket.AF_UNIX)
listener.bind(sys.argv[sys.argv.index("--socket") + 1] + ".0")
listener.listen()
threading.Thread(target=accept, daemon=True).start()
print("store: ready", file=sys.stderr, flush=True)
for line in sys.stdin:
    print("report 0 0 0 0 0" if line == "close\\n" else "n0 op ok", flush=True)
    if line == "close\\n":
        os._exit(0)
"""


class Guarantee(unittest.TestCase):
    def show(self, program: str, *words: str) -> Tuple[int, str, str]:
        """The status, the last line and the complaint of bench/guarantee, with a program that a shell's script is."""
        with tempfile.TemporaryDirectory() as folder:
            path = Path(folder) / "program"
            path.write_text(f"#!/bin/sh\n{program}\n")
            path.chmod(0o700)
            command = [str(ROOT / "bench/guarantee"), *words]
            names = {**os.environ, "STORE_PROGRAM": str(path), "PYTHONPATH": str(ROOT / "python/src")}
            done = subprocess.run(command, capture_output=True, text=True, check=False, env=names)
            return done.returncode, done.stdout.rpartition("\n")[0].rpartition("\n")[2], done.stderr

    def test_a_job_is_told_the_same_without_its_neighbour(self) -> None:
        model = 'python3 -B -m store_model "$@"'
        self.assertEqual(self.show(model), (0, "21 replies to job 1, the same without the 17 steps of job 2", ""))
        spilling = str(PICTURES / "spilling.schedule")
        self.assertEqual(self.show(model, spilling), (0, "30 replies to job 1, the same without the 4 steps of job 2", ""))
        self.assertEqual(self.show(model, "--other", "3")[0], 2)

    def test_a_program_that_tells_of_a_neighbour_is_found_out(self) -> None:
        full = "sed 's/j1 s1 got 32/j1 s1 refused 9 Full/'"
        program = f"cat > $0.in; python3 -B -m store_model run < $0.in | if grep -q '^admit 0 2' $0.in; then {full}; else cat; fi"
        self.assertEqual(self.show(program), (1, "21 replies to job 1, OTHER ONES without the 17 steps of job 2", ""))

    def served(self, leaks: bool, *words: str) -> Tuple[int, str, str]:
        """The same of a program that serves."""
        with tempfile.NamedTemporaryFile("w", suffix=".py") as file:
            file.write(f"LEAKS = {leaks}\n{SERVER}")
            file.flush()
            return self.show(f'exec {sys.executable} {file.name} "$@"', "--served", *words)

    def test_a_session_is_answered_the_same_beside_a_neighbour(self) -> None:
        status, last, complaint = self.served(False)
        self.assertEqual((status, complaint), (0, ""))
        said = re.fullmatch("31 reply frames to job 1, 155 bytes, the same beside ([0-9,]+) commands of job 2", last)
        self.assertTrue(said and int(said[1].replace(",", "")) >= 31 * 20, last)

    def test_a_server_that_tells_of_a_neighbour_is_found_out(self) -> None:
        status, last, complaint = self.served(True)
        self.assertEqual((status, complaint), (1, ""))
        self.assertRegex(last, "^31 reply frames to job 1, 157 bytes, OTHER ONES beside ")

    def test_what_can_not_be_shown_is_told_in_a_line(self) -> None:
        faults = {
            "/dev/null": "/dev/null has no command: nothing is shown by that",
            "/missing": "/missing: No such file or directory",
            str(ROOT / "README.md"): "no command of a session: create",
        }
        for path, said in faults.items():
            status, last, complaint = self.served(False, path)
            self.assertEqual((status, last, complaint.count("\n")), (2, "", 1))
            self.assertIn(said, complaint)
        status, _, complaint = self.show("exit 0", "--served")
        self.assertEqual((status, complaint.count("\n")), (2, 1))
        self.assertRegex(self.show("exit 0")[2], "^guarantee: .* answered 0 of 4[0-9] lines\n$")


def main() -> int:
    result = unittest.main(__name__, exit=False).result
    failed = len(result.failures) + len(result.errors)
    print(f"{result.testsRun - failed} passed, {failed} failed")
    return 0 if result.wasSuccessful() else 1


if __name__ == "__main__":
    sys.exit(main())
