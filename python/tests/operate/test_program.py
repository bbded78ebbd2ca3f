"""Which program a checkout takes, what is said of it and of its sources, and of which one a release is made."""

from __future__ import annotations

import os
import shutil
import subprocess
import sys
import unittest
from pathlib import Path
from typing import Sequence, Tuple

from checkout import ALL, PATIENCE, RELEASE, SCRIPT, SCRIPTS, Checkout

OTHER = SCRIPT + b"# another one\n"
GATE = "== one\nlogic=proved functions=7\nrt: one proved\n\n1 passed, 0 failed\n"
# says what it takes, twice, and lets a process that it starts say so too
TWICE = """\
import subprocess, sys
from store_release.program import program_path
print(program_path(), program_path(), flush=True)
subprocess.run([sys.executable, "operate/program"], check=True)
"""
# stands in for the kit
KIT = """\
#!/bin/sh
case $1 in
version) echo a kit;;
run) mkdir -p out && printf '#!/bin/sh\\necho store 0.1.0\\n' > out/store_server && chmod +x out/store_server && eval "$CHANGE";;
esac
"""


@unittest.skipUnless(shutil.which("git"), "there is no git")
class Of(unittest.TestCase):
    """Each test has a checkout."""

    needed: Sequence[str] = SCRIPTS

    def setUp(self) -> None:
        self.checkout = Checkout(self.needed)
        self.addCleanup(self.checkout.__exit__)

    def found(self, **more: str) -> Tuple[str, str]:
        """The program's path, and the line that is said of it."""
        done = self.checkout.run("program", **more)
        self.assertEqual(done.returncode, 0, done.stderr)
        return done.stdout.rstrip("\n"), done.stderr

    def refused(self, script: str, *words: str, status: int = 2, **more: str) -> str:
        """The one line that a script says which can't do its work."""
        done = self.checkout.run(script, *words, **more)
        self.assertEqual((done.returncode, done.stdout, done.stderr.count("\n")), (status, "", 1), done.stderr)
        return done.stderr.rstrip("\n")

    def release_line(self, distance: str, whose: str) -> str:
        return f"program: that of the release {RELEASE}, of commit {self.kept[:12]}, {distance}, {whose}\n"

    def keep(self, program: bytes = SCRIPT) -> None:
        self.checkout.keep(program)
        self.kept = self.checkout.head()


class Found(Of):
    def test_the_named_program_is_taken_and_nothing_is_said(self) -> None:
        self.keep()
        self.checkout.build()
        self.assertEqual(self.found(STORE_PROGRAM="/bin/true"), ("/bin/true", ""))
        self.assertEqual(self.found(STORE_PROGRAM=os.path.relpath("/bin/true")), (f"{Path.cwd()}/{os.path.relpath('/bin/true')}", ""))
        for name in ("/bin", "/missing", str(self.checkout.source)):
            line = f"program: STORE_PROGRAM names {name}, and there is no file that can be executed"
            self.assertEqual(self.refused("program", STORE_PROGRAM=name), line)

    def test_the_built_program_of_these_sources(self) -> None:
        self.keep()
        line = f"program: {self.checkout.build()}, which was built of the crates/ that are here, and proved\n"
        self.assertEqual(self.found(), (str(self.checkout.program), line))
        self.assertEqual(self.found(SOURCES="exact")[1], line)
        # a later commit to other folders changes nothing, and a build without a proof is told
        (self.checkout.top / "README").write_text("other words\n")
        self.checkout.commit()
        self.assertEqual(self.found()[1], line)
        self.checkout.build(proved="no")
        self.assertEqual(self.found()[1], line.replace("and proved", "and NOT proved"))
        self.assertFalse((self.checkout.top / "out").exists())

    def test_the_built_program_of_sources_that_are_not_committed(self) -> None:
        self.checkout.source.write_text("of another kind\n")
        self.checkout.build()
        told = self.checkout.note.read_text()
        self.assertIn(f"commit     {self.checkout.head()} and changes\n", told)
        self.assertNotIn(self.checkout.tree(), told)
        self.assertIn("which was built of the crates/ that are here", self.found()[1])
        # these very sources, once they are committed
        self.checkout.commit()
        self.assertIn(f"sources    {self.checkout.tree()}\n", told)
        self.assertIn("which was built of the crates/ that are here", self.found()[1])

    def test_a_built_program_of_other_sources_is_passed_over(self) -> None:
        self.keep()
        built = self.checkout.build(OTHER)
        (self.checkout.source.parent / "more").write_text("")
        path, line = self.found()
        self.assertEqual(path, str(self.checkout.unpacked()))
        doubt = f" ({built} is of other crates/ than those that are here)"
        self.assertEqual(line, self.release_line("0 commits back", f"NOT of the crates/ that are here{doubt}"))
        self.checkout.commit()
        self.assertEqual(self.found()[1], self.release_line("1 commit back", f"NOT of the crates/ that are here{doubt}"))

    def test_a_program_that_its_file_is_not_about_is_passed_over(self) -> None:
        self.keep()
        built = self.checkout.build()
        built.write_bytes(OTHER)
        self.assertIn(f"({built} isn't the program that store_server.proved is about)", self.found()[1])
        self.checkout.note.write_bytes(b"\xff\n")
        self.assertIn(f"({built} isn't the program that store_server.proved is about)", self.found()[1])
        self.checkout.note.unlink()
        self.assertIn(f"(nothing says of which sources {built} is: make build does)", self.found()[1])
        shutil.rmtree(self.checkout.top / "dist")
        said = f"program: nothing says of which sources {built} is: make build does, and there is no release"
        self.assertIn(said, self.refused("program"))

    def test_the_release_of_these_sources(self) -> None:
        self.keep()
        line = self.release_line("0 commits back", "of the crates/ that are here")
        self.assertEqual(self.found(SOURCES="exact"), (str(self.checkout.unpacked()), line))
        self.assertEqual(self.checkout.unpacked().read_bytes(), SCRIPT)
        folder = self.checkout.unpacked().parent.parent
        self.assertEqual({path.stat().st_mode & 0o777 for path in (folder, folder / "bin", folder / "bin/store")}, {0o700})
        self.assertEqual([path.name for path in folder.parent.iterdir()], [folder.name])

    def test_only_exact_sources_are_taken_if_that_is_wanted(self) -> None:
        self.keep()
        self.checkout.source.write_text("of another kind\n")
        self.assertIn("NOT of the crates/", self.found(SOURCES="")[1])
        said = "^program: no program was built, and SOURCES=exact refuses .*: without it this one is taken; make build takes some hours$"
        self.assertRegex(self.refused("program", SOURCES="exact"), said)

    def test_the_line_is_said_once(self) -> None:
        self.keep()
        done = subprocess.run(
            [sys.executable, "-c", TWICE], cwd=self.checkout.top, capture_output=True, text=True, check=True,
            env=self.checkout.names(PYTHONPATH="python/src"),
            timeout=PATIENCE,
        )
        self.assertEqual(done.stdout.split(), 3 * [str(self.checkout.unpacked())])
        self.assertEqual(done.stderr, self.release_line("0 commits back", "of the crates/ that are here"))

    def test_the_newest_release_is_taken(self) -> None:
        self.keep(OTHER)
        newer = self.checkout.archive.with_name("store-0.10.0-x86_64-linux.tar.gz")
        shutil.copy(self.checkout.archive, newer)
        self.checkout.keep()
        digest = self.checkout.archive.with_name(f"{self.checkout.archive.name}.sha256").read_text().split()[0]
        self.assertIn(".sha256: No such file or directory", self.refused("program"))
        newer.with_name(f"{newer.name}.sha256").write_text(digest)
        self.assertIn(f"{newer}: its sha256 is ", self.refused("program"))

    def test_without_history_the_distance_is_unknown(self) -> None:
        self.keep()
        self.checkout.commit()
        shallow = self.checkout.top.parent / "shallow"
        self.checkout.git("clone", "-q", "--depth", "1", f"file://{self.checkout.top}", str(shallow))
        self.checkout.top.rename(self.checkout.top.parent / "deep")
        shallow.rename(self.checkout.top)
        self.assertEqual(self.found()[1], self.release_line("of an unknown distance", "of the crates/ that are here"))

    def test_without_git_nothing_is_known_of_the_sources(self) -> None:
        self.keep()
        built = self.checkout.build()
        shutil.rmtree(self.checkout.top / ".git")
        unknown = "of the crates/ that are here"
        whose = f"and git can't say whether it is {unknown} (git can't say whether {built} is {unknown})"
        self.assertEqual(self.found()[1], self.release_line("of an unknown distance", whose))
        self.assertIn("SOURCES=exact refuses", self.refused("program", SOURCES="exact"))
        self.assertIn(f"{self.checkout.top} is no git repository", self.refused("note-program"))
        self.assertIn(f"{self.checkout.top} is no git repository", self.refused("release-due"))

    def test_an_old_python_is_told(self) -> None:
        for script in ("program", "serve", "dist", "note-program", "release-due"):
            run = f"runpy.run_path('operate/{script}', run_name='__main__')"
            command = [sys.executable, "-c", f"import runpy, sys; sys.version_info = (3, 8, 20); sys.argv = ['{script}']; {run}"]
            done = subprocess.run(
                command, cwd=self.checkout.top, capture_output=True, text=True, timeout=PATIENCE, check=False,
                # a script's own folder, which Python looks through by itself
                env={**os.environ, "PYTHONPATH": "operate"},
            )
            self.assertEqual((done.returncode, done.stderr), (2, f"{script}: Python 3.9 or later is needed\n"))


class Damaged(Of):
    def test_no_release(self) -> None:
        said = f"program: no program was built, and there is no release in {self.checkout.top}/dist; make build takes some hours"
        self.assertEqual(self.refused("program"), said)

    def test_an_archive_with_other_bytes(self) -> None:
        self.keep()
        archive = self.checkout.archive
        archive.write_bytes(archive.read_bytes()[:-1] + b"!")
        self.assertIn(f"{archive}: its sha256 is ", self.refused("program"))
        # also if its checksum is right
        whole = archive.read_bytes()
        for data in (b"", whole[: len(whole) // 2], whole[:40] + bytes(40) + whole[80:], b"no archive"):
            archive.write_bytes(data)
            self.checkout.note_archive()
            self.assertIn(f"{archive}: no release: ", self.refused("program"))
        self.assertFalse((self.checkout.top / "out").exists())

    def test_what_was_unpacked_has_other_bytes(self) -> None:
        self.keep()
        program = Path(self.found()[0])
        program.write_bytes(OTHER)
        folder = program.parent.parent
        self.assertIn(f"{folder} isn't as it was unpacked from {self.checkout.archive}: remove it", self.refused("program"))
        shutil.rmtree(folder)
        self.assertEqual(self.found()[0], str(program))
        program.chmod(0o600)
        self.assertIn(f"{folder} isn't as it was unpacked from", self.refused("program"))

    def test_nothing_can_be_unpacked(self) -> None:
        self.keep()
        (self.checkout.top / "out").write_text("no folder")
        said = f"{self.checkout.top}/out.*: (Not a directory|File exists): {self.checkout.archive} can't be unpacked there"
        self.assertRegex(self.refused("program"), said)

    @unittest.skipIf(os.geteuid() == 0, "root may write everywhere")
    def test_a_folder_that_is_read_only(self) -> None:
        self.keep()
        out = self.checkout.top / "out"
        out.mkdir(0o500)
        self.assertIn("Permission denied", self.refused("program"))
        self.assertEqual(list(out.iterdir()), [])
        out.chmod(0o700)
        program = self.found()[0]
        # what is there already is enough
        out.chmod(0o500)
        self.addCleanup(out.chmod, 0o700)
        self.assertEqual(self.found()[0], program)


class Noted(Of):
    def test_what_the_gate_printed_is_noted(self) -> None:
        self.checkout.build()
        gate = self.checkout.top / "out.gate"
        # as bash tells of the time that it took
        gate.write_text(f"{GATE}\nreal\t61m0.1s\nuser\t170m7.0s\nsys\t0m31.6s\n")
        self.checkout.source.parent.joinpath("main.log").touch()
        self.assertEqual(self.checkout.ran("note-program", "--gate", str(gate), "--proved", "yes"), str(self.checkout.note))
        told = self.checkout.note.read_text()
        self.assertIn("\nproved     yes\ngate       1 passed, 0 failed\n  one: proved: logic=proved functions=7\n", told)
        gate.write_text(GATE.replace("one proved", "one NOT PROVED"))
        said = self.refused("note-program", "--gate", str(gate), "--proved", "yes")
        self.assertIn(f"{gate} has a crate that is NOT PROVED", said)
        self.assertIn("No such file or directory", self.refused("note-program", "--gate", "missing"))
        self.assertEqual(self.checkout.note.read_text(), told)
        self.assertEqual(len(list(self.checkout.program.parent.iterdir())), 2)

    def test_sources_that_change_while_a_program_is_built(self) -> None:
        self.checkout.build()
        began = self.checkout.ran("note-program", "--tree")
        self.assertEqual(began, self.checkout.tree())
        self.checkout.ran("note-program", "--proved", "yes", "--since", began)
        self.checkout.program.write_bytes(OTHER)
        self.checkout.source.write_text("of another kind\n")
        said = self.refused("note-program", "--proved", "yes", "--since", began)
        self.assertIn(f"crates/ changed while {self.checkout.program} was built, from {began} to ", said)
        self.assertIn("isn't the program that store_server.proved is about", self.refused("program"))

    def test_no_program_is_noted(self) -> None:
        self.assertIn(f"there is no program {self.checkout.program}: make build leaves it there", self.refused("note-program"))

    def test_nothing_is_written_into_the_repository(self) -> None:
        self.checkout.source.write_text("of a kind that no commit has\n")
        before = self.checkout.git("count-objects", "-v"), self.checkout.git("status", "--porcelain")
        self.checkout.ran("note-program", "--tree")
        self.assertEqual((self.checkout.git("count-objects", "-v"), self.checkout.git("status", "--porcelain")), before)


@unittest.skipUnless(shutil.which("make"), "there is no make")
class BuiltByMake(Of):
    needed = (*SCRIPTS, "Makefile")

    def make_build(self, **more: str) -> "subprocess.CompletedProcess[str]":
        """With a kit that builds a script, and then does what CHANGE says."""
        kit = self.checkout.top.parent / "rt"
        kit.write_text(KIT)
        kit.chmod(0o700)
        names = self.checkout.names(PATH=f"{kit.parent}:{os.environ['PATH']}", **more)
        words = ["make", "-s", "build"]
        return subprocess.run(words, cwd=self.checkout.top, capture_output=True, text=True, env=names, timeout=PATIENCE, check=False)

    def test_a_build_is_noted(self) -> None:
        done = self.make_build()
        self.assertEqual((done.returncode, done.stdout, done.stderr), (0, f"{self.checkout.note}\n", ""))
        told = self.checkout.note.read_text()
        self.assertIn(f"sources    {self.checkout.tree()}\ntoolchain  a kit\nproved     yes\ngate       not known\n", told)
        self.assertIn("which was built of the crates/ that are here", self.found()[1])

    def test_a_build_of_sources_that_change_meanwhile_is_not_noted(self) -> None:
        done = self.make_build(CHANGE="echo more > main")
        self.assertEqual((done.returncode, self.checkout.program.exists(), self.checkout.note.exists()), (2, True, False))
        said = f"note-program: crates/ changed while {self.checkout.program} was built, from {self.checkout.tree()} to "
        self.assertIn(said, done.stderr)

    def test_a_build_that_fails_is_not_noted(self) -> None:
        done = self.make_build(CHANGE="exit 1")
        self.assertEqual((done.returncode, self.checkout.note.exists()), (2, False))

    def test_a_build_without_git_is_not_noted(self) -> None:
        shutil.rmtree(self.checkout.top / ".git")
        done = self.make_build()
        said = f"note-program: {self.checkout.top} is no git repository\n"
        self.assertEqual((done.returncode, done.stderr), (0, said))
        self.assertEqual((self.checkout.program.exists(), self.checkout.note.exists()), (True, False))


class Packed(Of):
    def test_a_program_of_which_nothing_is_known_is_refused(self) -> None:
        self.assertIn(f"there is no program {self.checkout.program}, no file that can be executed: make build", self.refused("dist"))
        self.assertIn("there is no program /bin, no file that can be executed", self.refused("dist", STORE_PROGRAM="/bin"))
        said = self.refused("dist", STORE_PROGRAM="/bin/true")
        self.assertIn("nothing says of which sources /bin/true is: /bin/true.proved: No such file or directory", said)
        self.assertFalse((self.checkout.top / "dist").exists())

    def test_a_program_that_its_file_is_not_about_is_refused(self) -> None:
        self.checkout.build().write_bytes(OTHER)
        self.assertIn(f"{self.checkout.note} is about another program than {self.checkout.program}", self.refused("dist"))

    def test_a_program_that_is_not_proved_is_refused(self) -> None:
        self.checkout.build(proved="no")
        said = f"{self.checkout.note} doesn't say that {self.checkout.program} was proved: make build proves it"
        self.assertIn(said, self.refused("dist"))

    def test_a_program_of_other_sources_is_refused(self) -> None:
        self.checkout.source.write_text("of another kind\n")
        self.checkout.build()
        before = self.checkout.tree()
        said = f"{self.checkout.program} is of the crates/ [0-9a-f]+, and the last commit has {before}: commit those, or make build"
        self.assertRegex(self.refused("dist"), said)

    def test_the_program_of_an_older_release_is_refused(self) -> None:
        self.keep()
        program = self.found()[0]
        self.checkout.source.write_text("of another kind\n")
        self.checkout.commit()
        self.assertIn(f"{program} is of the crates/ ", self.refused("dist", STORE_PROGRAM=program))

    def test_a_program_that_is_another_one_is_refused(self) -> None:
        program = self.checkout.build(b"#!/bin/sh\necho another\n")
        done = self.checkout.run("dist")
        self.assertEqual(done.returncode, 2)
        self.assertIn(f"dist: {program} --version doesn't say which store it is: 'another'\n", done.stderr)


    @unittest.skipUnless(shutil.which("dpkg-deb"), "there is no dpkg-deb")
    def test_a_package_is_made_of_the_release_that_is_kept(self) -> None:
        self.keep()
        self.checkout.source.write_text("of another kind\n")
        package = self.checkout.archive.with_name("store-server_0.1.0_amd64.deb")
        for _ in range(2):
            done = self.checkout.run("dist", "--deb")
            self.assertEqual((done.returncode, done.stdout), (0, f"{package}\n"), done.stderr)
            self.assertRegex(done.stderr, "^dist: the package has that of the release .*, NOT of the crates/ that are here|, and git can't say")
            files = subprocess.run(["dpkg-deb", "--fsys-tarfile", str(package)], capture_output=True, check=True).stdout
            words = ["tar", "-xO", "./usr/share/doc/store-server/PROVED"]
            told = subprocess.run(words, input=files, capture_output=True, check=True).stdout.decode()
            self.assertIn(f"commit     {self.kept}\n", told)
            # and so it is without a repository
            shutil.rmtree(self.checkout.top / ".git", ignore_errors=True)


@unittest.skipUnless(sys.version_info >= (3, 11), "a release is made with Python 3.11 or later")
class Made(Of):
    needed = ALL

    def test_a_release_is_made_of_what_is_known(self) -> None:
        self.checkout.build()
        (self.checkout.top / "README").write_text("other words\n")
        self.checkout.commit()
        done = self.checkout.run("dist")
        script = f"dist: warning: {self.checkout.program} is no ELF file: it may run on this machine alone\n"
        self.assertEqual(done.stderr, script)
        archive, *wheels = done.stdout.splitlines()
        self.assertEqual(archive, str(self.checkout.archive))
        self.assertEqual([Path(wheel).name.split("-")[0] for wheel in wheels], ["store_client", "store_server"])
        packed = ["tar", "-xzOf", str(self.checkout.archive), f"{RELEASE}/PROVED"]
        told = subprocess.run(packed, capture_output=True, text=True, check=True).stdout
        # but for the commit, what the file beside the program says
        noted = self.checkout.note.read_text().splitlines()
        self.assertEqual([line for line in told.splitlines() if line not in noted], [f"commit     {self.checkout.head()}"])
        self.kept = self.checkout.head()
        self.checkout.program.unlink()
        self.assertEqual(self.found()[1], self.release_line("0 commits back", "of the crates/ that are here"))

    def test_a_release_that_is_kept_is_never_written_over(self) -> None:
        self.keep(OTHER)
        self.checkout.commit()
        self.checkout.build()
        before = self.checkout.archive.read_bytes()
        done = self.checkout.run("dist")
        self.assertEqual((done.returncode, done.stdout), (2, ""))
        kept = f"dist: {self.checkout.archive} is kept in the repository with other bytes"
        self.assertIn(f"{kept}: the version in crates/schedule_runs/src/command_line.rt has to rise\n", done.stderr)
        self.assertEqual(self.checkout.archive.read_bytes(), before)
        elsewhere = self.checkout.top.parent / "made"
        self.assertEqual(self.checkout.ran("dist", "-o", str(elsewhere)).splitlines()[0], str(elsewhere / self.checkout.archive.name))


class Due(Of):
    def test_a_release_of_the_sources_that_are_here(self) -> None:
        self.keep()
        (self.checkout.top / "README").write_text("other words\n")
        self.checkout.commit()
        said = f"{RELEASE}, of commit {self.kept}, is of the crates/ that are here: {self.checkout.tree()}"
        self.assertEqual(self.checkout.ran("release-due"), said)

    def test_a_release_that_has_parted_from_them(self) -> None:
        self.keep()
        before = self.checkout.tree()
        (self.checkout.top / "README").write_text("other words\n")
        self.checkout.commit()
        self.checkout.source.write_text("of another kind\n")
        self.checkout.commit()
        done = self.checkout.run("release-due")
        there, here = f"{RELEASE}, of commit {self.kept}, has the crates/ {before}", f"here is {self.checkout.tree()}, 1 commit"
        said = f"a release is due: {there}, and {here} to crates/ later\n"
        self.assertEqual((done.returncode, done.stdout, done.stderr), (1, said, ""))

    def test_no_release(self) -> None:
        self.assertEqual(self.refused("release-due"), f"release-due: there is no release in {self.checkout.top}/dist")


if __name__ == "__main__":
    unittest.main()
