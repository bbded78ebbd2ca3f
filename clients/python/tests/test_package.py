"""The package as others see it: types, a wheel, the pages of its API. What a tool is missing for is skipped, and says so."""

from __future__ import annotations

import importlib
import importlib.util
import io
import os
import re
import shutil
import subprocess
import sys
import tempfile
import unittest
import zipfile
from pathlib import Path
from typing import List, Mapping, Optional, Union

import store_build
from store_build.client import client_files, client_wheel, source_archive
from store_build.project import ProjectFault, read_project, read_tables
from support import PATIENCE, ROOT

import store_client
from store_release.wheel import wheel

FOLDER = ROOT / "clients/python"


def has(*modules: str) -> bool:
    """Whether this Python has all of them."""
    return all(importlib.util.find_spec(module) for module in modules)


def run(*words: str, cwd: Union[str, Path, None] = None, env: Optional[Mapping[str, str]] = None) -> str:
    """What a command prints; it has to succeed. mypy and pip take a busy machine minutes."""
    done = subprocess.run(words, capture_output=True, text=True, check=False, timeout=3 * PATIENCE, cwd=cwd, env=env)
    if done.returncode:
        raise AssertionError(f"{' '.join(words)}: status {done.returncode}\n{done.stdout}{done.stderr}")
    return done.stdout


class Package(unittest.TestCase):
    def test_the_api_s_pages_are_what_the_docstrings_say(self) -> None:
        run(sys.executable, str(FOLDER / "api_pages"), "--check")

    def test_all_that_is_public_is_documented(self) -> None:
        pages = (FOLDER / "API.md").read_text(encoding="utf-8")
        for name in store_client.__all__:
            self.assertRegex(pages, rf"`(class |async )?{name}\b")
            self.assertTrue(getattr(store_client, name).__doc__, name)

    def test_the_changes_tell_of_this_version(self) -> None:
        text = (FOLDER / "CHANGELOG.md").read_text(encoding="utf-8")
        self.assertEqual(re.findall(r"^## (.*)$", text, re.MULTILINE)[0], store_client.__version__)

    @unittest.skipUnless(shutil.which("mypy"), "mypy isn't there")
    def test_the_types_are_right(self) -> None:
        with tempfile.TemporaryDirectory() as cache:
            told = run("mypy", "--strict", "src/store_client", cwd=FOLDER, env={**os.environ, "MYPY_CACHE_DIR": cache})
        self.assertIn("Success", told)

    @unittest.skipUnless(shutil.which("mypy"), "mypy isn't there")
    def test_what_is_expected_is_what_a_type_checker_knows(self) -> None:
        """Each line that is marked is an error, and no other one."""
        lines = [
            "from store_client import Connection, ObjectId, Pool, aio",
            "async def look(id: ObjectId, one: Connection, two: Pool, far: aio.Connection) -> None:",
            "    a: int = one.get_value(id, expect=int, since=one.epoch)",
            "    b: str = two.get_value(id, expect=int)  # wrong",
            "    c: str = await far.get_value(id, 1.0, expect=int, since=far.epoch)  # wrong",
            "    d: str = one.get_value(id, 1.0, True)",
            "    e: bytes = two.get_array(id, since=two.epoch)  # wrong",
            "    one.get(id, since=1)  # wrong",
        ]
        with tempfile.TemporaryDirectory() as folder:
            script = Path(folder, "script.py")
            script.write_text("\n".join([*lines, ""]), encoding="ascii")
            place = {**os.environ, "MYPY_CACHE_DIR": f"{folder}/cache", "MYPYPATH": str(FOLDER / "src")}
            words = ["mypy", "--strict", "--ignore-missing-imports", str(script)]
            done = subprocess.run(words, capture_output=True, text=True, check=False, timeout=3 * PATIENCE, env=place, cwd=folder)
        told = [int(number) for number in re.findall(r"^script\.py:(\d+): error", done.stdout, re.MULTILINE)]
        self.assertEqual(told, [number for number, line in enumerate(lines, 1) if line.endswith("# wrong")], done.stdout)

    def test_the_licence_is_the_repository_s(self) -> None:
        self.assertEqual((FOLDER / "LICENSE").read_bytes(), (ROOT / "LICENSE").read_bytes())

    @unittest.skipUnless(has("tomllib"), "tomllib isn't there before Python 3.11")
    def test_pyproject_is_read_as_python_reads_it(self) -> None:
        text = (FOLDER / "pyproject.toml").read_text(encoding="utf-8")
        expected = importlib.import_module("tomllib").loads(text)["project"]
        tables = read_tables(text)
        for name in ("optional-dependencies", "scripts"):
            self.assertEqual(tables.pop(f"project.{name}"), expected.pop(name))
        self.assertEqual(tables, {"project": expected})

    def test_what_isn_t_read_of_a_project_is_a_fault(self) -> None:
        for line in ("license = { text = 'MIT' }", "version.attr = 1", 'classifiers = [\n"one",\n]'):
            with self.assertRaisesRegex(ProjectFault, re.escape(line.splitlines()[0])):
                read_tables(f'[project]\nname = "x"\n{line}\n[tool.y]\nz = 1\n')
        with self.assertRaisesRegex(ProjectFault, "^readme is missing$"):
            read_project({**client_files(FOLDER), "pyproject.toml": without("readme")})

    def test_the_same_files_give_the_same_bytes(self) -> None:
        files = client_files(FOLDER)
        backwards = dict(reversed(list(files.items())))
        for made in (client_wheel, source_archive):
            self.assertEqual(made(files), made(backwards))

    def test_the_wheel_of_a_release_is_the_same(self) -> None:
        sources = FOLDER / "src"
        package = {path.relative_to(sources).as_posix(): path.read_bytes() for path in sources.rglob("*.py")}
        package["store_client/py.typed"] = b""
        texts = ((FOLDER / name).read_bytes() for name in ("pyproject.toml", "README.md", "LICENSE"))
        self.assertEqual(wheel(next(texts), package, *texts), client_wheel(client_files(FOLDER)))


def without(field: str) -> bytes:
    """The text of pyproject.toml without a field of one line."""
    text = (FOLDER / "pyproject.toml").read_text(encoding="utf-8")
    return re.sub(rf"^{field} = .*\n", "", text, flags=re.MULTILINE).encode()


class Installed(unittest.TestCase):
    """By pip, with no network, no cache and no other package, in a new environment of each Python from 3.9 on that is here."""

    def setUp(self) -> None:
        folder = tempfile.TemporaryDirectory()
        self.addCleanup(folder.cleanup)
        self.folder = Path(folder.name)
        self.sources = self.folder / "sources"
        shutil.copytree(FOLDER, self.sources, ignore=shutil.ignore_patterns("__pycache__"))

    def installed(self, python: str, *words: str) -> Path:
        """A new environment, into which this was installed."""
        there = self.folder / os.urandom(8).hex()
        self.run_alone(python, "-m", "venv", "--without-pip", str(there))
        pip = (python, "-m", "pip", "--isolated", "--python", str(there / "bin/python"))
        self.run_alone(*pip, "install", "-q", "--no-index", "--no-cache-dir", *words)
        return there

    def run_alone(self, *words: str) -> str:
        """As `run`, with nothing of this process's environment."""
        return run(*words, cwd="/", env={"PATH": os.defpath, "HOME": str(self.folder), "PIP_DISABLE_PIP_VERSION_CHECK": "1"})

    def look_at(self, there: Path) -> Path:
        """Where the package is, which can be imported and says its version, as its program does."""
        code = "import store_client; print(store_client.__file__, store_client.__version__)"
        place, version = self.run_alone(str(there / "bin/python"), "-c", code).split()
        self.assertEqual(version, store_client.__version__)
        self.assertEqual(self.run_alone(str(there / "bin/store-client"), "--version").strip(), f"store-client {version}")
        return Path(place).parent

    def compare(self, package: Path) -> None:
        """What is installed is what the wheel has, and in the list of the installed files."""
        with zipfile.ZipFile(io.BytesIO(client_wheel(client_files(FOLDER))[1])) as archive:
            expected = {name: archive.read(name) for name in archive.namelist() if not name.endswith("/RECORD")}
        for name, data in expected.items():
            self.assertEqual((package.parent / name).read_bytes(), data, name)
        there = {path.relative_to(package.parent).as_posix() for path in package.rglob("*") if path.is_file() and path.suffix != ".pyc"}
        self.assertEqual(there, {name for name in expected if name.startswith("store_client/")})

    def test_the_folder_and_its_archive(self) -> None:
        """As README says, and by an archive of the sources."""
        self.assertIn("\n    $ pip install clients/python\n", (FOLDER / "README.md").read_text(encoding="utf-8"))
        archive = store_build.build_sdist(str(self.folder))
        for python in each_python(self):
            for given in (self.sources, self.folder / archive):
                with self.subTest(python=python, given=given.name):
                    self.compare(self.look_at(self.installed(python, str(given))))

    def test_editable(self) -> None:
        for python in each_python(self):
            with self.subTest(python=python):
                self.assertEqual(self.look_at(self.installed(python, "-e", str(self.sources))), self.sources / "src/store_client")


def each_python(case: unittest.TestCase) -> List[str]:
    """The Pythons that are here. Which are missing is said, and if all are the test is left out."""
    folders = [*(str(path) for path in Path.home().glob(".pyenv/versions/*/bin")), os.environ.get("PATH", os.defpath)]
    found = {version: shutil.which(f"python3.{version}", path=os.pathsep.join(folders)) for version in range(9, 15)}
    usable = {version: path for version, path in found.items() if path and can_install(path)}
    for version in sorted(set(found) - set(usable)):
        print(f"left out: test_package: there is no Python 3.{version} with venv and pip 22.3")
    if not usable:
        case.skipTest("there is no Python with venv and pip 22.3")
    return list(usable.values())


def can_install(python: str) -> bool:
    """Whether it has venv, and a pip that installs into other environments."""
    words = [python, "-c", "import venv, pip; assert tuple(map(int, pip.__version__.split('.')[:2])) >= (22, 3)"]
    return subprocess.run(words, capture_output=True, check=False).returncode == 0
