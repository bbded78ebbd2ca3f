"""Looks at the types of all Python of the repository, by mypy --strict with the settings of pyproject.toml.

Each file that git knows or would add is looked at, whatever its ending. What mypy is told to ignore has to be named by its code, and to have a
reason on the same line. It is tried that wrong files are found out. Without mypy nothing is looked at, which is said. The last line counts the
files and what was tried.
"""

from __future__ import annotations

import argparse
import os
import re
import shutil
import subprocess
import sys
import tempfile
from pathlib import Path
from typing import Dict, Iterator, List, Sequence, Set

from store_testing import ROOT

SETTINGS = ROOT / "pyproject.toml"
# how a script begins that is Python, whatever its name
SCRIPT = re.compile(rb"#!\S*(?:/env )?python3?\b|#!/usr/bin/env python3?\b")
# a line of what mypy says that is about a file
FAULT = re.compile(r"^(.+?):\d+: error: ")
# of a file's faults, what is shown
SHOWN = 10
# what mypy is told to ignore, and how that is told with a code and a reason
IGNORED, REASONED = re.compile(r"#\s*type:\s*ignore"), re.compile(r"#\s*type:\s*ignore\[[\w, -]+\]  # \w")
# in two pieces, since nothing is ignored here
IGNORE = "# type" + ": ignore"
# files by name: those whose names begin with wrong have to be found out
FILES = {
    "right.py": "def same(value: int) -> int:\n    return value\n",
    "right_reason.py": f"def same(value: int) -> str:\n    return value  {IGNORE}[return-value]  # it is tried\n",
    "wrong.py": "def same(value):\n    return value\n",
    "wrong_reason.py": f"def same(value: int) -> str:\n    return value  {IGNORE}[return-value]\n",
    "wrong_code.py": f"def same(value: int) -> str:\n    return value  {IGNORE}  # it is tried\n",
}


# ---- what there is


def output(*words: str) -> str:
    return subprocess.run(words, cwd=ROOT, check=True, capture_output=True, text=True).stdout


def python_files() -> List[str]:
    """The paths below the top folder of all files of Python that git knows or would add. What a link leads to has a path of its own."""
    names = output("git", "ls-files", "--cached", "--others", "--exclude-standard", "-z").split("\0")
    return sorted({name for name in names if name and is_python(ROOT / name)})


def is_python(path: Path) -> bool:
    if path.is_symlink() or not path.is_file():
        return False
    if path.suffix:
        return path.suffix == ".py"
    with open(path, "rb") as file:
        return SCRIPT.match(file.readline(80)) is not None


# ---- mypy


def module_of(name: str) -> str:
    """What mypy calls a file: of a package with the package's name before it."""
    path = ROOT / name
    words = [] if path.name == "__init__.py" else [path.stem]
    for folder in path.parents:
        if not (folder / "__init__.py").exists():
            break
        words.insert(0, folder.name)
    return ".".join(words)


def groups_of(names: Sequence[str]) -> List[List[str]]:
    """The files in groups in which no two modules have one name."""
    groups: List[Dict[str, str]] = []
    for name in names:
        module = module_of(name)
        group = next((one for one in groups if module not in one), None)
        if group is None:
            group = {}
            groups.append(group)
        group[module] = name
    return [list(group.values()) for group in groups]


def faults_by_file(names: Sequence[str], settings: Path = SETTINGS, more: Sequence[str] = ()) -> Dict[str, List[str]]:
    """What mypy says of these files and of what they import, by file; it is given more words."""
    packages = {module_of(name).partition(".")[0] for name in names if "." in module_of(name)}
    # by its own name such a script would stand for the package
    alone = [name for name in names if module_of(name) in packages and not name.endswith(".py")]
    groups = groups_of([name for name in names if name not in alone])
    found: Dict[str, Set[str]] = {}
    for words in [["--scripts-are-modules", *group] for group in groups] + [[name] for name in alone]:
        add_faults(found, [*more, *words], settings)
    return {name: sorted(lines) for name, lines in found.items()}


def add_faults(found: Dict[str, Set[str]], words: Sequence[str], settings: Path) -> None:
    command = ["mypy", "--strict", "--config-file", str(settings), "--no-error-summary", "--show-error-codes", *words]
    done = subprocess.run(command, cwd=ROOT, capture_output=True, text=True, check=False, env={**os.environ, "MYPYPATH": ""})
    if done.returncode not in (0, 1):
        raise SystemExit(f"strict: mypy ended with {done.returncode}: {(done.stdout + done.stderr)[-2000:]}")
    for line in done.stdout.splitlines():
        fault = FAULT.match(line)
        if fault:
            found.setdefault(os.path.normpath(fault[1]), set()).add(line)


# ---- the faults


def ignored(name: str) -> Iterator[str]:
    """The lines of a file that ignore something without a code or a reason."""
    for number, line in enumerate((ROOT / name).read_text(encoding="utf-8").splitlines(), 1):
        if IGNORED.search(line) and not REASONED.search(line):
            yield f"{name}:{number}: it is ignored without a code or a reason: {line.strip()}"


def faults_of(names: Sequence[str], more: Sequence[str] = ()) -> Dict[str, List[str]]:
    """Of each file that isn't strict what is wrong with it."""
    found = faults_by_file(names, more=more)
    faults = {name: [*found.get(name, []), *ignored(name)] for name in names}
    return {name: lines for name, lines in faults.items() if lines}


def wrong_files() -> List[str]:
    """What is wrong with what is found in files that are wrong, and in others."""
    with tempfile.TemporaryDirectory() as folder:
        paths = [Path(folder, name) for name in FILES]
        for path in paths:
            path.write_text(FILES[path.name], encoding="ascii")
        # what mypy keeps of a module has its faults, with the folder of an earlier run
        found = [Path(name).name for name in faults_of([str(path) for path in paths], ["--cache-dir", os.devnull])]
    due = [name for name in FILES if name.startswith("wrong")]
    return [] if found == due else [f"these are found out: {found}, and these are due: {due}"]


def main() -> int:
    argparse.ArgumentParser(description=__doc__, formatter_class=argparse.RawDescriptionHelpFormatter).parse_args()
    if shutil.which("mypy") is None:
        print("left out: the types, which want mypy\n0 passed, 0 failed")
        return 0
    names = python_files()
    faults = ["\n  ".join([f"{name} isn't strict:", *lines[:SHOWN]]) for name, lines in faults_of(names).items()] + wrong_files()
    for fault in faults:
        print(f"FAILED: {fault}")
    print(f"{len(names) + 1 - len(faults)} passed, {len(faults)} failed")
    return 1 if faults else 0


if __name__ == "__main__":
    sys.exit(main())
