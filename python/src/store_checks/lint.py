"""Looks for what a linter finds in all Python of the repository: names that are imported or set and never used, names that aren't there, and
the like. And at two rules of our own: a command has the form by which all are found, and names a module that is there; and nothing but
python/launcher.py, and what is used without it, says where packages are.

By ruff, with the settings of pyproject.toml; without it by flake8, with the same rules. It is tried that wrong files are found out. Without
both nothing is looked at, which is said. The last line counts the files and what was tried.
"""

from __future__ import annotations

import argparse
import re
import shutil
import subprocess
import sys
import tempfile
from pathlib import Path
from typing import Dict, List, Sequence

from store_testing import ROOT

from .strict import python_files

SETTINGS = ROOT / "pyproject.toml"
# a line about a file
FAULT = re.compile(r"^(.+?):(\d+):\d+: (\w+) ")
# a name that is imported to be imported from here: ruff knows that it is wanted, and flake8 doesn't
HANDED_ON = re.compile(r"import (\w+) as \1\b")
# of a file's faults, what is shown
SHOWN = 10
COMMAND_TEXT = """\
#!/usr/bin/env python3
\"\"\"What it does.\"\"\"

import sys
from pathlib import Path

sys.path.insert(0, str(Path(__file__).resolve().parents[1] / "python"))

from launcher import launch  # noqa: E402

if __name__ == "__main__":
    launch("{}")
"""
# a command: its module, and words before those of the command line
COMMAND = re.compile(
    r'#!/usr/bin/env python3\n"""[^"\n]+"""\n\nimport sys\nfrom pathlib import Path\n\n'
    r'sys\.path\.insert\(0, str\(Path\(__file__\)\.resolve\(\)\.parents\[\d\] / "python"\)\)\n\nfrom launcher import launch  # noqa: E402\n\n'
    r'if __name__ == "__main__":\n    launch\("([\w.]+)"(?:, "[\w/]+")*\)\n'
)
IMPORTED = "from launcher import"
# commands that import nothing of ours, and those that a release has
OTHERS = {
    "clients/python/api_pages", "crates/schedules/long_schedule", "tests/conformance/drivers/puppet",
    "operate/store-client", "operate/store-daemon", "operate/storectl",
}
# what says where packages are
SAID = "sys.path"
SAYING = {
    # the form of commands
    "python/src/store_checks/lint.py", "python/tests/testing/test_layout.py",
    "python/launcher.py", "operate/store-client", "operate/store-daemon", "operate/storectl",
    # tests are found beside each other
    "python/src/store_checks/unit_tests.py",
    # it runs without any path, and finds the package around it
    "clients/python/src/store_client/keeper.py",
    # examples are a reader's, and lie in releases too
    "examples/serving.py", "examples/cluster/inside.py", "python/src/store_bench/cluster.py",
}
# files by name: those whose names begin with wrong have to be found out
FILES = {
    "right.py": "import sys\n\nprint(sys.argv)\n",
    "right_handed_on.py": "from sys import argv as argv\n",
    "wrong_import.py": "import sys\n",
    "wrong_name.py": "print(nothing)\n",
    "wrong_variable.py": "def run() -> None:\n    unused = 1\n",
    "wrong_comparison.py": "def is_none(value: object) -> bool:\n    return value == None\n",
    "wrong_path.py": f"import sys\n\n{SAID}.append('.')\n",
    "wrong_command": "#!/usr/bin/env python3\nprint()\n",
    "wrong_module": COMMAND_TEXT.format("store_checks.nothing"),
    "right_command": COMMAND_TEXT.format("store_checks.lint"),
}


def rules() -> List[str]:
    """Those that the settings select."""
    selected = re.search(r'^select = \[(.*)\]$', SETTINGS.read_text(encoding="utf-8"), re.MULTILINE)
    assert selected is not None, "pyproject.toml selects no rules"
    return re.findall(r'"(\w+)"', selected[1])


def command() -> "List[str] | None":
    """The words of the linter that is there."""
    if shutil.which("ruff") is not None:
        return ["ruff", "check", "--quiet", "--no-cache", "--output-format", "concise", "--config", str(SETTINGS)]
    if shutil.which("flake8") is not None:
        # ruff has no rule of this number: it is about a body of three dots after a head
        return ["flake8", "--isolated", f"--select={','.join(rules())}", "--extend-ignore=E704"]
    return None


def of_another_form(name: str) -> List[str]:
    """What of our own rules a file breaks."""
    text = (ROOT / name).read_text(encoding="utf-8")
    found = []
    if SAID in text and name not in SAYING and not COMMAND.fullmatch(text):
        found.append(f"{name}: it says where packages are, as python/launcher.py alone should")
    if text.startswith("#!") and (IMPORTED in text or not Path(name).suffix) and name not in OTHERS:
        command = COMMAND.fullmatch(text)
        if not command:
            found.append(f"{name}: a command of another form than the others")
        elif not is_module(command[1]):
            found.append(f"{name}: no module {command[1]} has a main")
    return found


def is_module(name: str) -> bool:
    path = ROOT / "python/src" / f"{name.replace('.', '/')}.py"
    return path.is_file() and "\ndef main(" in path.read_text(encoding="utf-8")


def faults_of(words: Sequence[str], names: Sequence[str]) -> Dict[str, List[str]]:
    """Of each file what of our own rules it breaks, and what the linter finds there."""
    found = {name: of_another_form(name) for name in names}
    for name, lines in linted(words, names).items():
        found.setdefault(name, []).extend(lines)
    return {name: lines for name, lines in found.items() if lines}


def linted(words: Sequence[str], names: Sequence[str]) -> Dict[str, List[str]]:
    done = subprocess.run([*words, *names], cwd=ROOT, capture_output=True, text=True, check=False)
    if done.returncode not in (0, 1):
        raise SystemExit(f"lint: {words[0]} ended with {done.returncode}: {(done.stdout + done.stderr)[-2000:]}")
    found: Dict[str, List[str]] = {}
    for line in done.stdout.splitlines():
        fault = FAULT.match(line)
        if fault and not is_handed_on(fault[1], int(fault[2]), fault[3]):
            found.setdefault(fault[1], []).append(line)
    return found


def is_handed_on(name: str, line: int, rule: str) -> bool:
    return rule == "F401" and HANDED_ON.search((ROOT / name).read_text(encoding="utf-8").splitlines()[line - 1]) is not None


def wrong_files(words: Sequence[str]) -> List[str]:
    """What is wrong with what is found in files that are wrong, and in others."""
    with tempfile.TemporaryDirectory() as folder:
        for name, text in FILES.items():
            Path(folder, name).write_text(text, encoding="ascii")
        found = sorted(Path(name).name for name in faults_of(words, [str(Path(folder, name)) for name in FILES]))
    due = sorted(name for name in FILES if name.startswith("wrong"))
    return [] if found == due else [f"these are found out: {found}, and these are due: {due}"]


def main() -> int:
    argparse.ArgumentParser(description=__doc__, formatter_class=argparse.RawDescriptionHelpFormatter).parse_args()
    words = command()
    if words is None:
        print("left out: what a linter finds, which wants ruff or flake8\n0 passed, 0 failed")
        return 0
    names = python_files()
    found = faults_of(words, names)
    faults = ["\n  ".join([f"{name}:", *lines[:SHOWN]]) for name, lines in found.items()] + wrong_files(words)
    for fault in faults:
        print(f"FAILED: {fault}")
    print(f"{len(names) + 1 - len(faults)} passed, {len(faults)} failed")
    return 1 if faults else 0


if __name__ == "__main__":
    sys.exit(main())
