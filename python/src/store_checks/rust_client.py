"""The client in Rust: it is built and tested, at a running server and at scripts that stand in for one.

Starts `store serve` in a temporary folder, with two nodes and two jobs. By cargo it runs the tests of the library, the documented frames,
sessions at scripts, sessions at the server, the page's examples and its first program, and the example programs. Nothing is fetched: the client has no
dependencies. What is built lies in the temporary folder. It takes the program that operate/program finds; or give the words that start
another one. Without cargo it says that the client is left out.
"""

import re
import subprocess
import sys
from pathlib import Path
from typing import Dict, Sequence, Tuple

from store_testing import ROOT
from store_testing.counting import tell
from store_testing.foreign import PATIENCE, run_client_test

FOLDER = ROOT / "clients/rust"
RESULT = re.compile(r"^test result: \w+\. (\d+) passed; (\d+) failed; (\d+) ignored", re.MULTILINE)
# a name, and the words after `cargo`
PARTS = [
    ("the library", ["test", "--lib"]),
    ("the documented frames", ["test", "--test", "vectors"]),
    ("a script as the server", ["test", "--test", "scripted"]),
    ("a running server", ["test", "--test", "served", "--", "--include-ignored"]),
    ("the examples in the page", ["test", "--doc"]),
]
EXAMPLES = ["put_get", "wait"]


def cargo(words: Sequence[str], environment: Dict[str, str], folder: Path = FOLDER) -> Tuple[int, str]:
    """The status of cargo, and all that it said. It fetches nothing."""
    first, *others = words
    # a crate that was just made has no lock yet
    locked = ["--locked"] if (folder / "Cargo.lock").exists() else []
    done = subprocess.run(
        ["cargo", first, "--offline", *locked, "-j1", *others], cwd=folder, env=environment, stdin=subprocess.DEVNULL,
        stdout=subprocess.PIPE, stderr=subprocess.STDOUT, text=True, timeout=PATIENCE, check=False,
    )
    return done.returncode, done.stdout


def tested(name: str, words: Sequence[str], environment: Dict[str, str]) -> Tuple[int, int]:
    """How many tests of a part passed and failed. A part that counts none, leaves one out or ends otherwise than well has failed."""
    status, said = cargo(words, environment)
    counts = [tuple(map(int, found)) for found in RESULT.findall(said)]
    passed, failed, ignored = (sum(count) for count in zip(*counts)) if counts else (0, 0, 0)
    failed += ignored
    if not failed and (status != 0 or not passed):
        failed = 1
    return tell(name, passed, failed, said)


def example(name: str, environment: Dict[str, str]) -> Tuple[int, int]:
    """An example gets back what it put."""
    status, said = cargo(["run", "--quiet", "--example", name], environment)
    is_right = (status, said) == (0, "Hello\n")
    return tell(f"the example {name}", int(is_right), int(not is_right), said)


def refused_example(name: str, environment: Dict[str, str], complaint: str) -> Tuple[int, int]:
    """An example that has no server says why in a line, and its status is 1."""
    status, said = cargo(["run", "--quiet", "--example", name], environment)
    is_right = status == 1 and said.startswith(f"{name}: {complaint}") and said.count("\n") == 1
    return tell(f"the example {name} is refused ({complaint.rstrip(': ')})", int(is_right), int(not is_right), said)


def shown_program(environment: Dict[str, str], folder: str) -> Tuple[int, int]:
    """The first program of the page, with the socket of the server in the place of its own, in a crate as the page says."""
    text = (FOLDER / "README.md").read_text(encoding="utf-8")
    found = re.search(r"^```rust,no_run\n(.*?)^```$", text, re.DOTALL | re.MULTILINE)
    needs = re.search(r"^`(store_client = .*?)`", text, re.MULTILINE)
    if not found or not needs or '"/tmp/store.0"' not in found[1]:
        return tell("the program of the page", 0, 1, "it names no socket /tmp/store.0, or no crate")
    crate = Path(folder, "shown")
    (crate / "src").mkdir(parents=True)
    package = '[package]\nname = "shown"\nversion = "0.1.0"\nedition = "2021"\n\n[dependencies]\n'
    (crate / "Cargo.toml").write_text(package + needs[1].replace("PATH", str(ROOT)) + "\n", encoding="utf-8")
    (crate / "src/main.rs").write_text(found[1].replace("/tmp/store.0", environment["STORE_SOCKET"]), encoding="utf-8")
    status, said = cargo(["run", "--quiet"], environment, crate)
    is_right = (status, said) == (0, "nobody has put it\n")
    return tell("the program of the page", int(is_right), int(not is_right), said)


def all_parts(server: Dict[str, str], folder: str) -> Tuple[int, int]:
    environment = {**server, "CARGO_TARGET_DIR": f"{folder}/target"}
    counts = [tested(name, words, environment) for name, words in PARTS]
    counts += [shown_program(environment, folder), *(example(name, environment) for name in EXAMPLES)]
    for name in EXAMPLES:
        unset = {key: value for key, value in environment.items() if key != "STORE_JOB"}
        counts.append(refused_example(name, unset, "STORE_JOB: "))
        counts.append(refused_example(name, {**environment, "STORE_KEY": "0" * 64}, "1 NotAdmitted: "))
    return sum(passed for passed, _ in counts), sum(failed for _, failed in counts)


def main() -> int:
    return run_client_test("Rust", "cargo", __doc__ or "", all_parts, sys.argv[1:])


if __name__ == "__main__":
    sys.exit(main())
