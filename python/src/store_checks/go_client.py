"""The client in Go: it is formatted, vetted and tested, at a running server and at scripts that stand in for one.

Starts `store serve` in a temporary folder, with two nodes and two jobs. By go it runs gofmt and vet, the tests of the documented frames,
of sessions at scripts and of sessions at the server, the program of the page, and the example programs. The tests run with the race
detector if it works here, and it is said if it doesn't. Nothing is fetched: the client has no dependencies. It takes the program that
operate/program finds; or give the words that start another one. Without go it says that the client is left out.
"""

import json
import re
import subprocess
import sys
from pathlib import Path
from typing import Dict, Sequence, Tuple

from store_testing import ROOT
from store_testing.counting import tell
from store_testing.foreign import PATIENCE, run_client_test

FOLDER = ROOT / "clients/go"
# the client's driver for the kit of dialogues, a module of its own
DRIVER = ROOT / "tests/conformance/drivers/go"
EXAMPLES = {"put_get": "Hello\n", "wait": "Hello\n"}
# the detector is asked for by a program that has a race
RACE = """package main

func main() {
	value, ended := 0, make(chan bool)
	go func() { value++; ended <- true }()
	value++
	<-ended
}
"""


def environment_for(server: Dict[str, str], folder: str) -> Dict[str, str]:
    """What go is run with: it takes no modules from elsewhere, and caches what it builds where the user has it cached."""
    own = {**server, "GOFLAGS": "-mod=mod", "GOPROXY": "off", "GO111MODULE": "on", "GOTOOLCHAIN": "local"}
    if not (own.get("HOME") or own.get("GOCACHE") or own.get("XDG_CACHE_HOME")):
        own["GOCACHE"] = f"{folder}/cache"
    return own


def run(words: Sequence[str], environment: Dict[str, str], folder: Path = FOLDER) -> Tuple[int, str, str]:
    """The status of a command, what it printed, and what it complained of."""
    done = subprocess.run(
        words, cwd=folder, env=environment, stdin=subprocess.DEVNULL, capture_output=True, text=True, timeout=PATIENCE, check=False
    )
    return done.returncode, done.stdout, done.stderr


def as_due(name: str, came: object, due: object) -> Tuple[int, int]:
    """One test: what came has to be what is due."""
    return tell(name, int(came == due), int(came != due), f"got {came!r}, should be {due!r}")


def finds_races(environment: Dict[str, str], folder: str) -> bool:
    """Whether go can build with the race detector here, and it detects a race."""
    module = Path(folder, "race")
    module.mkdir()
    (module / "go.mod").write_text("module race\n\ngo 1.19\n", encoding="ascii")
    (module / "main.go").write_text(RACE, encoding="ascii")
    # 66 is its status after a race
    return run(["go", "run", "-race", "."], environment, module)[2].rstrip().endswith("exit status 66")


def tested(environment: Dict[str, str], options: Sequence[str]) -> Tuple[int, int]:
    """How many tests passed and failed. One that is left out has failed, and so have tests that don't run."""
    status, said, complaints = run(["go", "test", "-json", "-count=1", *options, "."], environment)
    events = [json.loads(line) for line in said.splitlines() if line.startswith("{")]
    ends = [event["Action"] for event in events if event.get("Test") and event["Action"] in ("pass", "fail", "skip")]
    passed = ends.count("pass")
    failed = len(ends) - passed
    if not failed and (status != 0 or not passed):
        failed = 1
    return tell("the tests", passed, failed, "".join(event.get("Output", "") for event in events) + complaints)


def shown_program(environment: Dict[str, str], folder: str) -> Tuple[int, int]:
    """The program of the page, with the socket of the server in the place of its own."""
    text = (FOLDER / "README.md").read_text(encoding="utf-8")
    found = re.search(r"^```go\n(.*?)^```$", text, re.DOTALL | re.MULTILINE)
    shown = found.group(1) if found else ""
    if '"/tmp/store.0"' not in shown:
        return tell("the program of the page", 0, 1, "it names no socket /tmp/store.0")
    module = Path(folder, "shown")
    module.mkdir()
    needs = f"module shown\n\ngo 1.19\n\nrequire storeclient v0.0.0\n\nreplace storeclient => {FOLDER}\n"
    (module / "go.mod").write_text(needs, encoding="utf-8")
    (module / "main.go").write_text(shown.replace("/tmp/store.0", environment["STORE_SOCKET"]), encoding="utf-8")
    formatted = run(["gofmt", "-l", "."], environment, module)
    came = formatted, run(["go", "vet", "."], environment, module)[0], run(["go", "run", "."], environment, module)
    return as_due("the program of the page", came, ((0, "", ""), 0, (0, "Hello\n4 Absent, true\n", "")))


def refused_example(name: str, environment: Dict[str, str], complaint: str) -> Tuple[int, int]:
    """An example that has no server says why in a line, and its status is 1."""
    status, said, complaints = run(["go", "run", f"./examples/{name}"], environment)
    # after the time; go adds a line of its own
    told = [line.split(" ", 2)[2].startswith(complaint) for line in complaints.splitlines()[:1]]
    return as_due(f"the example {name} is refused ({complaint.rstrip(': ')})", (status, said, told), (1, "", [True]))


def all_parts(server: Dict[str, str], folder: str) -> Tuple[int, int]:
    environment = environment_for(server, folder)
    counts = []
    for place in (FOLDER, DRIVER):
        counts.append(as_due(f"gofmt in {place.relative_to(ROOT)}", run(["gofmt", "-l", "."], environment, place), (0, "", "")))
        counts.append(as_due(f"vet in {place.relative_to(ROOT)}", run(["go", "vet", "./..."], environment, place), (0, "", "")))
    options = ["-race"] if finds_races(environment, folder) else []
    if not options:
        print("left out: the race detector, which doesn't work here", flush=True)
    counts.append(tested(environment, options))
    counts.append(shown_program(environment, folder))
    for name, printed in EXAMPLES.items():
        came = run(["go", "run", f"./examples/{name}"], environment)
        counts.append(as_due(f"the example {name}", came, (0, printed, "")))
        for variable, given, complaint in (("STORE_JOB", "", "STORE_JOB: "), ("STORE_KEY", "0" * 64, "1 NotAdmitted: ")):
            counts.append(refused_example(name, {**environment, variable: given}, complaint))
    return sum(passed for passed, _ in counts), sum(failed for _, failed in counts)


def main() -> int:
    return run_client_test("Go", "go", __doc__ or "", all_parts, sys.argv[1:])


if __name__ == "__main__":
    sys.exit(main())
