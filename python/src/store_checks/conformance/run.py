"""The conformance kit: dialogues between clients and servers, byte by byte (see tests/conformance/README.md).

Plays each dialogue at the program that operate/program finds, and with each of the clients whose tools are here: in Python, Go, Rust
and C. Has each of the clients that know parts read what each has put in parts. Then it shows which wrong clients and wrong dialogues it
refuses. What is left out is said; the last line counts. To try another client, give its driver with --client, and with --without what the
driver can't be asked; to try another server, give the words that start it with --server.
"""

from __future__ import annotations

import argparse
import os
import shlex
import shutil
import subprocess
import sys
import tempfile
from functools import partial
from pathlib import Path
from typing import Callable, Dict, List, Optional

from store_testing import ROOT
from store_testing.program import program_or_end

from . import across, at_server, self_test, with_client
from .dialogue import Dialogue, Fault, all_dialogues
from .with_client import Client

HERE = ROOT / "tests/conformance"
C_CLIENT = ROOT / "clients/c"

# seconds for a build, on a machine that does much else
_BUILDS = 600


class Count:
    """What was tried, and what of it failed."""

    def __init__(self) -> None:
        self.passed = 0
        self.failed = 0

    def add(self, name: str, faults: List[str], tried: int) -> None:
        """A line for what was tried so often, and one for each fault."""
        self.passed += max(0, tried - len(faults))
        self.failed += len(faults)
        print(f"{'FAILED' if faults else 'passed'}: {name}: {max(0, tried - len(faults))} passed, {len(faults)} failed", flush=True)
        for fault in faults:
            print(f"  {fault}", flush=True)


def faults_of(plays: List[Callable[[], None]]) -> List[str]:
    """What was wrong with each play that failed."""
    faults = []
    for play in plays:
        try:
            play()
        except Fault as fault:
            faults.append(str(fault))
    return faults


def built(words: List[str], folder: Path, environment: Dict[str, str]) -> None:
    """Builds a driver. `Fault` if that fails."""
    done = subprocess.run(
        words, cwd=folder, env={**os.environ, **environment}, stdin=subprocess.DEVNULL, stdout=subprocess.PIPE, stderr=subprocess.STDOUT,
        text=True, timeout=_BUILDS, check=False,
    )
    if done.returncode:
        raise Fault(f"{' '.join(words)}: status {done.returncode}: {done.stdout[-2000:]}")


def go_client(folder: str) -> Client:
    environment = {"GOFLAGS": "-mod=mod", "GOPROXY": "off", "GO111MODULE": "on", "GOTOOLCHAIN": "local"}
    if not (os.environ.get("HOME") or os.environ.get("GOCACHE") or os.environ.get("XDG_CACHE_HOME")):
        environment["GOCACHE"] = f"{folder}/cache"
    built(["go", "build", "-o", f"{folder}/go_driver", "."], HERE / "drivers/go", environment)
    return Client("the client in Go", [f"{folder}/go_driver"], [])


def rust_client(folder: str) -> Client:
    built(["cargo", "build", "--offline", "--locked", "-j1"], HERE / "drivers/rust", {"CARGO_TARGET_DIR": f"{folder}/target"})
    return Client("the client in Rust", [f"{folder}/target/debug/driver"], [])


def c_client(folder: str) -> Client:
    sources = [str(C_CLIENT / "store_client.c"), str(HERE / "drivers/c/driver.c")]
    flags = ["-std=gnu11", "-O1", "-Wall", "-Wextra", "-Wconversion", "-Werror", f"-I{C_CLIENT}"]
    built(["gcc", *flags, "-o", f"{folder}/c_driver", *sources], HERE, {})
    return Client("the client in C", [f"{folder}/c_driver"], sorted(across.ASKED))


def clients_here(folder: str, count: Count) -> List[Client]:
    """The clients of this repository that can be run here."""
    clients = [Client("the client in Python", [sys.executable, "-B", str(HERE / "drivers/python")], [])]
    for tool, build in (("go", go_client), ("cargo", rust_client), ("gcc", c_client)):
        if shutil.which(tool) is None:
            print(f"left out: the client that wants {tool}", flush=True)
            continue
        try:
            clients.append(build(folder))
        except (Fault, subprocess.TimeoutExpired) as fault:
            count.add(f"the driver that wants {tool}", [str(fault)], 1)
    return clients


def try_client(client: Client, dialogues: List[Dialogue], count: Count) -> None:
    plays: List[Callable[[], None]] = []
    for dialogue in [one for one in dialogues if one.is_for_clients]:
        lacking = client.lacks(dialogue)
        if lacking:
            print(f"left out: {dialogue.name}, which asks {client.name} for {lacking}", flush=True)
        else:
            plays.append(partial(with_client.play, dialogue, client))
    count.add(f"dialogues with {client.name}", faults_of(plays) if plays else ["no dialogue is left"], max(1, len(plays)))


def try_server(words: List[str], dialogues: List[Dialogue], count: Count) -> None:
    plays: List[Callable[[], None]] = [partial(at_server.play, one, words) for one in dialogues if one.is_for_servers]
    count.add("dialogues at the server", faults_of(plays), len(plays))


def try_itself(words: List[str], dialogues: List[Dialogue], count: Count) -> None:
    """That the kit refuses what is wrong."""
    for_clients = [one for one in dialogues if one.is_for_clients]
    tried = sum(1 + len(list(self_test.wrong_plays(one))) for one in for_clients)
    count.add("wrong clients", self_test.clients(dialogues), tried)
    tried = sum(len(list(self_test.wrong_dialogues(one))) for one in dialogues if one.is_for_servers)
    count.add("wrong dialogues", self_test.servers(dialogues, words), tried)
    count.add("files that can't be read", self_test.files(), self_test.counted())
    count.add("the page", self_test.page(dialogues), 1)


def everything(dialogues: List[Dialogue], count: Count) -> None:
    words = [program_or_end()]
    try_server(words, dialogues, count)
    with tempfile.TemporaryDirectory() as folder:
        clients = clients_here(folder, count)
        for client in clients:
            try_client(client, dialogues, count)
        plays = across.plays(clients, words)
        count.add("parts across clients", faults_of(plays), len(plays))
    try_itself(words, dialogues, count)


def main(given: Optional[List[str]] = None) -> int:
    options = argparse.ArgumentParser(description=__doc__, formatter_class=argparse.RawDescriptionHelpFormatter)
    options.add_argument("--client", metavar="WORDS", help="try this driver alone")
    options.add_argument("--without", metavar="WORD,..", default="", help="what the driver can't be asked")
    options.add_argument("--server", metavar="WORDS", help="try the server alone that these words and `serve ..` start")
    options.add_argument("dialogues", nargs="*", metavar="DIALOGUE", help="otherwise all, with --client or --server")
    words = options.parse_args(given)
    known = all_dialogues()
    unknown = [name for name in words.dialogues if name not in known]
    if unknown or words.dialogues and not (words.client or words.server):
        options.error(f"there is no dialogue {unknown[0]}" if unknown else "dialogues are named with --client or --server")
    dialogues = [known[name] for name in words.dialogues or known]
    count = Count()
    if words.client:
        try_client(Client("the client", shlex.split(words.client), [one for one in words.without.split(",") if one]), dialogues, count)
    if words.server:
        try_server(shlex.split(words.server), dialogues, count)
    if not words.client and not words.server:
        everything(dialogues, count)
    print(f"{count.passed} passed, {count.failed} failed")
    return 1 if count.failed else 0


if __name__ == "__main__":
    sys.exit(main())
