"""The run of bench/serve --now: one native load (load.c) by turns at the program of now, that of the last release, Redis and the floor.

- the program of now is that which operate/program finds, or another one that is named; the last release's is that of the newest archive in
  dist/ whose program is another one, unpacked into a temporary folder. Each has two servers: one of four nodes, and one that a flood
  goes to if it isn't to be at the first. Redis is one server that saves nothing.
- put and get as load.c has them, each command in a trip of its own, or all of them in one write; of Redis SET, which frees the value
  before, and GET, in a trip each.
- 16 commands in one write, of Usage, Get and Release in turn, each connection's of a job of its own.
- a neighbour: how long Get, Read and Release of another job's 1 KiB take while 32 sessions, of one job or of a job each, send such 16 commands
  again and again.

A round asks each of them for each figure, in groups of what is compared. Another one of a group begins in each round.
"""

from __future__ import annotations

import argparse
import contextlib
import datetime
import os
import shutil
import subprocess
import sys
import tempfile
from pathlib import Path
from typing import ContextManager, Dict, List, NamedTuple, Optional, Tuple

from store_release.faults import DistFault
from store_release.kept import Kept, newest_other, read_release
from store_release.proved import YES, file_of, is_about, read_proved
from store_release.sources import CRATES, git, known_tree_here
from store_testing import ROOT

from .now_table import (
    BEGIN, BURSTS, END, FLOOR, FRONT_BEGIN, FRONT_END, LAYOUTS, NODES, NOW, PLACES, REDIS, RELEASE, SESSIONS, Ask, Found, Made,
    front_text, text_of, turns, written,
)
from .serving_rows import KIB, MIB, PATIENCE, ROUNDS, Admitted, Told, compiled, floor, redis, serving, told_of

FIGURES, FRONT = ROOT / "bench/RESULTS.md", ROOT / "README.md"
# jobs from 1 on have a connection each; that of all sessions of a flood, and their neighbour
FLOODING, VICTIM = SESSIONS + 1, SESSIONS + 2
SMALL_WINDOW, WINDOW = 64 * KIB, MIB
# of a commit's name, those that are said
DIGITS = 8
# rounds and seconds of a trial
QUICK = (1, 0.05)


class Program(NamedTuple):
    path: Path
    text: str


# ---- the programs


def program_of_now(path: Path) -> Program:
    """The one that is measured, as the file beside it describes it, if that is about it."""
    version = subprocess.run([str(path.resolve()), "--version"], capture_output=True, text=True, check=True, timeout=PATIENCE).stdout.strip()
    note = file_of(path)
    told = read_proved(note.read_text(encoding="utf-8", errors="replace")) if note.is_file() else {}
    if not is_about(told, path.read_bytes()):
        return Program(path, f"{version}, of which nothing else is known")
    here = known_tree_here()
    whose = f"the {CRATES}/ of this commit" if here and told.get("sources") == here else f"the {CRATES}/ of commit {told.get('commit', '')[:DIGITS]}"
    return Program(path, f"{version} of {whose}, {proved_text(told)}")


def proved_text(told: Dict[str, str]) -> str:
    return "proved" if told.get("proved") == YES else "NOT proved"


def program_of_release(kept: Kept, folder: str) -> Program:
    """Unpacked."""
    path = Path(folder, f"store-{kept.version}")
    path.write_bytes(kept.program)
    path.chmod(0o700)
    return Program(path, f"release {kept.version} of commit {kept.told.get('commit', '')[:DIGITS]}, {proved_text(kept.told)}")


def kept_release(asked: argparse.Namespace) -> Optional[Kept]:
    return read_release(asked.release) if asked.release else newest_other(asked.program.read_bytes())


def commit_here() -> str:
    """With a word if something that is committed has changed since."""
    try:
        changed = git("status", "--porcelain", "--untracked-files=no")
        return git("rev-parse", "HEAD")[:DIGITS] + (" and changes" if changed else "")
    except DistFault:
        return "unknown"


def redis_version(program: str) -> str:
    said = subprocess.run([program, "--version"], capture_output=True, text=True, check=True, timeout=PATIENCE).stdout
    return next(word[2:] for word in said.split() if word.startswith("v="))


# ---- the servers


def jobs_of_connections() -> Dict[int, int]:
    """Windows of the jobs that have a connection each."""
    return {job: WINDOW if job <= max(LAYOUTS) else SMALL_WINDOW for job in range(1, 1 + max(*BURSTS, SESSIONS))}


def serving_here(program: Program, folder: str) -> ContextManager[None]:
    windows = {**jobs_of_connections(), FLOODING: SMALL_WINDOW, VICTIM: SMALL_WINDOW}
    admitted = [Admitted(0, job, window) for job, window in windows.items()]
    admitted += [Admitted(node, job, SMALL_WINDOW) for node in range(1, NODES) for job in range(1, 1 + max(LAYOUTS))]
    return serving([str(program.path.resolve())], folder, NODES, admitted)


def serving_elsewhere(program: Program, folder: str) -> ContextManager[None]:
    """What a flood goes to that isn't to be at the same server as the neighbour."""
    admitted = [Admitted(0, job, SMALL_WINDOW) for job in (*range(1, 1 + SESSIONS), FLOODING)]
    return serving([str(program.path.resolve())], folder, 1, admitted)


def folder_of(folder: str, place: str, elsewhere: bool = False) -> str:
    return f"{folder}/{place}{'-elsewhere' if elsewhere else ''}"


def clients_of(folder: str, place: str, ask: Ask) -> List[Tuple[str, int]]:
    """The sockets and the jobs of a load's connections."""
    here = folder_of(folder, place)
    if ask.jobs:
        there = f"{folder_of(folder, place, ask.elsewhere)}/store.0"
        flood = [(there, FLOODING if ask.jobs == 1 else 1 + client) for client in range(ask.connections)]
        return [(f"{here}/store.0", VICTIM), *flood]
    if place in (REDIS, FLOOR):
        path = f"{folder}/{'redis.0' if place == REDIS else 'floor'}"
        return [(path, 1 + client) for client in range(ask.connections)]
    return [(f"{here}/store.{client % ask.nodes}", 1 + client) for client in range(ask.connections)]


# ---- the run


def measure(load: str, folder: str, places: List[str], asked: argparse.Namespace) -> Found:
    """Who answers first is another one in each round."""
    groups = turns(places, asked.largest)
    found: Found = {turn: [] for group in groups for turn in group}
    for done in range(asked.rounds):
        print(f"serve: round {done + 1} of {asked.rounds}", file=sys.stderr, flush=True)
        for group in groups:
            first = done % len(group)
            for place, ask in group[first:] + group[:first]:
                # a get beside a flood may be a long one
                seconds = asked.seconds * (2 if ask.jobs else 1)
                found[place, ask].append(told_at(load, folder, place, ask, seconds))
    return found


def told_at(load: str, folder: str, place: str, ask: Ask, seconds: float) -> Told:
    try:
        return told_of(load, ask.word, ask.size, clients_of(folder, place, ask), seconds)
    except ValueError as fault:
        raise ValueError(f"{place}: {fault}") from fault


def run_now(compiler: str, asked: argparse.Namespace) -> None:
    """Measures all, prints it, and writes it if that is asked for."""
    asked.rounds = asked.rounds or ROUNDS
    kept, redis_program = kept_release(asked), shutil.which("redis-server")
    no_release, no_redis = "the last release: dist/ has none with another program", "Redis: there is no redis-server on the path"
    for there, text in ((kept, no_release), (redis_program, no_redis)):
        if not there:
            print(f"serve: LEFT OUT: {text}", file=sys.stderr, flush=True)
    with tempfile.TemporaryDirectory() as folder, contextlib.ExitStack() as servers:
        programs = {NOW: program_of_now(asked.program)}
        if kept:
            programs[RELEASE] = program_of_release(kept, folder)
        load = compiled(compiler, folder)
        before = os.getloadavg()[0]
        for place, program in programs.items():
            for elsewhere, start in ((False, serving_here), (True, serving_elsewhere)):
                its_folder = folder_of(folder, place, elsewhere)
                os.mkdir(its_folder)
                servers.enter_context(start(program, its_folder))
        servers.enter_context(floor(load, folder))
        if redis_program:
            servers.enter_context(redis(redis_program, folder, 1))
        places = [place for place in PLACES if place in programs or place == FLOOR or place == REDIS and redis_program]
        found = measure(load, folder, places, asked)
    made = Made(
        datetime.date.today().isoformat(), commit_here(), programs[NOW].text, programs[RELEASE].text if kept else "",
        redis_version(redis_program) if redis_program else "", os.cpu_count() or 1, before, os.getloadavg()[0], asked.rounds, asked.seconds,
    )
    text = text_of(made, found, asked.largest)
    print(text, flush=True)
    if asked.write:
        write(made, text)


def write(made: Made, text: str) -> None:
    """Into the page of figures, and of that onto the front page."""
    parts = ((FIGURES, f"{BEGIN}\n\n", f"\n\n{END}", text), (FRONT, FRONT_BEGIN, FRONT_END, front_text(made, text)))
    changed = [(page, written(page.read_text(encoding="utf-8"), begin, end, part)) for page, begin, end, part in parts]
    for page, new in changed:
        page.write_text(new, encoding="utf-8")
        print(f"serve: wrote into {page.relative_to(ROOT)}", file=sys.stderr)
