"""Measures what a journal costs a node: its steps against those of the node alone, a fold, and the memory of a full list.

A small program (bench/journal.program) is written as a crate into a temporary folder, beside a copy of the repository's crates,
and built by `rt try`, so nothing is proved and nothing has to be built before. `rt try` compiles with address checks, under which
no time means anything. So the module that it gives to LLVM is kept, and compiled once more without them; checks of indexes, sums
and unwraps stay in, of which a proved program has none. That takes some two minutes.

Then the program runs the same commands at a node (`Node::apply`) and at a journaled one (`Kept::step`), in turn, by its own clock:
the lives of objects of 16 bytes, each created, filled, sealed, held, read, released and deleted; and looks at what the job uses,
which are the cheapest step. A fold is that of a job with 1,024 copies: of one line, by `checkpoint`, and by the step that finds a full
list of 65,536 lines. The memory is how much the process grows until a list is full. Times are the best of several runs, and memory
the most.
"""

import argparse
import os
import platform
import shutil
import subprocess
import sys
import tempfile
import time
from pathlib import Path
from typing import Dict, Iterator, List, Tuple

from store_testing import ROOT

SOURCE = ROOT / "bench/journal.program"
CRATE = "journal_steps"
# what its program uses is what this crate uses, and the crate
USED = "node_journal"
TARGET = "x86_64-unknown-linux-gnu"
# short ones, so that the best of them is one that the machine let alone
RUNS = 40
TURNS = 10_000
# in a turn
COMMANDS = 7
COPIES = 1024
KINDS = {"life": "an object's life", "looks": "looks at what is used"}


def make_crates(folder: Path) -> Path:
    """Copies the crates, without what was built of them, and adds the program: its crate's folder."""
    shutil.copytree(ROOT / "crates", folder / "crates", ignore=shutil.ignore_patterns("out"))
    shutil.copy(ROOT / "HANDLES", folder)
    lines = (ROOT / "crates.txt").read_text().splitlines()
    below = next(line.partition(":")[2] for line in lines if line.startswith(f"{USED}:"))
    (folder / "crates.txt").write_text("\n".join([*lines, f"{CRATE}: {USED}{below}", ""]))
    crate = folder / "crates" / CRATE
    (crate / "src").mkdir(parents=True)
    shutil.copy(SOURCE, crate / "src/main.rt")
    # the root of the copy, also if the temporary folder lies in another repository
    subprocess.run(["git", "init", "-q", str(folder)], check=True)
    return crate


def build(folder: Path) -> Path:
    """The program, as `rt try` compiles it but for the address checks."""
    crate, work = make_crates(folder / "copy"), folder / "work"
    work.mkdir()
    trying = subprocess.Popen(
        ["rt", "try", "--", "node", "life", "1"], cwd=crate, env=os.environ | {"TMPDIR": str(work)},
        stdin=subprocess.DEVNULL, stdout=subprocess.DEVNULL, stderr=subprocess.PIPE, text=True,
    )
    modules = keep_modules(trying, work, folder)
    told = trying.communicate()[1]
    if trying.returncode != 0 or not modules:
        sys.exit(f"journal: rt try: status {trying.returncode}, {len(modules)} modules kept\n{told[-2000:]}")
    kit = Path(subprocess.run(["rt", "doc"], check=True, capture_output=True, text=True).stdout.strip()).parent
    program, made = folder / CRATE, folder / f"{CRATE}.o"
    module = max(modules, key=lambda path: path.stat().st_size)
    call(kit / "toolchain/bin/clang", "-O2", "-c", "-x", "ir", module, "-o", made)
    libraries = [kit / "c/libos_c.a", kit / "c/liblibc_c.a"]
    call(kit / "bin/rattle-link", "--target", TARGET, "--toolchain", kit / "toolchain", "-o", program, made, *libraries)
    return program


def keep_modules(trying: "subprocess.Popen[str]", work: Path, folder: Path) -> List[Path]:
    """Links to the modules that are written while `rt try` runs, which removes its own names of them."""
    kept: Dict[Path, Path] = {}
    while trying.poll() is None:
        for path in work.rglob("*.bc"):
            name = folder / f"{len(kept)}.bc"
            try:
                if path not in kept:
                    os.link(path, name)
                    kept[path] = name
            except FileNotFoundError:
                continue
        time.sleep(0.2)
    return list(kept.values())


def call(*words: object) -> None:
    done = subprocess.run([str(word) for word in words], capture_output=True, text=True, check=False)
    if done.returncode != 0:
        sys.exit(f"journal: {words[0]}: status {done.returncode}\n{done.stderr[-2000:]}")


def number(program: Path, *words: object) -> int:
    """What the program measures."""
    done = subprocess.run([str(program), *map(str, words)], capture_output=True, text=True, check=False)
    if done.returncode != 0 or not done.stdout.strip().isdigit():
        sys.exit(f"journal: {words}: status {done.returncode}, {done.stdout!r}, {done.stderr!r}")
    return int(done.stdout)


def rows(program: Path, asked: argparse.Namespace) -> Iterator[Tuple[str, ...]]:
    """What is measured, and how much it is."""
    for kind, name in KINDS.items():
        times: Dict[str, List[int]] = {"node": [], "kept": []}
        for _ in range(asked.runs):
            for what, taken in times.items():
                taken.append(number(program, what, kind, asked.turns))
        steps = {what: asked.turns * COMMANDS * 1e9 / min(taken) for what, taken in times.items()}
        yield f"{name}: steps a second, the node alone", f"{steps['node']:,.0f}", "1.00"
        yield f"{name}: steps a second, journaled", f"{steps['kept']:,.0f}", f"{steps['kept'] / steps['node']:.2f}"
    for what, name in {"fold": "a fold of one line", "full": "the step that folds a full list"}.items():
        least = min(number(program, what, "life", COPIES) for _ in range(asked.runs))
        yield f"{name}, at {COPIES:,} copies: milliseconds", f"{least / 1e6:.2f}", "-"
    for kind, name in KINDS.items():
        most = max(number(program, "list", kind, 0) for _ in range(asked.runs))
        yield f"{name}: MB of a full list", f"{most / 1e6:.1f}", "-"


def machine() -> str:
    commit = subprocess.run(["git", "-C", str(ROOT), "describe", "--always", "--dirty"], capture_output=True, text=True, check=False)
    model = [line.partition(": ")[2] for line in Path("/proc/cpuinfo").read_text().splitlines() if line.startswith("model name")]
    load = ", ".join(f"{load:.1f}" for load in os.getloadavg())
    return f"{(model or [platform.machine()])[0]}, {os.cpu_count()} processors, load {load}; commit {commit.stdout.strip() or 'unknown'}"


def main() -> None:
    options = argparse.ArgumentParser(description=__doc__, formatter_class=argparse.RawDescriptionHelpFormatter)
    options.add_argument("--runs", type=int, default=RUNS, help=f"runs of each row (default {RUNS})")
    options.add_argument("--turns", type=int, default=TURNS, help=f"how often the seven commands are run (default {TURNS:,})")
    options.add_argument("--keep", type=Path, metavar="FILE", help="keep the program that is built")
    options.add_argument("--program", type=Path, metavar="FILE", help="the program that was kept: nothing is built")
    asked = options.parse_args()
    with tempfile.TemporaryDirectory() as folder:
        program = asked.program or build(Path(folder))
        if asked.keep:
            shutil.copy(program, asked.keep)
        print(machine())
        print("| Measured | Number | Ratio |\n|---|---|---|")
        for row in rows(program.resolve(), asked):
            print("| " + " | ".join(row) + " |", flush=True)


if __name__ == "__main__":
    main()
