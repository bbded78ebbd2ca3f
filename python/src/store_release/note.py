"""Writes down what is known of the built program, in the file beside it: its SHA-256, the commit, the crates/ that are here by git's name
for them, the toolchain, whether it was proved, and what the gate printed. So scripts know whether the program is of the sources that are
here, and make dist whether it may pack it.

A program is of the sources that were there when its build began: --tree prints their name then, and with --since NAME nothing is written
if others are here now.
"""

from __future__ import annotations

import argparse
import sys
from pathlib import Path
from typing import List, Optional

from .faults import DistFault
from .files import write_whole
from .program import BUILT, NOTE, is_program
from .proved import NO, YES, told_of
from .sources import CRATES, committed_tree, git, tree_here


def commit_here(tree: str) -> str:
    """The last commit, and that its crates/ are others if they are."""
    return git("rev-parse", "HEAD") + ("" if tree == committed_tree() else " and changes")


def note(is_proved: bool, gate: Optional[Path], since: Optional[str]) -> Path:
    """Writes the file, whose path it is. After a fault the file is as it was, and about the program only if that is as it was."""
    if not is_program(BUILT):
        raise DistFault(f"there is no program {BUILT}: make build leaves it there")
    tree = tree_here()
    if since is not None and since != tree:
        raise DistFault(f"{CRATES}/ changed while {BUILT} was built, from {since} to {tree}: it isn't noted; make build again")
    text = told_of(BUILT.read_bytes(), commit_here(tree), tree, is_proved, gate)
    if is_proved and "NOT PROVED" in text:
        raise DistFault(f"{gate} has a crate that is NOT PROVED, and so {BUILT} isn't proved")
    write_whole(NOTE, text.encode())
    return NOTE


def main(given: Optional[List[str]] = None) -> int:
    options = argparse.ArgumentParser(prog="note-program", description=__doc__, formatter_class=argparse.RawDescriptionHelpFormatter)
    options.add_argument("--gate", type=Path, metavar="FILE", help="what the gate printed")
    options.add_argument("--proved", choices=(YES, NO), default=NO, help="whether all of the program was proved (no)")
    options.add_argument("--tree", action="store_true", help="prints git's name of the crates/ that are here, and writes nothing")
    options.add_argument("--since", metavar="NAME", help="that name when the build began")
    words = options.parse_args(given)
    try:
        print(tree_here() if words.tree else note(words.proved == YES, words.gate, words.since))
    except (DistFault, OSError) as fault:
        print(f"note-program: {fault}", file=sys.stderr)
        return 2
    return 0
