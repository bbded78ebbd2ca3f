"""Says whether the newest release in dist/ is of the crates/ that are here, with status 0; or how far they have parted, with status 1. With
status 2 there is no release, or git can't say it.
"""

from __future__ import annotations

import argparse
import sys
from typing import List, Optional, Tuple

from .faults import DistFault
from .kept import newest
from .sources import CRATES, commits_since, tree_here


def told() -> Tuple[bool, str]:
    """Whether a release is due, and the line that says it."""
    kept, here = newest(), tree_here()
    commit, there = kept.told.get("commit", "unknown"), kept.told.get("sources", "unknown")
    if there == here:
        return False, f"{kept.top}, of commit {commit}, is of the {CRATES}/ that are here: {here}"
    count = commits_since(commit, CRATES)
    since = "an unknown number of commits" if count is None else f"{count} commit{'' if count == 1 else 's'}"
    parted = f"{kept.top}, of commit {commit}, has the {CRATES}/ {there}, and here is {here}, {since} to {CRATES}/ later"
    return True, f"a release is due: {parted}"


def main(given: Optional[List[str]] = None) -> int:
    options = argparse.ArgumentParser(prog="release-due", description=__doc__, formatter_class=argparse.RawDescriptionHelpFormatter)
    options.parse_args(given)
    try:
        is_due, line = told()
    except DistFault as fault:
        print(f"release-due: {fault}", file=sys.stderr)
        return 2
    print(line)
    return 1 if is_due else 0
