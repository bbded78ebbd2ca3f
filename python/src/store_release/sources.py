"""Which sources there are here: the tree of crates/, by git's name for it, and how many commits lie between two of them."""

from __future__ import annotations

import os
import re
import tempfile
from pathlib import Path
from typing import Dict, Optional

from .faults import ROOT, DistFault, output

CRATES = "crates"
_COMMIT = re.compile("[0-9a-f]{40,64}")


def is_repository() -> bool:
    """Whether this checkout has a repository of its own: git would look for one in the folders above."""
    return (ROOT / ".git").exists()


def git(*words: str, names: Optional[Dict[str, str]] = None) -> str:
    """What git prints of this repository. A fault if there is none."""
    if not is_repository():
        raise DistFault(f"{ROOT} is no git repository")
    return output("git", *words, names=names).decode().strip()


def committed_tree() -> str:
    """That of the last commit."""
    return git("rev-parse", f"HEAD:{CRATES}")


def tree_here() -> str:
    """That of the working copy, as a commit of it would have it. Nothing is written into the repository."""
    with tempfile.TemporaryDirectory(prefix="tree-") as folder:
        names = {
            **os.environ,
            "GIT_INDEX_FILE": f"{folder}/index",
            "GIT_OBJECT_DIRECTORY": f"{folder}/objects",
            "GIT_ALTERNATE_OBJECT_DIRECTORIES": str((ROOT / git("rev-parse", "--git-path", "objects")).absolute()),
        }
        Path(folder, "objects").mkdir()
        git("read-tree", "HEAD", names=names)
        git("add", "--all", "--", CRATES, names=names)
        return git("write-tree", f"--prefix={CRATES}/", names=names)


def known_tree_here() -> Optional[str]:
    """The same; None if git can't say."""
    try:
        return tree_here()
    except DistFault:
        return None


def commits_since(commit: str, *paths: str) -> Optional[int]:
    """How many commits there are after this one that change the paths, or any; None if git doesn't know the commit."""
    if not _COMMIT.fullmatch(commit):
        return None
    try:
        return int(git("rev-list", "--count", f"{commit}..HEAD", "--", *paths))
    except DistFault:
        return None
