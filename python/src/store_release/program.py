"""The program that scripts, examples, tests and targets of make take in this checkout: operate/program prints its path, and says on standard
error which one it is.

It is the one that STORE_PROGRAM names. Otherwise it is the built one, if the file beside it says that it is of the crates/ that are
here. Otherwise it is that of the newest release in dist/, unpacked into out/release/, whose sources may be others. SOURCES=exact in the
environment refuses those.
"""

from __future__ import annotations

import argparse
import enum
import errno
import os
import shutil
import sys
import tempfile
from pathlib import Path
from typing import NamedTuple, Optional

from .faults import ROOT, DistFault
from .kept import Kept, newest
from .proved import ENDING, PROVED, YES, is_about, read_proved
from .sources import CRATES, commits_since, known_tree_here

BUILT = ROOT / "crates/store_server/out/store_server"
# what is known of it
NOTE = Path(f"{BUILT}{ENDING}")
# releases, each in a folder with the first digits of its archive's checksum for a name
UNPACKED = ROOT / "out/release"
_DIGITS = 16
# of the environment: another program; and whether that of a release may be of other sources
_NAMED, _SOURCES, _EXACT = "STORE_PROGRAM", "SOURCES", "exact"
# of a release, what is unpacked
_NEEDED = ("bin/store", PROVED)


class Origin(enum.Enum):
    """Where a program comes from."""

    NAMED = "STORE_PROGRAM names it"
    BUILT = "it was built here"
    RELEASE = "it is that of a release"


class Found(NamedTuple):
    """A program, the line that says which one it is, and git's name of the tree of crates/ that it is of, if that is known."""

    path: Path
    origin: Origin
    line: str
    sources: Optional[str]


def program_path() -> str:
    """Finds the program, says which one it is on standard error, and names it to processes that are started from here on.

    Nothing is said of a program that is named already: who named it has said so, or knows.
    """
    found = find_program()
    if found.origin is not Origin.NAMED:
        print(f"program: {found.line}", file=sys.stderr, flush=True)
    os.environ[_NAMED] = str(found.path)
    return str(found.path)


def program_or_end() -> str:
    """The same for a script: if there is no program, that is said in one line, and the script ends."""
    try:
        return program_path()
    except DistFault as fault:
        print(f"{Path(sys.argv[0]).name}: {fault}", file=sys.stderr)
        sys.exit(2)


def find_program() -> Found:
    """The program. A fault if there is none, and if what would be taken is damaged."""
    named = os.environ.get(_NAMED)
    if named:
        return _named(Path(named).absolute())
    here = known_tree_here()
    try:
        return built_program(here)
    except DistFault as fault:
        doubt = str(fault)
    try:
        found = _of_release(here)
    except DistFault as fault:
        raise DistFault(f"{doubt}, and {fault}; make build takes some hours") from fault
    return found._replace(line=f"{found.line} ({doubt})") if BUILT.exists() else found


def find_release() -> Found:
    """The program of the newest release, also if one was built here."""
    return _of_release(known_tree_here())


def is_program(path: Path) -> bool:
    return path.is_file() and os.access(path, os.X_OK)


def built_program(tree: Optional[str]) -> Found:
    """The built program, if it is of this tree of crates/. The fault says why not."""
    if not is_program(BUILT):
        raise DistFault("no program was built")
    try:
        told = read_proved(NOTE.read_text(encoding="utf-8", errors="replace"))
        code = BUILT.read_bytes()
    except OSError as error:
        raise DistFault(f"nothing says of which sources {BUILT} is: make build does") from error
    if not is_about(told, code):
        raise DistFault(f"{BUILT} isn't the program that {NOTE.name} is about")
    if not tree:
        raise DistFault(f"git can't say whether {BUILT} is of the {CRATES}/ that are here")
    if told.get("sources") != tree:
        raise DistFault(f"{BUILT} is of other {CRATES}/ than those that are here")
    whether = "proved" if told.get("proved") == YES else "NOT proved"
    return Found(BUILT, Origin.BUILT, f"{BUILT}, which was built of the {CRATES}/ that are here, and {whether}", tree)


def _named(path: Path) -> Found:
    if not is_program(path):
        raise DistFault(f"{_NAMED} names {path}, and there is no file that can be executed")
    return Found(path, Origin.NAMED, f"{path}, which {_NAMED} names", None)


def _of_release(here: Optional[str]) -> Found:
    kept = newest()
    sources, line = kept.told.get("sources"), _described(kept, here)
    if os.environ.get(_SOURCES) == _EXACT and (not here or sources != here):
        raise DistFault(f"{_SOURCES}={_EXACT} refuses {line}: without it this one is taken")
    return Found(unpacked_program(kept), Origin.RELEASE, line, sources)


def _described(kept: Kept, here: Optional[str]) -> str:
    commit = kept.told.get("commit", "unknown")
    count = commits_since(commit)
    distance = "of an unknown distance" if count is None else f"{count} commit{'' if count == 1 else 's'} back"
    if not here:
        whose = f"and git can't say whether it is of the {CRATES}/ that are here"
    elif kept.told.get("sources") == here:
        whose = f"of the {CRATES}/ that are here"
    else:
        whose = f"NOT of the {CRATES}/ that are here"
    return f"that of the release {kept.top}, of commit {commit[:12]}, {distance}, {whose}"


def unpacked_program(kept: Kept) -> Path:
    """A release's program, which is unpacked if it isn't yet. What is unpacked has to have the archive's bytes."""
    folder = UNPACKED / kept.digest[:_DIGITS]
    try:
        if not folder.exists():
            _unpack(kept, folder)
        changed = [name for name in _NEEDED if (folder / name).read_bytes() != kept.files[name].data]
    except OSError as error:
        raise DistFault(f"{error.filename or folder}: {error.strerror}: {kept.path} can't be unpacked there") from error
    if changed or not is_program(folder / "bin/store"):
        raise DistFault(f"{folder} isn't as it was unpacked from {kept.path}: remove it")
    return folder / "bin/store"


def _unpack(kept: Kept, folder: Path) -> None:
    """For its owner alone. The folder is there at once or not at all."""
    folder.parent.mkdir(parents=True, exist_ok=True)
    part = Path(tempfile.mkdtemp(prefix=f"{folder.name}.", dir=folder.parent))
    try:
        for name in _NEEDED:
            (part / name).parent.mkdir(mode=0o700, exist_ok=True)
            (part / name).write_bytes(kept.files[name].data)
            (part / name).chmod(0o700 if kept.files[name].is_program else 0o600)
        part.rename(folder)
    except OSError as error:
        # another process may have been quicker
        if error.errno not in (errno.EEXIST, errno.ENOTEMPTY):
            raise
    finally:
        shutil.rmtree(part, ignore_errors=True)


def main() -> int:
    options = argparse.ArgumentParser(prog="program", description=__doc__, formatter_class=argparse.RawDescriptionHelpFormatter)
    options.parse_args()
    print(program_or_end())
    return 0
