"""Makes a release: dist/store-VERSION-x86_64-linux.tar.gz, with the built program and the last commit's files beside it, and beside the
archive two wheels: the client's, and one that has the program.

The program is the built one, or the one that STORE_PROGRAM names, if the file beside it says that it was proved, and that it is of the
crates/ of the last commit. All else comes from the commit, whatever the working copy has. One commit and one program give the same
bytes each time. PROVED in the release says what that file says.

With --deb a Debian package of the same files is made in its place. If there is no such program, and none is named, the package has the
files of the release that is kept in dist/.
"""

from __future__ import annotations

import argparse
import contextlib
import hashlib
import os
import sys
import tarfile
from pathlib import Path
from typing import Dict, List, Optional, Tuple

from .archive import pack
from .contents import commit_time, contents
from .debian import NAME, pack_deb
from .faults import ROOT, DistFault, output
from .files import write_whole
from .kept import ENDING, Kept, newest
from .program import BUILT, Found, Origin, find_program, is_program
from .proved import YES, file_of, is_about, packed_in, read_proved
from .sources import CRATES, committed_tree, git, is_repository
from .wheels import wheels

VERSION_SOURCE = "crates/schedule_runs/src/command_line.rt"
CLIENT_VERSION_SOURCE = "clients/python/src/store_client/__init__.py"
# files by their names
Made = Dict[str, bytes]


def known(program: Path) -> Tuple[bytes, str]:
    """A program and what is known of it. A fault if that isn't enough for a release of the last commit."""
    if not is_program(program):
        raise DistFault(f"there is no program {program}, no file that can be executed: make build leaves one at {BUILT}")
    file, code = file_of(program), program.read_bytes()
    try:
        text = file.read_text(encoding="utf-8", errors="replace")
    except OSError as error:
        doubt = f"nothing says of which sources {program} is: {file}: {error.strerror}"
        raise DistFault(f"{doubt}; make build leaves a program with such a file") from error
    told, there = read_proved(text), committed_tree()
    if not is_about(told, code):
        raise DistFault(f"{file} is about another program than {program}, which was changed since: make build makes both anew")
    if told.get("proved") != YES:
        raise DistFault(f"{file} doesn't say that {program} was proved: make build proves it")
    if told.get("sources") != there:
        doubt = f"{program} is of the {CRATES}/ {told.get('sources')}, and the last commit has {there}"
        raise DistFault(f"{doubt}: commit those, or make build again")
    return code, text


def version_of(program: Path) -> str:
    said = output(str(program), "--version").decode("utf-8", "replace").split()
    if len(said) != 2 or said[0] != "store":
        raise DistFault(f"{program} --version doesn't say which store it is: {' '.join(said)!r}")
    return said[1]


def release(program: Path, as_package: bool) -> Made:
    """A release of the last commit, as an archive or as a package."""
    code, text = known(program)
    if not code.startswith(b"\x7fELF"):
        print(f"dist: warning: {program} is no ELF file: it may run on this machine alone", file=sys.stderr)
    version, moment = version_of(program), commit_time()
    top = f"store-{version}-x86_64-linux"
    files = contents(code, packed_in(text, git("rev-parse", "HEAD")))
    archive = pack(files, top, moment)
    return package(archive, version, moment) if as_package else {f"{top}{ENDING}": archive, **dict(wheels(files, version))}


def package(archive: bytes, version: str, moment: int) -> Made:
    return {f"{NAME}_{version}_amd64.deb": pack_deb(archive, version, moment)}


def package_of_kept(kept: Kept) -> Made:
    """The package of a release that is kept."""
    with tarfile.open(kept.path) as tar:
        moment = max(int(member.mtime) for member in tar)
    return package(kept.path.read_bytes(), kept.path.name.split("-")[1], moment)


def kept_with(found: Found) -> Optional[Kept]:
    """The newest release, if the program that was found is its program and wasn't built here."""
    if found.origin is Origin.BUILT:
        return None
    with contextlib.suppress(DistFault):
        kept = newest()
        return kept if kept.program == found.path.read_bytes() else None
    return None


def make(as_package: bool) -> Made:
    if not as_package:
        return release(Path(os.environ.get("STORE_PROGRAM") or BUILT).absolute(), False)
    found = find_program()
    kept = kept_with(found)
    if not kept:
        return release(found.path, True)
    print(f"dist: the package has {found.line}", file=sys.stderr)
    return package_of_kept(kept)


def write(folder: Path, made: Made) -> List[Path]:
    """Each file, and one with its checksum beside it. Nothing is written if one is kept in the repository with other bytes."""
    for name, data in made.items():
        path = folder / name
        if _is_kept(path) and not (path.is_file() and path.read_bytes() == data):
            raise DistFault(f"{path} is kept in the repository with other bytes: the version in {_version_source(name)} has to rise")
    folder.mkdir(parents=True, exist_ok=True)
    for name, data in made.items():
        write_whole(folder / name, data)
        write_whole(folder / f"{name}.sha256", f"{hashlib.sha256(data).hexdigest()}  {name}\n".encode())
    return [folder / name for name in made]


def _version_source(name: str) -> str:
    """Where the version stands that is in this name."""
    return CLIENT_VERSION_SOURCE if name.startswith("store_client") else VERSION_SOURCE


def _is_kept(path: Path) -> bool:
    there = path.parent.resolve() / path.name
    return ROOT in there.parents and is_repository() and bool(git("ls-files", "--", str(there)))


def main(given: Optional[List[str]] = None) -> int:
    options = argparse.ArgumentParser(prog="dist", description=__doc__, formatter_class=argparse.RawDescriptionHelpFormatter)
    options.add_argument("-o", "--output", type=Path, default=ROOT / "dist", metavar="FOLDER", help="otherwise dist")
    options.add_argument("--deb", action="store_true", help="a Debian package")
    words = options.parse_args(given)
    try:
        paths = write(words.output, make(words.deb))
    except (DistFault, OSError) as fault:
        print(f"dist: {fault}", file=sys.stderr)
        return 2
    print("\n".join(str(path) for path in paths))
    return 0
