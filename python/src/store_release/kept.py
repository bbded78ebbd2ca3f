"""The release that the repository keeps in dist/, and the program in it."""

from __future__ import annotations

import hashlib
import tarfile
import zlib
from pathlib import Path
from typing import Dict, List, NamedTuple, Optional, Tuple

from .contents import Files
from .debian import unpacked
from .faults import ROOT, DistFault
from .proved import PROVED, is_about, read_proved

PLACE = ROOT / "dist"
ENDING = ".tar.gz"
_NAMES = f"store-*-x86_64-linux{ENDING}"


class Kept(NamedTuple):
    """A release: its archive, the SHA-256 of that, what it says of its program by name, and its files."""

    path: Path
    digest: str
    told: Dict[str, str]
    files: Files

    @property
    def program(self) -> bytes:
        return self.files["bin/store"].data

    @property
    def top(self) -> str:
        """The name of the folder that it is unpacked to."""
        return self.path.name[: -len(ENDING)]

    @property
    def version(self) -> str:
        return self.path.name.split("-")[1]


def newest() -> Kept:
    """That of the greatest version, whose bytes are those that its checksums say."""
    found = _by_version(PLACE)
    if not found:
        raise DistFault(f"there is no release in {PLACE}")
    return read_release(found[-1])


def newest_other(program: bytes, place: Path = PLACE) -> Optional[Kept]:
    """That of the greatest version whose program is another than this one, if there is one."""
    for path in reversed(_by_version(place)):
        kept = read_release(path)
        if kept.program != program:
            return kept
    return None


def read_release(path: Path) -> Kept:
    """That of an archive, compared with the checksum beside it."""
    try:
        archive = path.read_bytes()
    except OSError as error:
        raise DistFault(f"{path}: {error.strerror}") from error
    digest = _noted(path)
    _compare(path, archive, digest)
    try:
        files = unpacked(archive)
        told = read_proved(files[PROVED].data.decode())
        if not is_about(told, files["bin/store"].data):
            raise DistFault(f"{path}: its {PROVED} is about another program")
    except (tarfile.TarError, zlib.error, OSError, EOFError, KeyError, UnicodeDecodeError) as error:
        raise DistFault(f"{path}: no release: {' '.join(str(error).split())}") from error
    return Kept(path, digest, told, files)


def _by_version(place: Path) -> List[Path]:
    return sorted(place.glob(_NAMES), key=_version)


def _version(path: Path) -> Tuple[List[int], str]:
    words = path.name.split("-")[1].split(".")
    return [int(word) if word.isdigit() else 0 for word in words], path.name


def _noted(path: Path) -> str:
    note = path.with_name(f"{path.name}.sha256")
    try:
        return note.read_text(encoding="ascii").partition(" ")[0]
    except (OSError, UnicodeDecodeError) as error:
        raise DistFault(f"{note}: {getattr(error, 'strerror', None) or 'no checksum'}") from error


def _compare(path: Path, data: bytes, noted: str) -> None:
    digest = hashlib.sha256(data).hexdigest()
    if digest != noted:
        raise DistFault(f"{path}: its sha256 is {digest}, and {noted} was noted")
