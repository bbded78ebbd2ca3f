"""Packs files as a compressed archive, which tells of nothing but them. The same files give the same bytes."""

from __future__ import annotations

import gzip
import io
import tarfile
from pathlib import PurePosixPath
from typing import Mapping, Tuple

# of each path the bytes, and whether it is a program
Files = Mapping[str, Tuple[bytes, bool]]


def pack(files: Files, top: str, moment: int) -> bytes:
    """An archive of the files, which lie below the folder `top` and are of this time since 1970."""
    folders = sorted({str(parent) for name in files for parent in PurePosixPath(top, name).parents} - {"."})
    raw = io.BytesIO()
    with tarfile.open(fileobj=raw, mode="w", format=tarfile.USTAR_FORMAT) as tar:
        members = [(folder, tarfile.DIRTYPE, b"", 0o755) for folder in folders]
        members += [
            (f"{top}/{name}", tarfile.REGTYPE, data, 0o755 if is_program else 0o644) for name, (data, is_program) in files.items()
        ]
        for name, kind, data, mode in sorted(members):
            member = tarfile.TarInfo(name)
            member.type, member.size, member.mode, member.mtime = kind, len(data), mode, moment
            tar.addfile(member, io.BytesIO(data))
    packed = io.BytesIO()
    with gzip.GzipFile(filename="", fileobj=packed, mode="wb", compresslevel=9, mtime=0) as compressed:
        compressed.write(raw.getvalue())
    return packed.getvalue()
