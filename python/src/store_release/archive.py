"""Packs a release as an archive."""

from __future__ import annotations

from .contents import Files


def pack(files: Files, top: str, moment: int) -> bytes:
    """A compressed archive that tells of nothing but the files, which lie below the folder `top`, and this time since 1970."""
    from . import builder

    return builder.pack(files, top, moment)
