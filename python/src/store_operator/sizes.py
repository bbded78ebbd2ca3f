"""Numbers of bytes as people write them: 65536, 64K, 64M, 1G, 1T, in powers of 1,024."""

from __future__ import annotations

import re

_UNITS = {"": 0, "K": 10, "M": 20, "G": 30, "T": 40}
_SIZE = re.compile(r"([0-9]{1,20})([KMGT]?)(?:i?B)?", re.ASCII)


def parse_size(text: str) -> int:
    """The bytes that a text like `64M`, `64MiB` or `67108864` says. `ValueError` says what was expected."""
    found = _SIZE.fullmatch(text.strip())
    if not found:
        raise ValueError(f"{text!r} is no size: bytes, or a number with K, M, G or T, like 64M")
    return int(found[1]) << _UNITS[found[2]]


def size_text(count: int) -> str:
    """The bytes in the largest unit of which there is one at least: whole, or with one digit after the point."""
    for unit in ("T", "G", "M", "K"):
        size = 1 << _UNITS[unit]
        if count >= size:
            return f"{count // size}{unit}" if count % size == 0 else f"{count / size:.1f}{unit}"
    return str(count)


def many(count: int, what: str) -> str:
    """So many of what is counted: `1 node`, `2 nodes`."""
    return f"{count} {what}" if count == 1 else f"{count} {what}s"
