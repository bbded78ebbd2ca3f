"""Memory that bytes are read into."""

from __future__ import annotations

import mmap

# from which length on large pages are worth their rounding, in bytes
_LARGE = 1 << 21


def blank(length: int) -> memoryview:
    """So many bytes of zeros, to be written once: of large pages if they are many.

    A bytearray would be filled with zeros first, and then each page of 4 KiB would be a fault of its own. The map is private: a
    shared one, which is what mmap makes by itself, is slower than a bytearray.
    """
    if length < _LARGE:
        return memoryview(bytearray(length))
    pages = mmap.mmap(-1, length, flags=mmap.MAP_PRIVATE | mmap.MAP_ANONYMOUS)
    if hasattr(mmap, "MADV_HUGEPAGE"):
        pages.madvise(mmap.MADV_HUGEPAGE)
    return memoryview(pages)
