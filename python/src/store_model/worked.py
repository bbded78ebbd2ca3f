"""Worked files, in which a line that comes many times may stand once."""

import re
from pathlib import Path

# `*TIMES FIRST TEXT`, after another line
_REPEATED = re.compile(r"(?<=\n)\*([0-9]+) ([0-9]+) ([^\n]*)\n")


def _lines(repeated: "re.Match[str]") -> str:
    times, first, text = int(repeated[1]), int(repeated[2]), repeated[3]
    return "".join(text.replace("*", str(first + turn), 1) + "\n" for turn in range(times))


def read_worked(path: Path) -> str:
    """The file's text with all of its lines. In place of the first `*` of a repeated line stands a number: FIRST, and then one more each time."""
    return _REPEATED.sub(_lines, path.read_bytes().decode("latin-1"))
