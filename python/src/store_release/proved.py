"""What is known of a program: the file beside one that was built, and PROVED in a release, which has what that file had."""

from __future__ import annotations

import hashlib
import re
import shutil
from pathlib import Path
from typing import Dict, List, Optional

from .faults import DistFault, output

NOT_KNOWN = "not known"
YES, NO = "yes", "no"
# beside a program, after its name; and in a release
ENDING, PROVED = ".proved", "PROVED"
_HEAD = """\
What is known of the program that has this SHA-256: the commit at which it was built, or in a release that of the files beside it; git's
name of the tree of crates/ that it was built of; the toolchain that was there; whether all of it was proved; the last line that the
gate printed, and what the gate said of each crate. If it doesn't say that it was proved, nothing does.

"""
_SAID = re.compile(r"rt: (\w+)(: its tests)? (?:is |are )?(proved|NOT PROVED|kept)\b")
_COUNTED = re.compile(r"\d+ passed, \d+ failed\b")
_ROW = re.compile(r"^(program|commit|sources|toolchain|proved|gate) +(.+)$", re.MULTILINE)


def told_of(program: bytes, commit: str, sources: str, is_proved: bool, gate: Optional[Path]) -> str:
    """The text of the file beside a program; `gate` has what the gate printed."""
    toolchain = output("rt", "version").decode().splitlines()[0] if shutil.which("rt") else NOT_KNOWN
    lines = _lines(gate) if gate else []
    # what times it may have said more since
    said = next((line for line in reversed(lines) if _COUNTED.match(line)), NOT_KNOWN)
    rows = [
        ("program", f"sha256 {hashlib.sha256(program).hexdigest()}"), ("commit", commit), ("sources", sources),
        ("toolchain", toolchain), ("proved", YES if is_proved else NO), ("gate", said),
    ]
    text = "".join(f"{name:<10} {value}\n" for name, value in rows)
    return _HEAD + text + "".join(f"  {verdict}\n" for verdict in verdicts(lines))


def packed_in(text: str, commit: str) -> str:
    """The same in a release of the files of this commit."""
    return re.sub(r"^(commit +).+$", rf"\g<1>{commit}", text, count=1, flags=re.MULTILINE)


def read_proved(text: str) -> Dict[str, str]:
    """Its rows by name."""
    return dict(_ROW.findall(text))


def is_about(told: Dict[str, str], program: bytes) -> bool:
    return told.get("program") == f"sha256 {hashlib.sha256(program).hexdigest()}"


def file_of(program: Path) -> Path:
    """The file that says what is known of a program; nobody looked whether it is there."""
    above = program.parent.parent / PROVED
    return above if program.parent.name == "bin" and above.is_file() else program.with_name(f"{program.name}{ENDING}")


def _lines(gate: Path) -> List[str]:
    try:
        return gate.read_text(encoding="utf-8", errors="replace").split("\n")
    except OSError as error:
        raise DistFault(f"{gate}: {error.strerror}") from error


def verdicts(lines: List[str]) -> List[str]:
    """What the gate said of each crate and of its tests, by name, with the checker's own line if it stands before it."""
    found: Dict[str, str] = {}
    verdict = ""
    for line in lines:
        said = _SAID.match(line)
        if said:
            name = said[1] + (" (tests)" if said[2] else "")
            found[name] = f"{name}: {said[3]}{f': {verdict}' if verdict else ''}"
        if said or line.startswith("== "):
            verdict = ""
        elif line.startswith("logic="):
            verdict = line
    return [found[name] for name in sorted(found)]
