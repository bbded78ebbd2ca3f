"""Runs a command, such as `make gate`, and prints what each crate took of it: minutes of a processor for its proof, its must-fail edits
and its tests, and when its proof was done. It looks at the checker's processes below the command every two seconds, so what takes less
isn't seen, and the last two seconds of what it sees aren't either. Only Linux has what it reads; elsewhere the command is run alone.

Its status is the command's. The table is printed after all that the command printed, before that command's last line, which stays the
last: whoever reads that line finds it where it was.
"""

from __future__ import annotations

import os
import signal
import subprocess
import sys
import time
from pathlib import Path
from typing import Dict, List, NamedTuple, Optional, Tuple

PAUSE = 2.0
TICK = os.sysconf("SC_CLK_TCK")
KINDS = ("proof", "edits", "tests")


class Seen(NamedTuple):
    """A process of the checker: of which crate, what for, the seconds that it took of a processor, and when it was seen last."""

    crate: str
    kind: str
    seconds: float
    last: float


class Process(NamedTuple):
    parent: int
    began: str
    seconds: float


def process(number: int) -> Process:
    """As /proc has it, without its children, which are looked at themselves."""
    fields = Path(f"/proc/{number}/stat").read_text(errors="replace").rsplit(")", 1)[1].split()
    return Process(int(fields[1]), fields[19], sum(map(int, fields[11:13])) / TICK)


def is_below(number: int, top: int) -> bool:
    while number > 1:
        if number == top:
            return True
        number = process(number).parent
    return False


def look(top: int, seen: Dict[Tuple[int, str], Seen], began: float) -> None:
    """Notes what the checker's processes below the top have taken."""
    for name in os.listdir("/proc"):
        if not name.isdigit():
            continue
        try:
            words = Path(f"/proc/{name}/cmdline").read_bytes().decode(errors="replace").split("\0")
            if "--crate-name" not in words or not words[0].endswith("/rattle"):
                continue
            one = process(int(name))
            key = int(name), one.began
            if key not in seen and not is_below(int(name), top):
                continue
            kind = kind_of(words, os.readlink(f"/proc/{name}/cwd"))
            crate = words[words.index("--crate-name") + 1]
            seen[key] = Seen(crate, kind, one.seconds, time.monotonic() - began)
        except (OSError, IndexError, ValueError):
            # it has ended meanwhile
            continue


def kind_of(words: List[str], folder: str) -> str:
    if "/rt-edit-" in folder:
        return "edits"
    return "tests" if "--test" in words else "proof"


def table(seen: Dict[Tuple[int, str], Seen]) -> str:
    """In the order in which the proofs were done."""
    crates: Dict[str, Dict[str, float]] = {}
    done: Dict[str, float] = {}
    for one in seen.values():
        minutes = crates.setdefault(one.crate, dict.fromkeys(KINDS, 0.0))
        minutes[one.kind] += one.seconds / 60
        if one.kind == "proof":
            done[one.crate] = max(done.get(one.crate, 0.0), one.last / 60)
    rows = ["| Crate | Proof | Edits | Tests | Proved after |", "|---|---|---|---|---|"]
    for crate in sorted(crates, key=lambda it: done.get(it, 0.0)):
        figures = " | ".join(f"{crates[crate][kind]:.1f}" if crates[crate][kind] else "" for kind in KINDS)
        rows.append(f"| `{crate}` | {figures} | {done.get(crate, 0.0):.0f} |")
    sums = " | ".join(f"{sum(minutes[kind] for minutes in crates.values()):.0f}" for kind in KINDS)
    return "\n".join([*rows, f"| all | {sums} | |"])


def run(command: List[str]) -> int:
    """Runs the command, and prints what it prints but for the last line, the table, and that line."""
    began = time.monotonic()
    seen: Dict[Tuple[int, str], Seen] = {}
    with subprocess.Popen(command, stdout=subprocess.PIPE) as child:
        signal.signal(signal.SIGTERM, lambda *_: child.terminate())
        last = pass_on(child, seen, began)
    if seen:
        print(f"minutes of a processor, {len(os.sched_getaffinity(0))} processors, {(time.monotonic() - began) / 60:.0f} minutes by the clock:")
        print(table(seen), flush=True)
    sys.stdout.buffer.write(last)
    sys.stdout.flush()
    return child.returncode if child.returncode >= 0 else 128 - child.returncode


def pass_on(child: "subprocess.Popen[bytes]", seen: Dict[Tuple[int, str], Seen], began: float) -> bytes:
    """Passes on what the child prints, but for the last line, which is given; looks meanwhile at what runs below it."""
    assert child.stdout is not None
    output = child.stdout.fileno()
    os.set_blocking(output, False)
    kept = b""
    while True:
        piece: Optional[bytes]
        try:
            piece = os.read(output, 1 << 16)
        except BlockingIOError:
            piece = None
        if piece == b"":
            return kept
        if piece is None:
            look(child.pid, seen, began)
            time.sleep(PAUSE)
            continue
        whole, kept = without_last(kept + piece)
        sys.stdout.buffer.write(whole)
        sys.stdout.flush()


def without_last(text: bytes) -> Tuple[bytes, bytes]:
    """The lines but for the last, and that."""
    cut = text.rstrip(b"\n").rfind(b"\n") + 1
    return text[:cut], text[cut:]


def main() -> int:
    if len(sys.argv) < 2 or sys.argv[1] in ("-h", "--help"):
        print(f"{__doc__}\nusage: {sys.argv[0]} COMMAND ..")
        return 0 if len(sys.argv) > 1 else 2
    return run(sys.argv[1:])


if __name__ == "__main__":
    sys.exit(main())
