"""What the system tells of a process, which has to be there."""

from __future__ import annotations

from pathlib import Path


def memory_of(process: int, most: bool = False) -> int:
    """The bytes that it has in memory, or the most that it has had."""
    wanted = "VmHWM:" if most else "VmRSS:"
    lines = Path(f"/proc/{process}/status").read_text(encoding="ascii").splitlines()
    found = [int(line.split()[1]) for line in lines if line.startswith(wanted)]
    assert found, f"process {process} has ended"
    return found[0] * 1024
