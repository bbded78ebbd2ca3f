"""What the system tells of a server's process and its sockets."""

from __future__ import annotations

import contextlib
import os
from pathlib import Path
from typing import Dict, List, NamedTuple, Sequence

# /proc/net/unix: the sixth field of a socket that is connected
_CONNECTED = "03"


class Process(NamedTuple):
    """Counts of a process, its resident memory in bytes, and the processor's seconds that it took; 0 of one that has ended."""

    threads: int
    descriptors: int
    resident: int
    processor: float


NO_PROCESS = Process(0, 0, 0, 0.0)


def look_at(process: int) -> Process:
    descriptors, fields, processor = 0, {}, 0.0
    with contextlib.suppress(OSError):
        descriptors = len(os.listdir(f"/proc/{process}/fd"))
        fields = _fields(Path(f"/proc/{process}/status").read_text(encoding="latin-1"))
        processor = _processor(Path(f"/proc/{process}/stat").read_text(encoding="latin-1"))
    resident = int(fields.get("VmRSS", "0 kB").split()[0]) * 1024
    return Process(int(fields.get("Threads", "0")), descriptors, resident, processor)


def _processor(stat: str) -> float:
    """Of a process's own and the system's work for it. The second field, its name, may hold anything."""
    own, system = stat.rpartition(")")[2].split()[11:13]
    return (int(own) + int(system)) / os.sysconf("SC_CLK_TCK")


def _fields(text: str) -> Dict[str, str]:
    return dict(line.split(":\t", 1) for line in text.splitlines() if ":\t" in line)


def count_sessions(sockets: Sequence[Path]) -> List[int]:
    """How many streams are open at each socket."""
    counts = {str(path): 0 for path in sockets}
    with contextlib.suppress(OSError):
        for line in Path("/proc/net/unix").read_text(encoding="utf-8", errors="replace").splitlines()[1:]:
            fields = line.split(None, 7)
            if len(fields) == 8 and fields[5] == _CONNECTED and fields[7] in counts:
                counts[fields[7]] += 1
    return list(counts.values())
