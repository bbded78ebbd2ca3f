"""What the operator is told when the server refuses an order."""

from __future__ import annotations

import re
from typing import Dict

# by the name in the server's answer; a session is told more, and other things
_MEANINGS: Dict[str, str] = {
    "NotAdmitted": "no such job lives at this node",
    "BadId": "a job's number is 1 to 4294967295",
    "Exists": "this number or a greater one was admitted before; numbers rise until the server starts again",
    "BadSize": "a window is 16 to 256M and a multiple of 16, a device quota 0 to 1T",
    "Full": "what the job has there doesn't fit",
    "NoMemory": "out of memory; nothing has changed",
    "NoRoom": "no place for the window in the node's memory, or 64 jobs live there",
}
_REFUSED = re.compile(r"n[0-7] op refused [0-9]+ ([A-Za-z]+)", re.ASCII)


def explained(answer: str) -> str:
    """The server's answer, and after a refusal what it means."""
    refused = _REFUSED.fullmatch(answer)
    meaning = _MEANINGS.get(refused[1]) if refused else None
    return f"{answer}: {meaning}" if meaning else answer
