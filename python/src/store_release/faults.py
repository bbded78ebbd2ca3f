"""Why there is no release, and what other programs print for one."""

from __future__ import annotations

import subprocess
from pathlib import Path
from typing import Dict, Optional

ROOT = Path(__file__).resolve().parents[3]


class DistFault(Exception):
    """The text says why."""


def output(*words: str, names: Optional[Dict[str, str]] = None) -> bytes:
    """What a program prints that does its work, in the repository."""
    try:
        return subprocess.run(words, cwd=ROOT, capture_output=True, check=True, env=names).stdout
    except OSError as error:
        raise DistFault(f"{words[0]}: {error.strerror}") from error
    except subprocess.CalledProcessError as error:
        raise DistFault(f"{' '.join(words)}: {error.stderr.decode('utf-8', 'replace').strip()}") from error
