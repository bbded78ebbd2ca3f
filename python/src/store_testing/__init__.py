"""What tests and measurements share: the program that they take, servers and daemons that they start, the frames of a session, how they
wait, and how they count.

Nothing of it is in a release.
"""

from __future__ import annotations

from pathlib import Path

ROOT = Path(__file__).resolve().parents[3]
# seconds that an answer or an end may take, on a machine that does much else
PATIENCE = 100
