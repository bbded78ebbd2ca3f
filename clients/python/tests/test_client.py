#!/usr/bin/env python3
"""All tests of the client, or those of the files beside this that are named without their ending."""

import sys
from pathlib import Path

sys.path.insert(0, str(Path(__file__).resolve().parents[3] / "python"))

from launcher import launch  # noqa: E402

if __name__ == "__main__":
    launch("store_checks.unit_tests", "clients/python/tests")
