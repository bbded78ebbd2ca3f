#!/usr/bin/env python3
"""The cluster and each fault, in a few minutes: make cluster-test. The last line is 'N passed, M failed'.

STORE_CLUSTER_UNIT is the length of a part in bytes; values have one to eight of them. It needs Debian's python3-distributed and
python3-numpy, and says so if they aren't there. To run some of the tests, name them: test.py Sharing.test_65_readers Losses
"""

from __future__ import annotations

import faulthandler
import sys
import unittest
from pathlib import Path

import inside

# of all tests together, in seconds
LIMIT = 1500


def run(folder: Path) -> int:
    """Runs the tests, and counts them."""
    # not before, since it needs the packages
    import cases

    # if something hangs after all, it is told where
    faulthandler.dump_traceback_later(LIMIT - 10)
    cases.OfCluster.folder = folder
    chosen = unittest.defaultTestLoader.loadTestsFromNames(sys.argv[1:] or ["Sharing", "Losses"], cases)
    result = unittest.TextTestRunner(verbosity=2).run(chosen)
    for _, why in result.skipped:
        print(f"test.py: LEFT OUT: {why}")
    failed = len(result.failures) + len(result.errors)
    print(f"{max(0, result.testsRun - failed - len(result.skipped))} passed, {failed} failed")
    return 0 if result.wasSuccessful() else 1


if __name__ == "__main__":
    sys.exit(inside.main(run, LIMIT))
