"""The unit tests of a folder, those in its test_*.py, without pytest. The last line counts them, and those before it name what failed.

Of modules that are named, without their ending, the others are left out; so of classes and of tests in them.
"""

from __future__ import annotations

import argparse
import faulthandler
import os
import signal
import sys
import unittest
from pathlib import Path

from store_testing import ROOT

# seconds that all tests together may take
PATIENCE_FOR_ALL = int(os.environ.get("STORE_PATIENCE_FOR_ALL", "1700"))


def main() -> int:
    options = argparse.ArgumentParser(description=__doc__, formatter_class=argparse.RawDescriptionHelpFormatter)
    options.add_argument("folder", type=Path, help="from the top of the repository")
    options.add_argument("names", nargs="*", metavar="NAME", help="otherwise all")
    words = options.parse_args()
    folder = ROOT / words.folder
    # if something hangs after all, it is told where
    faulthandler.dump_traceback_later(PATIENCE_FOR_ALL, exit=True)
    # so that what was started goes when the tests are cut short
    signal.signal(signal.SIGTERM, signal.default_int_handler)
    # what is forked off isn't to miss it: a handler isn't called before a wait for a lock has ended, if the signal came just before the wait
    os.register_at_fork(after_in_child=lambda: signal.signal(signal.SIGTERM, signal.SIG_DFL))
    # what a shell runs in the background ignores Ctrl-C by itself, and so would the processes that are started here
    signal.signal(signal.SIGINT, signal.default_int_handler)
    # nor have these to ignore the end of a terminal, which nohup has us ignore
    for number in (signal.SIGHUP, signal.SIGQUIT):
        if signal.getsignal(number) is signal.SIG_IGN:
            signal.signal(number, lambda *_: None)
    sys.path.insert(0, str(folder))
    names = words.names or sorted(path.stem for path in folder.glob("test_*.py"))
    result = unittest.TextTestRunner().run(unittest.defaultTestLoader.loadTestsFromNames(names))
    failed = len(result.failures) + len(result.errors)
    for test, why in result.skipped:
        print(f"not run: {test}: {why}")
    for test, trace in (*result.failures, *result.errors):
        # once more, in a line: what is kept of a log may begin after the traces
        print(f"failed: {test.id()}: {trace.strip().splitlines()[-1]}")
    print(f"{max(0, result.testsRun - failed - len(result.skipped))} passed, {failed} failed")
    return 0 if result.wasSuccessful() else 1


if __name__ == "__main__":
    sys.exit(main())
