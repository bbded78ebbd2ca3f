"""Trials of what a job can do to others within its rights, at a program that serves: how much another job feels it, as a ratio to what
it feels while the same goes on at another server in the same run, and whether memory, sessions, descriptors and files are back
afterwards. Each trial prints what it measured, and fails if a figure is beyond its bound; the last line counts the trials.

They aren't part of the gate: some may fail, and what fails is known by its figures. All together take about ten minutes. Give the
names of trials to run only these.
"""

from __future__ import annotations

import argparse
import signal
import sys
import time
from typing import List, Optional

import store_client
from store_testing.program import program_or_end

from .findings import Check
from .trials import ALL, Scale, Trial


def tried(name: str, trial: Trial, scale: Scale) -> bool:
    """Whether the trial's figures are all within their bounds."""
    began = time.monotonic()
    print(f"{name}: {(trial.__doc__ or '').strip()}", flush=True)
    fault = ""
    checks: List[Check] = []
    try:
        checks = trial(scale)
    except (AssertionError, OSError, store_client.StoreError) as error:
        fault = f"{type(error).__name__}: {error}"
    for check in checks:
        print(check.text())
    if fault:
        print(f"  FAULT   {fault}")
    passed = not fault and all(check.holds for check in checks)
    print(f"{'passed' if passed else 'FAILED'}: {name} ({time.monotonic() - began:.0f} s)\n", flush=True)
    return passed


def main(given: Optional[List[str]] = None) -> int:
    options = argparse.ArgumentParser(description=__doc__, formatter_class=argparse.RawDescriptionHelpFormatter)
    options.add_argument("--program", help="otherwise the one that operate/program finds")
    options.add_argument("--seconds", type=float, default=3.0, help="how long a round takes (3)")
    options.add_argument("--rounds", type=int, default=3, help="how many rounds there are, of which the median counts (3)")
    options.add_argument("--list", action="store_true", help="the names of the trials")
    options.add_argument("trial", nargs="*", choices=[[], *ALL], metavar="TRIAL", help="the trials; all otherwise")
    words = options.parse_args(given)
    if words.list:
        print("\n".join(ALL))
        return 0
    # so that servers and their folders go when it is cut short
    signal.signal(signal.SIGTERM, lambda *_: sys.exit(143))
    scale = Scale([words.program or program_or_end()], words.seconds, words.rounds)
    names = words.trial or list(ALL)
    failed = [name for name in names if not tried(name, ALL[name], scale)]
    if failed:
        print(f"beyond their bounds: {' '.join(failed)}")
    print(f"{len(names) - len(failed)} passed, {len(failed)} failed")
    return 1 if failed else 0


if __name__ == "__main__":
    sys.exit(main())
