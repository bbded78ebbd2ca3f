"""How parts of a test tell what they came to, in the lines that tests/all counts."""

from __future__ import annotations

from typing import Tuple

# of what a part said that failed, the lines that are shown
SHOWN = 40


def tell(name: str, passed: int, failed: int, said: str) -> Tuple[int, int]:
    """Prints what a part came to, and the end of what it said, if it failed. Both counts."""
    print(f"{'FAILED' if failed else 'passed'}: {name}: {passed} passed, {failed} failed", flush=True)
    if failed:
        print("\n".join(f"  {line}" for line in said.splitlines()[-SHOWN:]), flush=True)
    return passed, failed
