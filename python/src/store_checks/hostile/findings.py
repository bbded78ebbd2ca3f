"""What a trial measured, and the bounds that it has to keep."""

from __future__ import annotations

import statistics
import time
from typing import Callable, List, NamedTuple, Sequence

from .host import Attack, Figures, Host, attacked

# of what another job feels to what it feels while the same goes on at another server: in 99 of 100 calls, and in the longest
MOST_P99, MOST_LONGEST = 3.0, 5.0
# of the memory after a trial to that before; and what an allocator may keep in any case: glibc's has up to eight arenas a processor, for the
# threads of sessions, and keeps the last 128 KiB and more of each
MOST_MEMORY, ALLOCATORS_SHARE = 1.2, 8 << 20
# of a live job at a node, before it is folded: 8,192 lines, and room for a step
JOURNAL = 3 << 20


class Check(NamedTuple):
    """A figure that has to be at most so large; none if it only is to be seen."""

    what: str
    measured: float
    most: "float | None" = None

    @property
    def holds(self) -> bool:
        return self.most is None or self.measured <= self.most

    def text(self) -> str:
        bound = "" if self.most is None else f", at most {self.most:,.1f}"
        return f"  {'      ' if self.most is None else 'ok    ' if self.holds else 'BEYOND'}  {self.what}: {self.measured:,.1f}{bound}"


class Latencies(NamedTuple):
    """Of a call in a round, in milliseconds; and how many calls there were in a second."""

    p50: float
    p99: float
    longest: float
    rate: float


def felt(call: Callable[[], None], seconds: float) -> Latencies:
    """Calls one after the other for so long, three times at least."""
    times: List[float] = []
    end = time.monotonic() + seconds
    while time.monotonic() < end or len(times) < 3:
        began = time.perf_counter()
        call()
        times.append(1000 * (time.perf_counter() - began))
    times.sort()
    return Latencies(times[len(times) // 2], times[len(times) * 99 // 100], times[-1], len(times) / (sum(times) / 1000))


def middle(rounds: Sequence[Latencies]) -> Latencies:
    """Of each figure the median of the rounds."""
    return Latencies(*(statistics.median(figures) for figures in zip(*rounds)))


def compared(
    call: Callable[[], None], host: Host, other: Host, attack: Attack, attackers: int, rounds: int, seconds: float,
    most_p50: "float | None" = None,
) -> List[Check]:
    """What a call feels while a host is attacked, to what it feels while the same attack goes on at another one, by turns."""
    idle = felt(call, seconds)
    control: List[Latencies] = []
    under: List[Latencies] = []
    for _ in range(rounds):
        for place, found in ((other, control), (host, under)):
            with attacked(place, attack, attackers):
                found.append(felt(call, seconds))
    first, second = middle(control), middle(under)
    rows = (("idle", idle), ("control", first), ("attack", second))
    seen = [
        Check(f"{name}: p50 {each.p50:.3f} ms, p99 {each.p99:.3f} ms, longest {each.longest:.3f} ms; calls a second", each.rate)
        for name, each in rows
    ]
    return [
        *seen, Check("p50 to control", second.p50 / first.p50, most_p50),
        Check("p99 to control", second.p99 / first.p99, MOST_P99),
        Check("longest to control", second.longest / first.longest, MOST_LONGEST),
    ]


def given_back(host: Host, before: Figures, journals: int = 0) -> List[Check]:
    """That what the attackers took is back, once they have gone and after a while; but for so many journals of jobs that live."""
    now = host.settled(lambda now: all(new <= old for new, old in zip(now[1:4], before[1:4])))
    return [
        memory_back(before.resident, now.resident, journals),
        *(Check(f"{name}, {old} before", new, old) for name, old, new in zip(Figures._fields[1:4], before[1:4], now[1:4])),
        Check(f"spilled files, {before.files} before", now.files, before.files),
    ]


def memory_back(before: int, after: int, journals: int) -> Check:
    most = MOST_MEMORY * before + ALLOCATORS_SHARE + journals * JOURNAL
    return Check(f"MiB of memory, {before / 2**20:.1f} before", after / 2**20, most / 2**20)
