"""What the daemon counts of what it hears: the answers to its orders, and the device calls that the server says have failed."""

from __future__ import annotations

import re
from collections import Counter
from typing import Tuple

from .orders import ServerOrder, server_line

_REFUSED = re.compile(r"n[0-7] op refused ([0-9]+) ([A-Za-z]+)", re.ASCII)
_FAILED = re.compile(r"store: node ([0-9]+): job ([0-9]+): work [0-9]+: ([a-z]+) failed: ", re.ASCII)
_MORE = re.compile(r" \(and ([0-9]+) more since the last line\)$", re.ASCII)


class Counters:
    """Since the daemon started, over all runs of the server.

    Orders, and those that were carried out, are by their word; refusals by word, number and name; failed calls by node, job and call.
    `failed_unlisted` are those of which the server said only how many there were.
    """

    def __init__(self) -> None:
        self.orders: Counter[str] = Counter()
        self.done: Counter[str] = Counter()
        self.refusals: Counter[Tuple[str, int, str]] = Counter()
        self.failed_calls: Counter[Tuple[int, int, str]] = Counter()
        self.failed_unlisted = 0

    def answered(self, order: ServerOrder, answer: str) -> None:
        word = server_line(order).split(" ", 1)[0]
        self.orders[word] += 1
        refused = _REFUSED.fullmatch(answer)
        if refused:
            self.refusals[(word, int(refused[1]), refused[2])] += 1
        else:
            self.done[word] += 1

    def heard(self, line: str) -> None:
        failed = _FAILED.match(line)
        if failed:
            self.failed_calls[(int(failed[1]), int(failed[2]), failed[3])] += 1
            more = _MORE.search(line)
            self.failed_unlisted += int(more[1]) if more else 0
