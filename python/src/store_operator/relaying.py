"""Lines that the server takes on its own control socket alone: they are given on a connection of their own."""

from __future__ import annotations

import asyncio
from pathlib import Path
from typing import List, Sequence

_LONGEST_ANSWER = 1 << 20
# of a server that has no such line
_NO_LINE = "not an order: the orders are "


class Unanswered(Exception):
    """A line that has no answer; the text says why."""


class TooLate(Unanswered):
    """No answer has come in time; what the line asks for may still be done."""


class NoSuchLine(Unanswered):
    """The server is older than the line."""


async def relay(path: Path, line: str, patience: float) -> str:
    """The answer to a line. `Unanswered` if none comes in so many seconds, or if the server has no such line."""
    return (await relay_all(path, [line], patience))[0]


async def relay_all(path: Path, lines: Sequence[str], patience: float) -> List[str]:
    """The answers to lines of one kind that are given together, in order; so many seconds are for all."""
    try:
        answers = await asyncio.wait_for(_ask(path, lines), patience)
    except asyncio.TimeoutError:
        raise TooLate(f"no answer for {patience:.3g} seconds") from None
    except (OSError, asyncio.IncompleteReadError, asyncio.LimitOverrunError) as error:
        raise Unanswered(f"the server's control socket: {getattr(error, 'strerror', None) or 'it ended before it answered'}") from error
    if any(_NO_LINE in answer for answer in answers):
        raise NoSuchLine(f"this server has no line {lines[0].split(' ')[0]}: its program is older than that")
    return answers


async def _ask(path: Path, lines: Sequence[str]) -> List[str]:
    reader, writer = await asyncio.open_unix_connection(str(path), limit=_LONGEST_ANSWER)
    try:
        writer.writelines(f"{line}\n".encode() for line in lines)
        return [(await reader.readuntil(b"\n"))[:-1].decode("utf-8", "replace") for _ in lines]
    finally:
        writer.close()
