"""One run of `store serve`: its process, the lines that it is given, and its answers, which come in their order."""

from __future__ import annotations

import asyncio
import contextlib
import os
import signal
from collections import deque
from typing import AsyncIterator, Callable, Deque, List, Optional

from .notify import MANAGERS
from .settings import Settings
from .sockets import mask

# seconds that a server which was told to end may still take
_LAST_PATIENCE = 5.0
# How glibc is to give memory back: by itself it keeps freed blocks of up to 32 MiB, in as many arenas as there are threads. A journal's
# list, which has 15 MiB at its end, gets pages of its own from 1 MiB on, that grow in place and go back to the system with it.
_ALLOCATOR = {"MALLOC_ARENA_MAX": "4", "MALLOC_MMAP_THRESHOLD_": str(1 << 20), "MALLOC_TRIM_THRESHOLD_": str(1 << 20)}

# Beside a control socket the end of a server's input is no `close`. So this gives it one when the daemon has ended, however it did.
_GUARD = ("/bin/sh", "-c", "read -r nothing; echo close")

Said = Callable[[str], None]


class ServerEnded(Exception):
    """The server ended before it answered: whether the order was carried out isn't known."""


def command(settings: Settings) -> List[str]:
    """The words of the program's command line."""
    return [
        str(settings.program), "serve", "--socket", str(settings.starting()), "--nodes", str(settings.nodes),
        "--memory", str(settings.memory), "--spill", str(settings.spill), "--control", str(settings.server_control()),
        *(["--overcommit"] if settings.overcommit else []),
    ]


class Server:
    """A server that was started; `ended` is done once its process has ended and all that it said was read."""

    def __init__(self, process: asyncio.subprocess.Process, guard: Optional[asyncio.subprocess.Process], said: Said) -> None:
        self._process = process
        self._guard = guard
        self._said = said
        self._asked: Deque["asyncio.Future[str]"] = deque()
        self.ended: "asyncio.Task[int]" = asyncio.ensure_future(self._run())

    @classmethod
    async def start(cls, settings: Settings, lock: int, said: Said) -> "Server":
        """Starts a server, whose sockets have the mode of the settings from the start on; what it spills is its owner's alone by its own
        modes. What it says on standard error goes to `said`.

        A signal from the terminal doesn't reach it, nor does one end it that the daemon ignores: a write that is too large for a
        limit fails then. It holds the spill folder's lock. How its memory is given back can be set otherwise by the daemon's environment.
        """
        names = {**_ALLOCATOR, **{name: value for name, value in os.environ.items() if name not in MANAGERS}}
        pipe = asyncio.subprocess.PIPE
        process = await asyncio.create_subprocess_exec(
            *command(settings), stdin=pipe, stdout=pipe, stderr=pipe, env=names, umask=mask(settings.socket_mode), start_new_session=True,
            restore_signals=False, pass_fds=(lock,),
        )
        try:
            return cls(process, await _guard(process), said)
        except OSError:
            # nobody would end it
            process.kill()
            await process.wait()
            raise

    @property
    def process_id(self) -> int:
        return self._process.pid

    def ask(self, line: str) -> "asyncio.Future[str]":
        """Gives the server a line. Its answer comes, or `ServerEnded`, also if nobody waits any more."""
        answer: "asyncio.Future[str]" = asyncio.get_running_loop().create_future()
        # who asked may have gone
        answer.add_done_callback(lambda done: done.cancelled() or done.exception())
        if self.ended.done() or self._process.stdin is None or self._process.stdin.is_closing():
            answer.set_exception(ServerEnded())
            return answer
        self._asked.append(answer)
        self._process.stdin.write(f"{line}\n".encode())
        return answer

    def close(self) -> "asyncio.Future[str]":
        """Gives the last line, to which the report is the answer."""
        report = self.ask("close")
        if self._process.stdin is not None:
            self._process.stdin.close()
        return report

    async def terminate(self) -> None:
        """Ends the process, and waits for its end."""
        for number in (signal.SIGTERM, signal.SIGKILL):
            if not self.ended.done():
                with contextlib.suppress(ProcessLookupError):
                    self._process.send_signal(number)
                await asyncio.wait({self.ended}, timeout=_LAST_PATIENCE)
        await self.ended

    async def _run(self) -> int:
        """Reads until the server ends. Its status, or less than 0 for the signal that ended it."""
        await asyncio.gather(self._answers(), self._complaints())
        status = await self._process.wait()
        await self._dismiss_guard()
        while self._asked:
            self._settle(self._asked.popleft(), None)
        return status

    async def _answers(self) -> None:
        async for line in _lines(self._process.stdout):
            if not self._asked:
                self._said(f"not asked for: {line}")
                continue
            self._settle(self._asked.popleft(), line)

    async def _complaints(self) -> None:
        async for line in _lines(self._process.stderr):
            self._said(line)

    async def _dismiss_guard(self) -> None:
        """It has nobody to tell any more."""
        if self._guard is not None and self._guard.stdin is not None:
            self._guard.stdin.close()
            await self._guard.wait()

    @staticmethod
    def _settle(answer: "asyncio.Future[str]", line: Optional[str]) -> None:
        if answer.done():
            return
        if line is None:
            answer.set_exception(ServerEnded())
        else:
            answer.set_result(line)


async def _guard(server: asyncio.subprocess.Process) -> Optional[asyncio.subprocess.Process]:
    """Waits for the end of the daemon, which alone has the other end of its standard input. None if the server has ended by then."""
    assert server.stdin is not None
    try:
        lines = server.stdin.get_extra_info("pipe").fileno()
    except ValueError:
        return None
    quiet = asyncio.subprocess.DEVNULL
    return await asyncio.create_subprocess_exec(*_GUARD, stdin=asyncio.subprocess.PIPE, stdout=lines, stderr=quiet, start_new_session=True)


async def _lines(stream: Optional[asyncio.StreamReader]) -> AsyncIterator[str]:
    """Until the stream ends. A line without end is none of the server's, and is left out."""
    assert stream is not None
    while True:
        try:
            line = await stream.readline()
        except ValueError:
            continue
        if not line:
            return
        yield line.decode("utf-8", "replace").rstrip("\n")
