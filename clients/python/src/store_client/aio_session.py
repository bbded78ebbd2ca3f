"""The stream of a session of asyncio's: frames go out in the order of the calls, and each reply goes to who waits for it."""

from __future__ import annotations

import asyncio
import collections
import contextlib
import dataclasses
import os
import struct
import time
from typing import Any, Deque, List, Optional, Sequence, Tuple

from .frames import LONGEST_REPLY, Reply
from .refusals import SERVER_GONE, ConnectionLost, Pending, ProtocolError, Refused, ServerSilent, StoreError, of_another_process
from .requests import Answer, Request, Requests, holds_after


class Session:
    """A connected stream, of one loop and one process."""

    def __init__(self, reader: asyncio.StreamReader, writer: asyncio.StreamWriter) -> None:
        self._reader, self._writer = reader, writer
        self._process = os.getpid()
        self._due: Deque[Tuple[Request[Any], asyncio.Future[Answer]]] = collections.deque()
        self._holds = 0
        self.loop = asyncio.get_running_loop()
        self.lost: Optional[str] = None
        self._is_silent = False
        self._listening = self.loop.create_task(self._listen())

    async def exchange(
        self, requests: Sequence[Request[Any]], end: Optional[float], last: Sequence[Request[Any]] = ()
    ) -> List[Answer]:
        """The answers to the requests, and to the last ones if the session holds nothing. If the server doesn't give them until then, the
        session is lost."""
        self.check_process()
        if self.lost is not None:
            raise ConnectionLost(self.lost)
        timer = None if end is None else self.loop.call_later(max(0.0, end - time.monotonic()), self._silence)
        try:
            return await self._exchange([*map(_let_go, requests), *last] if last and self._holds_nothing else requests)
        except ConnectionLost as error:
            if self._is_silent:
                raise ServerSilent(str(error)) from None
            raise
        finally:
            if timer:
                timer.cancel()

    @property
    def _holds_nothing(self) -> bool:
        """Also once all is answered that was sent."""
        return not self._holds and not any(request.due is Reply.GOT for request, _ in self._due)

    def check_process(self) -> None:
        """`ConnectionLost` in a process that was forked off."""
        if os.getpid() != self._process:
            raise of_another_process(self._process, os.getpid())

    def _silence(self) -> None:
        self._is_silent = self.lost is None
        self.end("the connection was lost: the server didn't answer in time")

    async def _exchange(self, requests: Sequence[Request[Any]]) -> List[Answer]:
        """All requests are sent before anything is waited for, so of a call that is cancelled it is known that all were."""
        answers = [self.send(request) for request in requests]
        try:
            return await asyncio.gather(*answers)
        except asyncio.CancelledError:
            for request, answer in zip(requests, answers):
                self._part_with(request, answer)
            raise

    def _part_with(self, request: Request[Any], answer: asyncio.Future[Answer]) -> None:
        """Who waited is cancelled. What comes from now on is undone as it comes, and what came here, unless the steps have heard of it."""
        if answer.done() and not answer.cancelled() and not answer.exception():
            if request.heard is None or isinstance(answer.result(), Refused):
                self._undo(request, answer.result())
        elif request.heard is not None and request.name == "release":
            # it is on its way, so it isn't sent again
            request.heard.append(None)

    def send(self, request: Request[Any]) -> asyncio.Future[Answer]:
        """Sends a whole frame. Who waits for its answer may be cancelled: the answer is read all the same."""
        answer: asyncio.Future[Answer] = self.loop.create_future()
        self._due.append((request, answer))
        self._writer.writelines(request.parts)
        return answer

    def _undo(self, request: Request[Any], answer: Answer, looks: int = 2) -> None:
        """Nobody takes the answer any more: a hold is given up, a copy deleted, and a fetch that found nothing taken away."""
        if self.lost is not None or request.id is None:
            return
        requests = Requests(request.job)
        if isinstance(answer, Pending) and request.name == "get" and looks:
            # a Get that is on its way already is told what came of the fetch, and takes it away
            if not any(due.id == request.id and due.name == "get" for due, _ in self._due):
                self._send_and_undo(requests.get(request.id), looks - 1)
        elif not isinstance(answer, Refused) and request.name == "get" and not request.is_let_go:
            self._send_and_undo(requests.release(request.id), 0)
        elif not isinstance(answer, Refused) and request.name == "create":
            self._send_and_undo(requests.delete(request.id), 0)

    def _send_and_undo(self, request: Request[Any], looks: int) -> None:
        def told(answer: asyncio.Future[Answer]) -> None:
            # a session that is lost has nothing to undo
            if not answer.cancelled() and not answer.exception():
                self._undo(request, answer.result(), looks)

        self.send(request).add_done_callback(told)

    async def _listen(self) -> None:
        try:
            while True:
                length, kind = struct.unpack(">IB", await self._reader.readexactly(5))
                if not 1 <= length <= LONGEST_REPLY or not self._due:
                    raise ProtocolError("what came is no frame")
                self._tell(kind, await self._reader.readexactly(length - 1))
        except (asyncio.IncompleteReadError, OSError):
            self.end(SERVER_GONE)
        except ProtocolError as error:
            self.end(f"the connection was given up: {error}", error)

    def _tell(self, kind: int, body: bytes) -> None:
        request, waiting = self._due[0]
        into = request.space_of(kind, len(body))
        # a call that was cancelled may go on only later, and isn't to undo once more what is undone here
        answer = request.answer(kind, body, is_awaited=not waiting.done())
        self._holds = holds_after(self._holds, [request], [answer])
        self._due.popleft()
        if waiting.done():
            self._undo(request, answer)
            return
        if into is not None:
            into[:] = body
        waiting.set_result(answer)

    def end(self, why: str, error: Optional[StoreError] = None) -> None:
        """Nothing is sent or read any more. Who waits is told why."""
        self.lost = self.lost or why
        for _, answer in self._due:
            if not answer.done():
                answer.set_exception(error or ConnectionLost(self.lost))
        self._due.clear()
        self._listening.cancel()
        # what is still to be sent isn't waited for
        self._writer.transport.abort()

    async def ended(self) -> None:
        with contextlib.suppress(OSError, asyncio.CancelledError):
            await self._listening
        with contextlib.suppress(OSError):
            await self._writer.wait_closed()


def _let_go(request: Request[Any]) -> Request[Any]:
    """The request, with a Release of what it gets after it."""
    return dataclasses.replace(request, is_let_go=request.due is Reply.GOT)
