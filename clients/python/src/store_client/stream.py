"""The blocking end of a session: bursts of requests over a Unix socket, within a deadline."""

from __future__ import annotations

import contextlib
import errno
import select
import socket
import struct
import time
from typing import Any, Callable, List, Optional, Sequence

from .frames import LONGEST_REPLY, Reply, head
from .refusals import SERVER_GONE, ConnectionLost, ProtocolError, ServerSilent
from .requests import Answer, Repeated, Request

# how many views one system call is given
_MOST_VIEWS = 64
# how much is read before it is known what it is, in bytes
_READ_AHEAD = 4096
# of a reply, before its body, in bytes
_HEAD = 5
# so many heads and bodies one system call may fill: a socket has three or four of the longest replies ready
_MOST_SPACES = 16
# in seconds
_LONGEST_POLL = 3600.0
# between two tries to connect to a server whose queue is full, in seconds
_QUEUE_PAUSE = 0.01
_SILENT = "the connection was lost: the server didn't answer in time"

# fills spaces with what has come, and says how many bytes that is
Receive = Callable[[Sequence[memoryview]], int]


class Stream:
    """A connected socket. What it waits for it waits for until a deadline."""

    def __init__(self, path: str, end: Optional[float]) -> None:
        """Connects until this moment of the monotonic clock. `ConnectionLost`, `ServerSilent`."""
        self._socket = socket.socket(socket.AF_UNIX)
        self._socket.setblocking(False)
        self._replies = _Replies()
        try:
            self._connect(path, end)
        except BaseException:
            self._socket.close()
            raise

    def _connect(self, path: str, end: Optional[float]) -> None:
        while True:
            try:
                return self._socket.connect(path)
            except BlockingIOError:
                if end is not None and time.monotonic() >= end:
                    raise ServerSilent(f"{path}: the server took no connection in time") from None
                time.sleep(_QUEUE_PAUSE)
            except (OSError, ValueError) as error:
                raise ConnectionLost(f"{path}: {getattr(error, 'strerror', None) or error}") from error

    def exchange(self, requests: Sequence[Request[Any]], end: Optional[float]) -> List[Answer]:
        """Sends the requests, and reads their answers meanwhile: a server that can't write an answer reads no further request."""
        if isinstance(requests, Repeated) and requests.refusals:
            return self._exchange_again(requests, end)
        unsent = [view for request in requests for view in request.parts]
        unsent.reverse()
        answers = self._exchange(unsent, requests, end)
        if isinstance(requests, Repeated):
            requests.note(answers)
        return answers

    def _exchange_again(self, requests: Repeated, end: Optional[float]) -> List[Answer]:
        """The same of what was refused the last time. That it is refused so again is known by the bytes, and nothing is made of them."""
        unsent: List[Any] = [requests.frames]
        self._socket.setblocking(False)
        if self._send(unsent) and not unsent and self._are_refused_so(requests.refusals, end):
            return requests.answers
        answers = self._exchange(unsent, requests, end)
        requests.note(answers)
        return answers

    def _are_refused_so(self, refusals: bytes, end: Optional[float]) -> bool:
        return self._replies.are(refusals, lambda spaces: self._await_and_receive(spaces, end))

    def _exchange(self, unsent: List[Any], requests: Sequence[Request[Any]], end: Optional[float]) -> List[Answer]:
        """Sends what is unsent of the requests, the last view of the list first, and reads their answers."""
        answers: List[Answer] = []
        self._socket.setblocking(False)
        while unsent and len(answers) < len(requests):
            sent = self._send(unsent)
            received = self._replies.receive(self._receive, requests, answers)
            if not sent and not received:
                self._await(True, end)
        while len(answers) < len(requests):
            self._replies.receive(lambda spaces: self._await_and_receive(spaces, end), requests, answers)
        if self._replies.has_more:
            # it would be taken for the answer to the next request
            raise ProtocolError("more came than was asked for")
        return answers

    def _send(self, unsent: List[Any]) -> bool:
        """Sends as many of the views as the socket takes, the last one of the list first. Whether it took any."""
        if not unsent:
            return False
        try:
            count = self._socket.sendmsg(unsent[: -_MOST_VIEWS - 1 : -1], [], socket.MSG_NOSIGNAL)
        except BlockingIOError:
            return False
        except OSError as error:
            # the server may have said why before it closed
            if error.errno in (errno.EPIPE, errno.ECONNRESET):
                unsent.clear()
                return True
            raise _gone(error) from error
        while count and count >= len(unsent[-1]):
            count -= len(unsent.pop())
        if count:
            unsent[-1] = memoryview(unsent[-1])[count:]
        return True

    def _await(self, sending: bool, end: Optional[float]) -> None:
        """Until the socket has something, or takes something if there is more to send."""
        left = None if end is None else end - time.monotonic()
        if left is not None and left <= 0:
            raise ServerSilent(_SILENT)
        poll = select.poll()
        poll.register(self._socket, select.POLLIN | (select.POLLOUT if sending else 0))
        # it takes no number of milliseconds that is too large
        poll.poll(None if left is None else min(left, _LONGEST_POLL) * 1000 + 1)

    def _receive(self, spaces: Sequence[memoryview]) -> int:
        """Fills the spaces with what has come. How many bytes; 0 if there are none yet."""
        try:
            count = self._socket.recvmsg_into(spaces)[0]
        except (BlockingIOError, socket.timeout):
            return 0
        except OSError as error:
            raise _gone(error) from error
        if not count:
            raise ConnectionLost(SERVER_GONE)
        return count

    def _await_and_receive(self, spaces: Sequence[memoryview], end: Optional[float]) -> int:
        """The same, once something has come. It waits in the call that reads, since other threads take Python's lock between two calls."""
        while True:
            left = None if end is None else max(0.0, end - time.monotonic())
            self._socket.settimeout(None if left is None else min(left, _LONGEST_POLL))
            count = self._receive(spaces)
            if count:
                return count
            if not left:
                raise ServerSilent(_SILENT)

    def finish(self, end: float) -> bool:
        """Sends no more, and waits until the server has answered all that it was sent. Whether it has."""
        try:
            self._socket.setblocking(False)
            self._socket.shutdown(socket.SHUT_WR)
            while True:
                try:
                    if not self._socket.recv(_READ_AHEAD):
                        return True
                except BlockingIOError:
                    self._await(False, end)
        except (OSError, ConnectionLost):
            return False

    def interrupt(self) -> None:
        """Who waits for the socket is told that the session is over."""
        with contextlib.suppress(OSError):
            self._socket.shutdown(socket.SHUT_RDWR)

    def close(self) -> None:
        self._socket.close()


class _Replies:
    """Takes replies apart as their bytes come.

    What Reads bring goes to their own buffers. Of Reads that follow one another one system call takes what has come, each with the head of
    its reply before it. If another reply comes in the place of one, such as a refusal, it is put together again with what came after it.
    """

    def __init__(self) -> None:
        self._ahead = memoryview(bytearray(_READ_AHEAD))
        # what of it is read and not yet taken
        self._start = self._end = 0
        # of the reply that is being read: its kind, its body, how much of it is there, and whether that is the request's own buffer
        self._kind = 0
        self._body: Optional[memoryview] = None
        self._filled = 0
        self._in_place = False
        # of the Reads that are due: what is to be filled of a head and a body for each, the next one last, and all heads
        self._spaces: List[memoryview] = []
        self._heads = memoryview(b"")

    @property
    def has_more(self) -> bool:
        """Whether something has come after the last answer."""
        return self._start < self._end

    def are(self, expected: bytes, take: Receive) -> bool:
        """Whether these come next, all at once. What comes otherwise is kept, to be taken apart. Nothing may have been read ahead."""
        self._start, self._end = 0, take([self._ahead])
        is_so = self._ahead[: self._end] == expected
        if is_so:
            self._end = 0
        return is_so

    def receive(self, take: Receive, requests: Sequence[Request[Any]], answers: List[Answer]) -> bool:
        """Reads what has come, up to the last answer. Whether anything had."""
        received = False
        while len(answers) < len(requests):
            if not self._spaces and self._body is None and self._start == self._end:
                self._expect_reads(requests, len(answers))
            if not (self._read_reads(take, requests, answers) if self._spaces else self._read_one(take, requests, answers)):
                return received
            received = True
        return received

    def _expect_reads(self, requests: Sequence[Request[Any]], first: int) -> None:
        """The Reads that follow one another from this request on are due next, if it is one."""
        bodies: List[memoryview] = []
        for number in range(first, len(requests)):
            into = requests[number].into
            if not into:
                break
            bodies.append(into)
        self._heads = memoryview(bytearray(_HEAD * len(bodies)))
        for number in reversed(range(len(bodies))):
            self._spaces += (bodies[number], self._heads[_HEAD * number : _HEAD * (number + 1)])

    def _read_reads(self, take: Receive, requests: Sequence[Request[Any]], answers: List[Answer]) -> bool:
        """Reads what has come of what Reads bring. Whether anything had."""
        views = self._spaces[: -_MOST_SPACES - 1 : -1]
        came = left = take(views)
        for number, view in enumerate(views):
            if left < len(view):
                self._spaces[-1] = view[left:]
                break
            left -= len(view)
            self._spaces.pop()
            if len(self._spaces) % 2 == 0:
                answers.append(requests[len(answers)].answer(Reply.BYTES, b""))
            elif not self._is_due(requests[len(answers)]):
                self._put_together(views[number + 1 :], left)
                break
        return came > 0

    @property
    def _head(self) -> memoryview:
        """The head that was filled last."""
        after = len(self._heads) - _HEAD * (len(self._spaces) // 2)
        return self._heads[after - _HEAD : after]

    def _is_due(self, request: Request[Any]) -> bool:
        """Whether the head that was filled last is that of what the Read brings."""
        return request.into is not None and self._head == head(Reply.BYTES, len(request.into))

    def _put_together(self, views: Sequence[memoryview], count: int) -> None:
        """Another reply has come, whose head was filled last, and so many bytes after it that lie in these views."""
        whole = b"".join([self._head, *views])[: _HEAD + count]
        self._ahead = memoryview(bytearray(whole.ljust(_READ_AHEAD)))
        self._start, self._end = 0, len(whole)
        self._spaces.clear()

    def _read_one(self, take: Receive, requests: Sequence[Request[Any]], answers: List[Answer]) -> bool:
        """Goes on with any one reply. Whether that could be."""
        request = requests[len(answers)]
        if self._body is None:
            return self._begin(request) or self._read_ahead(take)
        if self._filled < len(self._body):
            return self._read_body(take, self._body)
        body, self._body = self._body, None
        answers.append(request.answer(self._kind, b"" if self._in_place else bytes(body)))
        return True

    def _begin(self, request: Request[Any]) -> bool:
        """Takes the length and the kind of a reply, if they are there, and as much of its body as was read ahead."""
        if self._end - self._start < _HEAD:
            return False
        length, self._kind = struct.unpack_from(">IB", self._ahead, self._start)
        if not 1 <= length <= LONGEST_REPLY:
            raise ProtocolError("what came is no frame")
        self._start += _HEAD
        own = request.space_of(self._kind, length - 1)
        self._in_place = own is not None
        self._body = memoryview(bytearray(length - 1)) if own is None else own
        self._filled = min(length - 1, self._end - self._start)
        self._body[: self._filled] = self._ahead[self._start : self._start + self._filled]
        self._start += self._filled
        return True

    def _read_ahead(self, take: Receive) -> bool:
        left = self._end - self._start
        self._ahead[:left] = bytes(self._ahead[self._start : self._end])
        self._start, self._end = 0, left
        count = take([self._ahead[left:]])
        self._end += count
        return count > 0

    def _read_body(self, take: Receive, body: memoryview) -> bool:
        count = take([body[self._filled :]])
        self._filled += count
        return count > 0


def _gone(error: OSError) -> ConnectionLost:
    return ConnectionLost(f"the connection was lost: {error.strerror or 'the server is gone'}")
