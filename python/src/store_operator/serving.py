"""/metrics and /health by HTTP, to the owner over a Unix socket or to this machine over a port of 127.0.0.1."""

from __future__ import annotations

import asyncio
import contextlib
import errno
import socket
import socketserver
import threading
from http import HTTPStatus
from http.server import BaseHTTPRequestHandler
from typing import Any, Coroutine, Optional

from . import sockets
from .looking import Looks
from .metrics import Metrics
from .settings import LOOPBACK, Settings
from .sockets import SocketFault
from .supervisor import NotDone
from .tidying import aside

# seconds that a connection may take in all, that its answer may, and how many there are at once
_LONGEST, _ANSWER, _MOST = 10.0, 8.0, 16
_TEXT = "text/plain; version=0.0.4; charset=utf-8"


class MetricsServer:
    """Serves in a thread of its own. What is asked of it is looked at in the daemon's loop."""

    def __init__(self, settings: Settings, looks: Looks, metrics: Metrics) -> None:
        self._settings = settings
        self._looks = looks
        self._metrics = metrics
        self._server: Optional[_Server] = None
        self._own: Optional[sockets.Identity] = None

    def open(self) -> None:
        """`SocketFault` if it can't listen. Nothing happens if the settings don't want it."""
        place = self._settings.metrics
        if place is None:
            return
        if isinstance(place, int):
            listening = _listen(place)
        else:
            sockets.look_at_folder(place, self._settings.socket_group)
            listening = sockets.listen(place)
            self._own = sockets.identity(place)
        self._server = _Server(listening, self._answer, asyncio.get_running_loop())
        threading.Thread(target=self._server.serve_forever, args=(0.1,), daemon=True, name="metrics").start()

    async def close(self) -> None:
        if self._server is None:
            return
        await aside(self._server.shutdown)
        self._server.server_close()
        if not isinstance(self._settings.metrics, int) and self._settings.metrics:
            sockets.remove_own(self._settings.metrics, self._own)

    async def _answer(self, path: str) -> "tuple[HTTPStatus, str]":
        if path == "/metrics":
            return HTTPStatus.OK, await self._metrics.text()
        if path != "/health":
            return HTTPStatus.NOT_FOUND, "there are /metrics and /health\n"
        try:
            await self._looks.health()
        except NotDone as why:
            return HTTPStatus.SERVICE_UNAVAILABLE, f"{why}\n"
        return HTTPStatus.OK, "ok\n"


def _listen(port: int) -> socket.socket:
    try:
        listening = socket.socket(socket.AF_INET)
    except OSError as error:
        hint = ": the unit file wants RestrictAddressFamilies=AF_UNIX AF_INET" if error.errno == errno.EAFNOSUPPORT else ""
        raise SocketFault(f"metrics {LOOPBACK}:{port}: {error.strerror}{hint}") from error
    listening.setsockopt(socket.SOL_SOCKET, socket.SO_REUSEADDR, 1)
    try:
        listening.bind((LOOPBACK, port))
        listening.listen(_MOST)
    except OSError as error:
        listening.close()
        raise SocketFault(f"metrics {LOOPBACK}:{port}: {error.strerror}") from error
    return listening


class _Server(socketserver.ThreadingMixIn, socketserver.TCPServer):
    """At a socket that listens already, of either kind."""

    daemon_threads = True

    def __init__(self, listening: socket.socket, answer: Any, loop: asyncio.AbstractEventLoop) -> None:
        # a TCPServer would make a socket of the internet's, which the unit file refuses
        socketserver.BaseServer.__init__(self, ("", 0), _Handler)
        self.socket = listening
        self.answer, self.loop = answer, loop
        self._room = threading.BoundedSemaphore(_MOST)

    def process_request(self, request: Any, client_address: Any) -> None:
        """A connection more than there is room for is closed."""
        if self._room.acquire(blocking=False):
            super().process_request(request, client_address)
        else:
            self.shutdown_request(request)

    def process_request_thread(self, request: Any, client_address: Any) -> None:
        """Ends a client that takes its time."""
        timer = threading.Timer(_LONGEST, _cut_off, (request,))
        timer.daemon = True
        timer.start()
        try:
            super().process_request_thread(request, client_address)
        finally:
            timer.cancel()
            self._room.release()

    def handle_error(self, request: Any, client_address: Any) -> None:
        """The end of a connection is only its end."""


def _cut_off(request: socket.socket) -> None:
    with contextlib.suppress(OSError):
        request.shutdown(socket.SHUT_RDWR)


class _Handler(BaseHTTPRequestHandler):
    server: _Server
    timeout = _LONGEST

    def do_GET(self) -> None:
        answer: Coroutine[Any, Any, "tuple[HTTPStatus, str]"] = self.server.answer(self.path.partition("?")[0])
        status, text = asyncio.run_coroutine_threadsafe(answer, self.server.loop).result(_ANSWER)
        body = text.encode()
        self.send_response(status)
        self.send_header("Content-Type", _TEXT)
        self.send_header("Content-Length", str(len(body)))
        self.end_headers()
        self.wfile.write(body)

    def address_string(self) -> str:
        """Of a Unix socket there is none."""
        return "-"

    def log_message(self, *_: Any) -> None:
        """The log is of the store."""
