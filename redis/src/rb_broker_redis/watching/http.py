"""Answers over HTTP, on threads of their own, to clients that may be slow, wrong or hostile.

Python's own server does it, within bounds: a client has some seconds for each piece that it sends, and for all that it
is sent; of more than MOST_CONNECTIONS the oldest is cut; and no second has more than MOST_A_SECOND answers, so that who
floods this with requests leaves the processor to the service.
"""
from __future__ import annotations

import contextlib
import ipaddress
import re
import socket
import socketserver
import sys
import threading
import time
from collections.abc import Callable
from http import HTTPStatus
from http.server import BaseHTTPRequestHandler
from typing import Any, NamedTuple

MOST_CONNECTIONS, MOST_A_SECOND = 64, 50
MOST_POSTED = 1_000  # bytes
LOCAL_NAMES = ("localhost", "127.0.0.1", "::1")

# What every answer says: nothing is kept, framed, guessed or sent on.
HEADERS = (
    ("Cache-Control", "no-store"), ("X-Content-Type-Options", "nosniff"), ("Referrer-Policy", "no-referrer"),
    ("Cross-Origin-Resource-Policy", "same-origin"), ("X-Frame-Options", "DENY"),
)


class Answer(NamedTuple):
    status: HTTPStatus
    kind: str = ""  # of the text, as Content-Type; without one the text is a place to which it leads
    text: str = ""


def is_loopback(host: str) -> bool:
    """Whether only programs of this machine can connect to an address."""
    return ipaddress.ip_address(host).is_loopback


class HttpServer(socketserver.ThreadingMixIn, socketserver.TCPServer):
    """Serves at a host and port, or at what another class makes of a place, what `answer` says of a path, or None where
    there is nothing. `posted` does what is asked for by POST, with a body, or says None where nothing may be."""

    allow_reuse_address, daemon_threads, block_on_close, request_queue_size = True, True, False, MOST_CONNECTIONS

    def __init__(self, at: Any, answer: Callable[[str], Answer | None],
                 posted: Callable[[str, bytes], Answer | None] = lambda path, body: None) -> None:
        """Begins at once. Raises an `OSError`."""
        self.names: set[str] | None = None
        self.take_place(at)
        self.answer, self.posted, self.turn = answer, posted, threading.Lock()
        self._open: dict[Any, None] = {}  # connections, the oldest first
        super().__init__(at, _Handler)
        threading.Thread(target=self.serve_forever, name="http", daemon=True).start()

    def take_place(self, at: tuple[str, int]) -> None:
        """Says of what family a place is, and by which names it may be asked."""
        self.address_family = socket.AF_INET6 if ":" in at[0] else socket.AF_INET
        # A page of a foreign name that leads to this machine (DNS rebinding) gets nothing from a loopback address.
        self.names = {*LOCAL_NAMES, at[0]} if is_loopback(at[0]) else None

    def process_request(self, request: Any, client_address: Any) -> None:
        self._open[request] = None
        if len(self._open) > MOST_CONNECTIONS:
            oldest = next(iter(self._open))
            self._open.pop(oldest, None)
            with contextlib.suppress(OSError):
                oldest.shutdown(socket.SHUT_RDWR)
        super().process_request(request, client_address)

    def shutdown_request(self, request: Any) -> None:
        self._open.pop(request, None)
        super().shutdown_request(request)

    def handle_error(self, request: Any, client_address: Any) -> None:
        """Says what went wrong, unless a client did it."""
        if not isinstance(sys.exc_info()[1], OSError):
            super().handle_error(request, client_address)


class _Handler(BaseHTTPRequestHandler):
    server: HttpServer
    timeout = 5.0
    error_message_format, error_content_type = "%(message)s\n", "text/plain; charset=utf-8"

    def do_GET(self) -> None:
        if self._may_ask():
            self._send(self.server.answer(self.path.partition("?")[0]), HTTPStatus.NOT_FOUND)

    do_HEAD = do_GET

    def do_POST(self) -> None:
        """Does something, where that may be asked for."""
        size = self.headers.get("Content-Length", "0")
        if not size.isdecimal() or int(size) > MOST_POSTED:
            self.send_error(HTTPStatus.REQUEST_ENTITY_TOO_LARGE)
        elif self._may_ask():
            self._send(self.server.posted(self.path, self.rfile.read(int(size))), HTTPStatus.NOT_IMPLEMENTED)

    def _may_ask(self) -> bool:
        """Whether the server goes by the name that it is asked by; if so, once it is this one's turn."""
        host = re.sub(r":[0-9]*$", "", self.headers.get("Host", "")).strip("[]").lower()
        if host and self.server.names and host not in self.server.names:
            self.send_error(HTTPStatus.MISDIRECTED_REQUEST)
            return False
        with self.server.turn:
            time.sleep(1 / MOST_A_SECOND)
        return True

    def _send(self, answer: Answer | None, otherwise: HTTPStatus) -> None:
        if answer is None:
            self.send_error(otherwise)
            return
        body = answer.text.encode() if answer.kind else b""
        self.send_response(answer.status)
        if answer.kind:
            self.send_header("Content-Type", f"{answer.kind}; charset=utf-8")
            self.send_header("Content-Length", str(len(body)))
        elif answer.text:
            self.send_header("Location", answer.text)
        self.end_headers()
        if self.command != "HEAD":
            self.wfile.write(body)

    def end_headers(self) -> None:
        for name, value in HEADERS:
            self.send_header(name, value)
        super().end_headers()

    def log_message(self, format: str, *args: object) -> None:
        """Says nothing of what clients do."""
