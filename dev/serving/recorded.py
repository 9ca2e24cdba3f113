"""A client's session that writes down what it sent and received, as docs/HISTORY.md describes a record."""
import json
import socket
import time
from typing import Callable

from serving.session import Session


class Broken(Exception):
    """The session has ended, and the last request got no reply, if there was one."""


class RecordedSession(Session):
    """A session of this name. Each line of its record, without its end, is handed to `note` once the reply has come, or
    can't come any more."""

    def __init__(self, port: int, name: str, note: Callable[[str], object]) -> None:
        self._name, self._note = name, note
        try:
            super().__init__(port)
        except OSError:
            raise Broken from None

    def exchange(self, *requests: str) -> list[list[str]]:
        """Sends requests in one piece. Returns the lines of each reply."""
        sent = time.monotonic_ns()
        replies: list[list[str]] = []
        for request in requests:
            try:
                if not replies:
                    self.send(*(request.encode("latin-1") for request in requests))
                replies.append(self.reply())
            except (OSError, EOFError):
                self.note(sent, None, request)
                raise Broken from None
            self.note(sent, time.monotonic_ns(), request, *replies[-1])
        return replies

    def reply_to(self, request: str) -> list[str]:
        """The lines of the reply to a request."""
        return self.exchange(request)[0]

    def note(self, sent: int, received: int | None, request: str, *reply: str) -> None:
        """Adds to the record. A request without a reply was received at no time."""
        self._note(json.dumps(
            {"session": self._name, "sent": sent, "received": received, "request": request, "reply": reply}))

    def cut(self) -> None:
        """Ends the connection as a kill of this process would, also while a reply is waited for."""
        self.socket.shutdown(socket.SHUT_RDWR)
