"""A client of tests: sends lines as they are, and reads replies line by line."""
from __future__ import annotations

import select
import ssl

from serving import HOST
from serving.session import Session


class Talker(Session):
    """A connection, which may be over TLS."""

    def __init__(self, port: int, tls: ssl.SSLContext | None = None) -> None:
        super().__init__(port)
        if tls:
            self.replies.close()
            self.socket = tls.wrap_socket(self.socket, server_hostname=HOST)
            self.replies = self.socket.makefile("rb")

    def send(self, text: str) -> None:
        """Sends this, whether it is whole lines or not."""
        self.socket.sendall(text.encode("latin-1"))

    def read(self) -> str:
        """The next reply line, or an empty text at the end."""
        line = self.replies.readline().decode()
        assert not line or line.endswith("\n"), line
        return line[:-1]

    def ask(self, line: str) -> str:
        """Sends a line, and reads one."""
        self.send(f"{line}\n")
        return self.read()

    def asks(self, *lines: str) -> list[list[str]]:
        """Sends lines in one piece. The words of as many that are read."""
        self.send("".join(f"{it}\n" for it in lines))
        return [self.read().split() for _ in lines]

    def rest(self) -> list[str]:
        """All reply lines to the end."""
        return list(iter(self.read, ""))

    def is_silent(self, seconds: float) -> bool:
        """Whether nothing comes for so long."""
        return not select.select([self.socket], [], [], seconds)[0]
