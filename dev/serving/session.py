"""A client's session, as its requests and replies. The other clients of the tests are made of it."""
import socket
import struct
from typing import Self

from serving import HOST, PATIENCE

REFUSED = b"x\n" * 10_000  # lines that are refused, and so are no calls


class Session:
    """A session at a port, until the end of a `with` or until it hangs up.

    `own_port` is the port of the client's end, if it matters, and `receive_buffer` how many bytes its system takes in
    that it has not read. Requests are text or bytes, without their ends.
    """

    def __init__(self, port: int, own_port: int = 0, receive_buffer: int = 0) -> None:
        self.socket = socket.socket()
        self.socket.settimeout(PATIENCE)
        if receive_buffer:
            self.socket.setsockopt(socket.SOL_SOCKET, socket.SO_RCVBUF, receive_buffer)
        if own_port:
            self.socket.setsockopt(socket.SOL_SOCKET, socket.SO_REUSEADDR, 1)
            self.socket.bind((HOST, own_port))
        self.socket.connect((HOST, port))
        self.socket.setsockopt(socket.IPPROTO_TCP, socket.TCP_NODELAY, 1)
        self.replies = self.socket.makefile("rb")

    def __enter__(self) -> Self:
        return self

    def __exit__(self, *_: object) -> None:
        self.hang_up()

    @property
    def own_port(self) -> int:
        """The port of the client's end."""
        return int(self.socket.getsockname()[1])

    def send(self, *requests: str | bytes) -> None:
        """Sends requests in one piece, and reads no reply."""
        lines = (request.encode() if isinstance(request, str) else request for request in requests)
        self.socket.sendall(b"".join(line + b"\n" for line in lines))

    def line(self) -> str:
        """The next line that the server sends. Raises an `EOFError` if the connection ended before."""
        line = self.replies.readline()
        if not line.endswith(b"\n"):
            raise EOFError("the connection ended before the end of a reply")
        return line[:-1].decode("ascii")

    def reply(self) -> list[str]:
        """The next reply: a line, and for DRAINED those of the elements behind it."""
        lines = [self.line()]
        if lines[0].startswith("DRAINED "):
            lines += [self.line() for _ in range(int(lines[0].split(" ")[1]))]
        return lines

    def heard(self, *requests: str) -> str:
        """The first line of the next reply, behind these requests; nothing if the session ended, or what went wrong."""
        try:
            if requests:
                self.send(*requests)
            return self.reply()[0]
        except EOFError:
            return ""
        except OSError as fault:
            return repr(fault)

    def ask(self, request: str) -> str:
        """What is heard of a request."""
        return self.heard(request)

    def quit(self) -> None:
        """Ends the session by a request, behind whose reply nothing may come."""
        said = self.ask("QUIT").encode() + b"\n" + self.rest()
        if said != b"BYE\n":
            raise AssertionError(f"QUIT is answered by {said[:100]!r}")
        self.hang_up()

    def rest(self) -> bytes:
        """What the server sends until it ends the session."""
        return self.replies.read()

    def fill(self) -> None:
        """Sends lines that are refused until the server takes no more of them, since their replies are not read."""
        self.socket.settimeout(1)
        try:
            for _ in range(10_000):
                self.socket.sendall(REFUSED)
        except socket.timeout:
            self.socket.settimeout(PATIENCE)
            return
        raise AssertionError("the server reads on, though its replies are not read")

    def is_cut(self) -> bool:
        """Whether the connection was reset, and not ended in good order."""
        try:
            while self.socket.recv(65_536):
                pass
            return False
        except ConnectionResetError:
            return True
        except socket.timeout:
            return False

    def hang_up(self) -> None:
        """Ends the connection in good order, without a QUIT."""
        self.replies.close()
        self.socket.close()

    def reset(self) -> None:
        """Hangs up so that the server's next read or write fails."""
        self.socket.setsockopt(socket.SOL_SOCKET, socket.SO_LINGER, struct.pack("ii", 1, 0))
        self.hang_up()
