"""Servers with the words that attend them, and what tests compare of them."""
import contextlib
import socket
import subprocess
import time
from typing import Any, Callable, Iterator

from serving import HOST
from serving.server import Server
from serving.session import Session

SECOND, MILLISECOND = 10**9, 10**6  # in nanoseconds, as the server counts
MANY = "--sessions 1000 --calls 100000 --workers 16"


@contextlib.contextmanager
def served(words: str) -> Iterator[Session]:
    """The only client of a server with these words."""
    with Server(words.split()) as server, Session(server.port) as client:
        yield client


def attended(words: str = "", **how: Any) -> Server:
    """A server that ends with its input, a pipe unless another is given."""
    return Server(f"--until-input-ends {MANY} {words}".split(), **{"stdin": subprocess.PIPE, **how})


def listener() -> socket.socket:
    """A socket that listens, in the mode in which no accept waits."""
    it = socket.create_server((HOST, 0), backlog=16)
    it.setblocking(False)
    return it


def handed(it: socket.socket, words: str, **how: Any) -> Server:
    """A server that is handed this socket."""
    options = f"--socket {it.fileno()} {words}".split()
    return Server(options, port=it.getsockname()[1], pass_fds=[it.fileno()], **how)


def drain(server: Server) -> None:
    """Asks a server to drain."""
    server.process.stdin.write(".")
    server.process.stdin.flush()


def end_input(server: Server) -> None:
    """Ends the input of a server."""
    server.process.stdin.close()
    server.process.stdin = None


def status_and_counts(server: Server) -> tuple[object, ...]:
    """How a server ends by itself: its status, its count of sessions, and what it says on standard error."""
    end = server.end()
    return end.status, end.lines[0], end.errors


def without_moments(told: list[str]) -> list[str]:
    """The first two words of each reply."""
    return [" ".join(reply.split(" ")[:2]) for reply in told]


def attempts(told: list[str]) -> list[str]:
    """The attempts in which jobs were given."""
    return [reply.split(" ")[3] for reply in told if reply.startswith("ITEM ")]


def seconds_of(does: Callable[[], object]) -> float:
    """How many seconds this takes."""
    began = time.monotonic()
    does()
    return time.monotonic() - began
