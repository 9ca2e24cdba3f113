"""The program as a server."""
import atexit
import contextlib
import os
import random
import socket
import subprocess
import threading
from subprocess import PIPE
from typing import Any, NamedTuple, Self, Sequence

from common.program import tested_program
from serving import HOST, PATIENCE

# Below those that the system gives to clients. Of several processes in which pytest runs, each has ports of its own.
FIRST, END = map(int, os.environ.get("RB_BROKER_PORTS", "20000-32000").split("-"))
PORTS = range(FIRST + int(os.environ.get("PYTEST_XDIST_WORKER", "gw0")[2:]), END,
              int(os.environ.get("PYTEST_XDIST_WORKER_COUNT", "1")))
TRIES = 20  # of ports, which others may have


class NoServer(Exception):
    """No server could be started."""


class Ended(NamedTuple):
    """The end of a server: its exit status, the lines that it wrote then, at least one, and standard error."""

    status: int | None
    lines: list[str]
    errors: str


def started(words: Sequence[str], folder: str = ".", stderr: Any = PIPE, **how: Any) -> subprocess.Popen[str]:
    """A process of these words in a folder, with pipes for what it writes, and what else it gets. It does not outlive
    this one."""
    process = subprocess.Popen(words, cwd=folder, stdout=PIPE, stderr=stderr, encoding="utf-8", **how)
    atexit.register(process.kill)
    return process


def free_port() -> int:
    """A port at which nobody listens."""
    for _ in range(TRIES):
        port = random.choice(PORTS)
        with socket.socket() as listener, contextlib.suppress(OSError):
            listener.bind((HOST, port))
            return port
    raise NoServer("no port is free")


class Server:
    """A server at a port that is chosen here, unless one is given, until its end, or that of a `with`."""

    patience = 2 * PATIENCE  # seconds in which it has to end

    def __init__(
        self, options: Sequence[object] = (), program: str | None = None, port: int | None = None, **how: Any
    ) -> None:
        """Starts the program, the one that is tested unless another one is given, with what else its process gets."""
        for _ in range(TRIES):
            self.port = port or random.choice(PORTS)
            words = [program or tested_program(), "serve", "--port", str(self.port), *map(str, options)]
            self.process = started(words, **how)
            limit = threading.Timer(2 * PATIENCE, self.process.kill)
            limit.daemon = True  # a signal may end this process meanwhile
            limit.start()
            said = self._first_line()
            limit.cancel()
            if said == f"listening {HOST}:{self.port}\n":
                return
            self.process.kill()
            _, errors = self.process.communicate()
        raise NoServer(f"no server could be started: {errors.strip()}")

    def _first_line(self) -> str:
        """Its first line, and no byte behind that, since `communicate` leaves out what was read before."""
        assert self.process.stdout
        said = b""
        while not said.endswith(b"\n") and (byte := os.read(self.process.stdout.fileno(), 1)):
            said += byte
        return said.decode()

    def __enter__(self) -> Self:
        return self

    def __exit__(self, *_: object) -> None:
        self.kill()

    def drain(self) -> None:
        """Tells one that is attended to end once no session holds a job, and waits for that."""
        assert self.process.stdin
        self.process.stdin.write("drain\n")
        self.process.stdin.flush()
        with contextlib.suppress(subprocess.TimeoutExpired):
            self.process.wait(self.patience)

    def end(self) -> Ended:
        """Waits for its end."""
        try:
            said, errors = self.process.communicate(timeout=self.patience)
            return Ended(self.process.returncode, said.splitlines() or [""], errors)
        except subprocess.TimeoutExpired:
            self.kill()
            return Ended(None, [""], "the server does not end")

    def kill(self) -> None:
        """Ends it at once, if it has not ended by itself."""
        self.process.kill()
        self.process.communicate()
