"""Gateways as processes, at ports that stay theirs, which may be killed at any moment."""
from __future__ import annotations

import sys
from collections.abc import Sequence
from pathlib import Path

from nodes import Process, free_port, wait_until
from talker import Talker

POLICY = ("--delay", "20ms", "--attempts", 1000)
"""So that no job of a hostile day dies, however many clients die with it."""

COMMAND = (sys.executable, "-B", "-m", "rb_broker_redis")


class Gateway(Process):
    """A gateway of a queue, which is started; its log is in a folder. `wait` waits until it listens."""

    def __init__(self, folder: Path, redis: str, queue: str, options: Sequence[object] = POLICY,
                 **environment: str) -> None:
        """Without `redis` its environment names the Redis."""
        self.port = free_port()
        at = ("--redis", redis) if redis else ()
        words = [*COMMAND, "serve", "--queue", queue, "--port", self.port, *at, *options]
        super().__init__([*map(str, words)], folder / f"gateway-{self.port}.log", environment)
        self.start()

    @property
    def listens(self) -> bool:
        return self.is_alive and "listening " in self.said

    @property
    def told(self) -> list[str]:
        """The lines that it has said since it listens."""
        return self.said.partition("listening ")[2].splitlines()[1:]

    def wait(self) -> Gateway:
        """Waits until it listens."""
        wait_until(lambda: self.listens or not self.is_alive, f"no gateway listens at {self.port}")
        if not self.is_alive:
            raise AssertionError(self.said)
        return self

    def ask(self, *requests: str) -> list[str]:
        """The lines that a session of its own gets for these requests."""
        with Talker(self.port) as talker:
            talker.send("".join(f"{it}\n" for it in (*requests, "QUIT")))
            return talker.rest()[:-1]
