"""Tests with a Redis of their own."""
from __future__ import annotations

import io
import os
import subprocess
import tempfile
from contextlib import redirect_stderr, redirect_stdout
from pathlib import Path
from typing import TypeVar

from checking import testing
from gateways import COMMAND
from nodes import FORGETFUL, Node, Nodes, Process
from rb_broker_redis.address import read_address
from rb_broker_redis.command import main
from rb_broker_redis.queue import Queue, connect

SEAT = 1_000_000_000_001
"""That of a session of the first gateway."""

Killed = TypeVar("Killed", bound=Process | Nodes)


class RoomTest(testing.RoomTest):
    """A test with a folder of its own."""

    def setUp(self) -> None:
        super().setUp()
        self.room = Path(self.room)

    def till_end(self, process: Killed) -> Killed:
        """A process, or several, to be killed at the end of the test."""
        self.addCleanup(process.kill)
        return process


class RedisTest(RoomTest):
    """A test with a Redis that all tests of its class share. Each test has a queue of its own."""

    options = FORGETFUL

    @classmethod
    def setUpClass(cls) -> None:
        room = cls.enterClassContext(tempfile.TemporaryDirectory(prefix="rb-test-"))
        cls.node = Node(Path(room) / "node", cls.options)
        cls.addClassCleanup(cls.node.kill)

    def setUp(self) -> None:
        super().setUp()
        self.name = self.id().rpartition(".")[2][:50]

    def queue(self, name: str = "") -> Queue:
        """A queue that is not used yet, unless it was by this test."""
        queue = Queue(connect(read_address(self.node.url)), name or self.name)
        queue.load_functions()
        return queue

    def joined(self, attempts: int = 3, name: str = "") -> Queue:
        """A queue that a gateway has joined. Failed jobs come back at once."""
        queue = self.queue(name)
        queue.call("rb_join", 60_000_000, "delay", f"{0:020}", attempts, "")
        return queue

    def words(self, *words: object) -> list[str]:
        """The words of a command, with this test's Redis and queue."""
        more = {"--redis": self.node.url, "--queue": self.name}
        return [*map(str, words), *(it for name in more if name not in words for it in (name, more[name]))]

    def started(self, *words: object, **environment: str) -> subprocess.Popen[str]:
        """A command of the package for this test's queue, as a process, whose environment has this too."""
        process = subprocess.Popen([*COMMAND, *self.words(*words)], stdout=subprocess.PIPE, stderr=subprocess.PIPE,
                                   encoding="utf-8", cwd=self.room, env={**os.environ, **environment})
        self.addCleanup(process.communicate)
        self.addCleanup(process.kill)
        return process

    def ran(self, *words: object) -> tuple[int, list[str], str]:
        """The status of a command, the lines that it prints, and standard error. It runs within this process."""
        return self.ran_alone(*self.words(*words))

    def ran_alone(self, *words: object) -> tuple[int, list[str], str]:
        """The same of a command that names no Redis and no queue."""
        said, errors = io.StringIO(), io.StringIO()
        with redirect_stdout(said), redirect_stderr(errors):
            try:
                status = main([*map(str, words)])
            except SystemExit as end:
                status = end.code
        return status, said.getvalue().splitlines(), errors.getvalue()

    def assert_wrong_words(self, command: str, *rows: tuple[list[object], str]) -> None:
        """A command with the words of each row is refused, for the reason of that row."""
        for words, why in rows:
            with self.subTest(words=words):
                status, lines, errors = self.ran(command, *words)
                self.assertEqual((status, lines), (2, []))
                self.assertIn(why, errors)

    def assert_prints(self, lines: list[str], *words: object) -> None:
        """A command ends well, and prints these lines."""
        self.assertEqual(self.ran(*words), (0, lines, ""))

    def assert_refused(self, status: int, line: str, *words: object) -> None:
        """A command ends with this status, prints nothing, and says just this."""
        self.assertEqual(self.ran(*words), (status, [], f"rb_broker_redis: {line}\n"))

    def kill_again_and_again(self, *words: object) -> int:
        """Starts a command and kills it, first while it starts and then each time a bit later, until it ends well
        before that. How often it was killed."""
        for kills in range(100):
            process = self.started(*words)
            try:
                _, errors = process.communicate(timeout=0.05 * 1.2 ** kills)
                self.assertEqual((process.returncode, errors), (0, ""))
                return kills
            except subprocess.TimeoutExpired:
                process.kill()
                process.communicate()
        self.fail("it does not end")
