"""The command script: the cases, and random scripts beside the program."""
from __future__ import annotations

import contextlib
import os
import random
import subprocess
import sys
import threading
from collections.abc import Iterator
from unittest import mock

from case_tables import CASES
from conforming.cases import read_cases
from conforming.comparing import difference, reason_to_skip
from conforming.program import Input, Program
from judging import PROGRAM
from random_script import RandomScript
from rb_broker_redis import script
from rb_broker_redis.command import main, parser
from rb_broker_formats.queue import FollowedQueue
from redis_test import RedisTest

SCRIPTS = int(os.environ.get("RB_BROKER_SCRIPTS", "200"))
"""How many random scripts are compared."""


class RunHere:
    """A run of the command in a thread of this process, as a `Program` sees a process."""

    def __init__(self, words: list[str], given: int) -> None:
        (output, its_output), (errors, its_errors) = os.pipe(), os.pipe()
        self.stdout, self.stderr = open(output, "rb", 0), open(errors, "rb", 0)
        self._thread = threading.Thread(target=self._run, args=(words, given, its_output, its_errors))
        self._thread.start()

    def _run(self, words: list[str], given: int, output: int, errors: int) -> None:
        with open(given, "rb", 0) as stdin, open(output, "wb", 0) as stdout, open(errors, "w") as stderr, \
                mock.patch.multiple(sys, stdin=stdin, stdout=stdout, stderr=stderr):
            try:
                self._status = main(words)
            except SystemExit as end:
                self._status = end.code

    def communicate(self) -> tuple[bytes, bytes]:
        return self.stdout.read(), self.stderr.read()

    def wait(self) -> int:
        self._thread.join()
        return self._status


class Here(Program):
    """The command with a Redis, within this process, and so one run at a time."""

    def __init__(self, redis: str) -> None:
        super().__init__([], patience=0)
        self._redis = redis

    @contextlib.contextmanager
    def _started(self, words: list[str], given: Input) -> Iterator[RunHere]:
        giver = threading.Thread(target=given.give)
        giver.start()
        run = RunHere([*words, "--redis", self._redis], given.descriptor)
        with run.stdout, run.stderr:
            yield run
            run.wait()
        giver.join()


class CasesTest(RedisTest):
    def test_each_case_passes(self) -> None:
        program, tried = Here(self.node.url), 0
        for case in (it for file in sorted(CASES.glob("*.case")) for it in read_cases(str(file))):
            if case.is_script and not reason_to_skip(case, []):
                tried += 1
                with self.subTest(case.name, file=case.file, line=case.line):
                    self.assertFalse(difference(program, case, []))
        self.assertGreater(tried, 70)


class RandomScriptsTest(RedisTest):
    def test_random_scripts_give_what_the_program_gives(self) -> None:
        for seed in range(SCRIPTS):
            made = RandomScript(random.Random(seed))
            replies, history = self.program(made)
            with self.subTest(seed=seed, words=made.words):
                self.assertEqual(self.here(made), (replies, history))

    def program(self, made: RandomScript) -> tuple[bytes, bytes]:
        """The program's replies and history."""
        path = self.room / "history"
        replies = subprocess.run([PROGRAM, "script", *made.words, "--history", path], input=made.text,
                                 stdout=subprocess.PIPE, check=True).stdout
        return replies, path.read_bytes()

    def here(self, made: RandomScript) -> tuple[bytes, bytes]:
        """Those of the functions, within this process."""
        asked = parser().parse_args(["script", "--redis", self.node.url, *made.words])
        queue = self.queue("random")
        script.begin(queue, FollowedQueue(), asked)
        session = script.ScriptSession(queue, 0)
        replies = b"".join(session.carry_out(piece) for piece in made.pieces) + session.come_to_end()
        session.fail_held()
        history = b"history 3\nopen 0 0 0\n" + b"".join(script.events_of(queue))
        queue.command("UNLINK", *queue.keys)
        return replies, history
