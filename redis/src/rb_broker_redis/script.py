"""The command script: a session at standard input on a queue of its own, as `rb_broker script` has."""
from __future__ import annotations

import argparse
import contextlib
import os
import sys
from collections.abc import Iterator
from functools import partial
from itertools import chain
from pathlib import Path
from typing import BinaryIO

from rb_broker_formats.durations import read_duration
from rb_broker_formats.faults import Damaged
from rb_broker_formats.grammar import GREATEST_OPENING_ID, HEADER, MOST_OPENING_ELEMENTS
from rb_broker_formats.queue import FollowedQueue
from rb_broker_formats.requests import Kind, LineCutter, read_request

from .ending import Failed
from .judged import Refused, read_judged
from .protocol import MOST_CALLS, ErrorReply
from .queue import Queue, connect
from .session import BYE
from .waits import LATER, STOPPED
from .words import Parser, add_command, add_policy_words, add_redis_word, address_in, policy_in, sentence_of, whole

SEAT = b"0 "
LEASE = 60_000_000
CHUNK = 10_000
MOST_CALLS_AT_ONCE = 500
MOST_READS = 10_000_000
BUFFER_BYTES = 64 * 1024


def add_to(commands: argparse._SubParsersAction[Parser]) -> None:
    """Adds the command."""
    parser = add_command(commands, "script", "serves one session at standard input, on a queue of its own", run)
    add_redis_word(parser)
    # As `rb_broker script` does, for which this stands in, it takes nanoseconds.
    add_policy_words(parser, "1us", 3, sentence_of(partial(read_duration, bare=1)))
    add = parser.add_argument
    add("--calls", type=whole(1, MOST_CALLS), default=10_000, metavar="N", help="calls in the run (default: 10000)")
    add("--history", metavar="FILE", help="writes the history to this file")
    add("--from", dest="opening", metavar="FILE",
        help="continues the run of this history, which `rb_broker replay FILE` has to accept")
    add("--timer", choices=("list", "heap", "pairing", "wheel"), help="has no effect")


def run(asked: argparse.Namespace) -> int:
    """Carries out standard input, and writes the history even if that ends by a fault. Returns the exit status."""
    opening = opening_of(asked.opening)
    queue = Queue(connect(address_in(asked)), f"script-{os.getpid()}-{os.urandom(4).hex()}")
    recorder = recorder_of(asked.history)
    try:
        begin(queue, opening, asked)
        try:
            converse(ScriptSession(queue, opening.last))
        except Failed:
            with contextlib.suppress(Failed):  # the session's fault is the one that is told
                record(queue, opening, recorder)
            raise
        record(queue, opening, recorder)
    finally:
        queue.command("UNLINK", *queue.keys)
    return 0


def opening_of(path: str | None) -> FollowedQueue:
    """The queue that a history leaves."""
    if path is None:
        return FollowedQueue()
    try:
        with ends_with("cannot read history"):
            queue = read_judged(Path(path))
    except (Damaged, Refused):
        raise Failed("bad opening") from None
    if queue.next_id > GREATEST_OPENING_ID or len(queue.elements) > MOST_OPENING_ELEMENTS:
        raise Failed("bad opening")
    return queue


def begin(queue: Queue, opening: FollowedQueue, asked: argparse.Namespace) -> None:
    """Makes the queue."""
    queue.load_functions()
    if opening.next_id or opening.last:
        queue.load(queue.name, opening)
    queue.call("rb_join", LEASE, *policy_in(asked), f"limit {asked.calls}")


def converse(session: ScriptSession) -> None:
    """Reads to the end, or to QUIT. What is held then fails."""
    try:
        for _ in range(MOST_READS):
            data = read()
            write(session.carry_out(data) if data else session.come_to_end())
            if session.is_over or not data:
                return
        raise Failed("too many reads", 3)
    finally:
        session.fail_held()


@contextlib.contextmanager
def ends_with(why: str) -> Iterator[None]:
    """What fails here ends the command, for this reason."""
    try:
        yield
    except OSError:
        raise Failed(why, 3) from None


@ends_with("cannot read input")
def read() -> bytes:
    """Reads from standard input."""
    return os.read(sys.stdin.fileno(), BUFFER_BYTES)


@ends_with("cannot write output")
def write(replies: bytes) -> None:
    """Writes replies to standard output."""
    while replies:
        replies = replies[os.write(sys.stdout.fileno(), replies):]


@ends_with("cannot write history")
def recorder_of(path: str | None) -> BinaryIO | None:
    """The file of the history, which is there before the first request is read."""
    return open(path, "wb") if path else None


@ends_with("cannot write history")
def record(queue: Queue, opening: FollowedQueue, recorder: BinaryIO | None) -> None:
    """Writes the history of the run, if there is a file for it."""
    if recorder:
        with recorder:
            recorder.writelines(chain([HEADER], opening.opening(), events_of(queue)))


def events_of(queue: Queue) -> Iterator[bytes]:
    """The lines of the events, and the last line."""
    count = queue.command("LLEN", queue.history)
    for start in range(0, count, CHUNK):
        for line in queue.command("LRANGE", queue.history, start, start + CHUNK - 1):
            yield line + b"\n"
    yield b"end %d\n" % count


class ScriptSession:
    """A session whose moment only AT moves. What would have to wait is answered STOPPED, since nobody else could end
    the wait."""

    def __init__(self, queue: Queue, moment: int) -> None:
        self._queue, self._moment = queue, moment
        self._cutter = LineCutter()
        self._calls: list[bytes] = []
        self._replies: list[bytes] = []
        self.is_over = False
        """QUIT was answered."""

    def carry_out(self, data: bytes) -> bytes:
        """Carries out the lines that these bytes end. Gives the replies."""
        for line in self._cutter.cut(data):
            if not self.is_over:
                self._carry_out(line)
        self._make_calls()
        replies, self._replies = b"".join(self._replies), []
        return replies

    def come_to_end(self) -> bytes:
        """The input is over. Gives the reply to a line that this has cut off."""
        return ErrorReply.LINE.value if self._cutter.rest and not self.is_over else b""

    def fail_held(self) -> None:
        """Lets what is held fail."""
        self._perform([SEAT + b"END"])

    def _carry_out(self, line: bytes) -> None:
        kind, text = read_request(line)
        if kind in (Kind.CALL, Kind.WAIT):
            self._calls.append(SEAT + text)
            if len(self._calls) == MOST_CALLS_AT_ONCE:
                self._make_calls()
            return
        self._make_calls()
        if kind is Kind.AT:
            self._moment = max(self._moment, int(text))
            text = b"NOW %d\n" % self._moment
        elif kind is Kind.QUIT:
            self.is_over = True
            text = BYE
        self._replies.append(text)

    def _make_calls(self) -> None:
        """Makes the calls that were gathered."""
        if self._calls:
            self._replies += [STOPPED if reply.startswith(LATER) else reply for reply in self._perform(self._calls)]
            self._calls = []

    def _perform(self, calls: list[bytes]) -> list[bytes]:
        return self._queue.make(calls, f"{self._moment:020}")
