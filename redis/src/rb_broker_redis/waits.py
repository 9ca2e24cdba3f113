"""The waits of a gateway's sessions: TAKE and POLLFOR that found nothing yet."""
from __future__ import annotations

import asyncio
import time
from collections.abc import Callable, Sequence
from dataclasses import dataclass, field
from itertools import zip_longest
from typing import NamedTuple

from .alarm import Alarm
from .calls import Calls
from .protocol import SECOND
from .waiting import Waiting

LATER = b"LATER"
STOPPED = b"STOPPED\n"

MOST_BEHIND = SECOND
"""A timed poll whose deadline is further away by the node's clock, when it has come by the gateway's, is given up."""

WaitAnswered = Callable[[bytes | None], None]
"""Gets the reply to a request that waited, or None where it is in doubt."""


class Later(NamedTuple):
    """When a call that found nothing has to be tried again, in moments of the node."""

    head: int | None
    now: int
    start: bytes

    def left(self, timeout: int) -> int:
        """The nanoseconds until the deadline of a timed poll."""
        return int(self.start) + timeout - self.now


def laters_in(reply: bytes) -> list[Later]:
    """What a LATER tells, which has three words for each queue."""
    words = iter(reply.split()[1:])
    told = zip(words, words, words)
    return [Later(None if head == b"-" else int(head), int(now), start) for head, now, start in told]


@dataclass(eq=False)
class Wait:
    """One wait."""

    seat: bytes
    calls: list[bytes]
    """One for each queue."""
    answered: WaitAnswered
    asks_at_end: bool
    """A timed poll whose deadline comes before the longest wait is answered by a queue."""
    timer: asyncio.TimerHandle = field(init=False)
    is_tried: bool = False
    is_over: bool = False
    """Its time is over. A try that is under way still gives what it finds."""


class Waits:
    """Waits are given up after `longest` nanoseconds, with STOPPED. `front_of` gives what stands before the calls of a
    session's seat at a queue, and `seen` the reply of a queue as the session's client gets it."""

    def __init__(
        self, queues: Sequence[Calls], longest: int, front_of: Callable[[int, bytes], bytes] = lambda queue, seat: seat,
        seen: Callable[[int, bytes, bytes], bytes] = lambda queue, seat, reply: reply,
    ) -> None:
        self._queues, self.longest, self._front_of, self._seen = queues, longest, front_of, seen
        self._waiting: Waiting[Wait] = Waiting()
        self._loop = asyncio.get_event_loop()
        self._alarm = Alarm(self._loop, self._wake)
        self._set_for: int | None = None
        self.order = self._waiting.order
        """Who waits, first come first: others that may have to wait come behind them."""

    def begin(self, seat: bytes, request: bytes, reply: bytes, answered: WaitAnswered) -> Wait:
        """A request, whose reply was LATER, waits."""
        laters, longest, asks_at_end = laters_in(reply), self.longest, False
        calls = [self._front_of(queue, seat) + request for queue in range(len(laters))]
        if request != b"TAKE":
            timeout = int(request.split()[1])
            left = min(laters[0].left(timeout), timeout)  # the node's clock may be behind the last event
            longest, asks_at_end = min(longest, left), left <= longest
            calls = [b"%b %b" % (call, later.start) for call, later in zip(calls, laters)]
        wait = Wait(seat, calls, answered, asks_at_end)
        self._wait(wait, longest)
        for queue, later in enumerate(laters):
            self._note(later, queue)
        self._look()
        return wait

    def give_up(self, wait: Wait) -> None:
        """It is answered STOPPED. Nothing more is fetched for it; a try that was sent gives what it finds."""
        for number, queue in enumerate(self._queues):
            queue.withhold(self._front_of(number, wait.seat))
        wait.asks_at_end = False
        self._end(wait)

    def heard(self, message: bytes, queue: int = 0) -> None:
        """An element has become the earliest: `HEAD NOW`, in moments of the node."""
        head, now = message.split()
        self._waiting.hear(time.monotonic_ns() + int(head) - int(now), queue)
        self._look()

    def look_now(self, queue: int = 0) -> None:
        """What was published may not have been heard."""
        self._waiting.hear(time.monotonic_ns(), queue)
        self._look()

    def _note(self, later: Later, queue: int) -> None:
        """This queue said when its earliest element expires."""
        if later.head is not None:
            self._waiting.hear(time.monotonic_ns() + later.head - later.now, queue)

    def _wait(self, wait: Wait, nanoseconds: int) -> None:
        wait.timer = self._loop.call_later(max(nanoseconds, 0) / SECOND, self._end, wait)
        self._waiting.add(wait)

    def _look(self) -> None:
        """Tries, or sets the alarm for the next try. A queue that is away is looked at when it is back."""
        while (due := self._waiting.next_due) and not self._queues[due.queue].is_connected:
            self._waiting.forget(due.queue)
        tried = self._waiting.start_tries(time.monotonic_ns())
        if not tried:
            self._set_alarm(due and due.moment)
            return
        queue = self._waiting.tried_queue
        for wait in tried:
            wait.is_tried = True
        calls = [wait.calls[queue] for wait in tried]
        self._queues[queue].submit(calls, lambda replies: self._tried(tried, replies), len(tried))

    def _set_alarm(self, moment: int | None) -> None:
        if moment is not None and moment != self._set_for:
            self._set_for = moment
            self._alarm.set(moment)

    def _wake(self) -> None:
        self._set_for = None
        self._look()

    def _tried(self, tried: list[Wait], replies: list[bytes] | None) -> None:
        now, queue = time.monotonic_ns(), self._waiting.tried_queue
        if replies is None:  # whether an element is left for the others is not known either
            self._waiting.hear(now, queue)
            self._waiting.end_tries(now, False)
        else:  # the last of the replies tells whether there may be more
            found_all = not replies[-1].startswith(LATER)
            if not found_all:
                self._note(laters_in(replies[-1])[0], queue)
            self._waiting.end_tries(now, found_all)
        for wait, reply in zip_longest(tried, replies or []):
            wait.is_tried = False
            if reply is None or not reply.startswith(LATER):
                self._answer(wait, queue, reply)
            elif wait.is_over:
                self._end(wait)
        self._look()

    def _end(self, wait: Wait) -> None:
        """Its time is over: a timed poll whose deadline has come asks once more, and is answered NONE."""
        wait.is_over = True
        if wait.is_tried:
            return
        if not wait.asks_at_end:
            self._answer(wait, 0, STOPPED)
            return
        self._waiting.remove(wait)
        wait.is_tried = True
        self._queues[0].submit([wait.calls[0]], lambda replies: self._polled(wait, replies))

    def _polled(self, wait: Wait, replies: list[bytes] | None) -> None:
        wait.is_tried = False
        reply = replies[0] if replies else None
        if reply is None or not reply.startswith(LATER):
            self._answer(wait, 0, reply)
        elif wait.asks_at_end and self._left_of(wait, reply) <= MOST_BEHIND:  # the node's clock is a bit behind
            wait.is_over = False
            self._wait(wait, self._left_of(wait, reply))
            self._note(laters_in(reply)[0], 0)
        else:
            self._answer(wait, 0, STOPPED)

    def _left_of(self, wait: Wait, reply: bytes) -> int:
        """The nanoseconds until the deadline of a timed poll, by the node's reply."""
        return laters_in(reply)[0].left(int(wait.calls[0].split()[2]))

    def _answer(self, wait: Wait, queue: int, reply: bytes | None) -> None:
        wait.timer.cancel()
        self._waiting.remove(wait)
        wait.answered(reply and self._seen(queue, wait.seat, reply))
