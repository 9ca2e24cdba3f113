"""The calls of many sessions at one queue, gathered: those that come together are one command of the Redis."""
from __future__ import annotations

import asyncio
import logging
import math
import time
from collections.abc import Callable

from .keys import keys_of
from .library import name_of
from .link import Link
from .resp import Answer, ErrorAnswer, bulks, command
from .turns import Answered, Batch, Part, Turns

LOG = logging.getLogger(__name__)

SEATS_OF_A_GATEWAY = 10**9
"""broker.lua has the same number."""

ROLE = command("ROLE")

CALLS, SPARE = (name_of(it).encode() for it in ("rb_calls", "rb_spare"))

MOST_IN_FLIGHT = 2
"""How many commands are under way at once. While they are, further calls are gathered. Behind one the next goes out once
it has as many calls: what a command costs apart from its calls is a third of what it costs with eight."""

SECONDS_BETWEEN_TRIES = 0.05
MILLISECONDS_OF_WAIT = 250
"""For so long the Redis waits for replicas at a time."""

# Errors by which a Redis says that it has done nothing, and may do it later.
LATER = {"LOADING", "BUSY", "TRYAGAIN", "ASK", "CLUSTERDOWN", "NOREPLICAS", "MISCONF", "LOADING_QUEUE"}
# The same, but another node has to be asked.
ELSEWHERE = {"MOVED", "READONLY", "MASTERDOWN", "UNBLOCKED"}
# The same, and the Redis does not know this gateway: its sessions have ended.
UNKNOWN = {"NOQUEUE", "LEASE"}


def needs_new_link(answer: Answer) -> bool:
    """Whether the Redis has done nothing, because the queue is at another node or the functions are gone, which each
    new link brings."""
    return isinstance(answer, ErrorAnswer) and (answer.code in ELSEWHERE or "Function not found" in str(answer))


class Calls:
    """While there is no link, calls are gathered. Whoever submits waits for the replies before it submits again, and
    only some of its calls are under way, so a batch that the Redis refused can be sent again later than others."""

    def __init__(self, queue: str, *, replicas: int = 0, patience: float = 5.0) -> None:
        keys = bulks(key.encode() for key in keys_of(queue))
        self._heads = {it: bulks([b"FCALL", it, b"8"]) + keys for it in (CALLS, SPARE)}
        self.replicas, self.patience = replicas, patience
        self._front = bulks([b"", b""])
        self._turns = Turns()
        self._again: list[Batch] = []
        self._refused_for_now: set[Batch] = set()
        self._flying: dict[Batch, None] = {}
        self._answered_at = 0.0
        self._link: Link | None = None
        self._is_leaving = False
        """The link is to be closed, once what is under way on it is answered."""
        self._gateway = 0
        self._loop = asyncio.get_event_loop()
        self._is_scheduled = False
        self._enough = math.inf
        """So many new calls go out at once; the others wait until more is answered."""
        self.gateway_is_unknown: Callable[[], None] = lambda: None
        self.saw_role: Callable[[Answer], None] | None = None
        """Gets what the Redis says of its replicas behind each wait for them, and may change how many are wanted."""

    @property
    def is_connected(self) -> bool:
        """Whether there is a link."""
        return self._link is not None

    def seat_of(self, session: int) -> bytes:
        """The seat of a session of this gateway."""
        return b"%d" % (self._gateway * SEATS_OF_A_GATEWAY + session % SEATS_OF_A_GATEWAY)

    def join(self, gateway: int) -> None:
        """From now on the calls are those of this gateway. What was gathered before is of the one before."""
        self._gateway, self._front = gateway, bulks([b"", b"%d" % gateway])

    def use(self, link: Link | None) -> None:
        """Sends by this link from now on. What was sent by the one before, and not answered, is in doubt."""
        flying, self._flying = self._flying, {}
        self._link, self._is_leaving = link, False
        for batch in flying:
            batch.doubt()
        self._send_more()

    def leave(self) -> None:
        """Sends nothing more by this link, and closes it once what is under way is answered."""
        self._is_leaving = True
        self._send_more()
        if self._link and not self._flying:
            self._link.close()

    def submit(self, calls: list[bytes], answered: Answered, sessions: int = 1) -> None:
        """Makes these calls, which are of so many sessions, one after the other."""
        turns = self._turns
        turns.add(Part(self._front, calls, answered, sessions))
        if turns.new_calls >= self._enough and not self._is_scheduled:
            self._schedule()

    def withhold(self, front: bytes) -> None:
        """The session before whose calls this stands has left: what has not been sent yet fetches nothing for it."""
        for part in (*self._turns, *(part for it in (*self._again, *self._refused_for_now) for part in it.parts)):
            part.withhold(front, len(part.replies))
        for part in (part for it in self._flying for part in it.parts):
            part.withhold(front, len(part.replies) + part.count)

    def is_late(self) -> bool:
        """Whether the Redis has not answered in time."""
        oldest = next(iter(self._flying), None)
        return oldest is not None and time.monotonic() - oldest.sent > self.patience

    def _send_more(self) -> None:
        """The link is another one, or more or less is under way on it: sends what may go out now."""
        if self._link is None or self._is_leaving or len(self._flying) >= MOST_IN_FLIGHT:
            self._enough = math.inf
            return
        last = next(reversed(self._flying), None)
        self._enough = min(last.count, self._turns.most) if last else 1
        self._schedule()

    def _schedule(self) -> None:
        if self._can_send() and not self._is_scheduled:
            self._is_scheduled = True
            self._loop.call_soon(self._flush)

    def _can_send(self) -> bool:
        turns = self._turns
        return self._enough < math.inf if self._again or turns.others else turns.new_calls >= self._enough

    def _flush(self) -> None:
        self._is_scheduled = False
        link = self._link
        if link and not link.is_closed and self._can_send():
            self._send(link, self._again.pop(0) if self._again else self._turns.take(CALLS))

    def _send(self, link: Link, batch: Batch) -> None:
        self._flying[batch] = None
        batch.sent = time.monotonic()
        calls = batch.calls()
        count = b"*%d\r\n" % (13 + len(calls))
        data = b"".join([count, self._heads[batch.function], batch.front, bulks(calls)])
        self._send_more()
        if not self.replicas and not self.saw_role:
            link.send(data, lambda answer: self._answered(link, batch, answer))
            return
        told: list[Answer] = []
        link.send(data + self._wait(), told.append, told.append, lambda role: self._copied(link, batch, role, *told))

    def _wait(self) -> bytes:
        return command("WAIT", self.replicas, MILLISECONDS_OF_WAIT) + ROLE

    def _answered(self, link: Link, batch: Batch, answer: Answer) -> None:
        """A batch is answered, or it is in doubt, for None."""
        if link is not self._link:
            return  # it was in doubt when the link was given up
        del self._flying[batch]
        if isinstance(answer, bytes):
            self._made(batch, answer.split(b"\0"))
        else:
            self._send_more()
            if answer is None:
                batch.doubt()
            else:
                self._refused(batch, answer)
        if self._is_leaving:
            self.leave()

    def _made(self, batch: Batch, replies: list[bytes]) -> None:
        """The calls of a batch are made, or the first of them, as far as the Redis came in its time."""
        now = time.monotonic()
        self._turns.adapt(batch.count, len(replies), now - max(batch.sent, self._answered_at))
        self._answered_at = now
        whole = batch.take(replies)
        if len(whole) < len(batch.parts):
            self._turns.put_back(batch)
        self._send_more()
        for part in whole:
            part.answered(part.replies)

    def _copied(self, link: Link, batch: Batch, role: Answer, answer: Answer, count: Answer) -> None:
        """So many replicas have what the batch did. If they are too few, a fail-over may lose it: others are waited for,
        until it is in doubt. How many are wanted may change meanwhile."""
        if self.saw_role:
            self.saw_role(role)
        if not isinstance(answer, bytes) or isinstance(count, int) and count >= self.replicas:
            self._answered(link, batch, answer)
        elif isinstance(count, int) and link is self._link and time.monotonic() - batch.sent < self.patience:
            counts: list[Answer] = []
            link.send(self._wait(), counts.append, lambda role: self._copied(link, batch, role, answer, *counts))
        else:
            self._answered(link, batch, None)

    def _refused(self, batch: Batch, answer: Answer) -> None:
        code = answer.code if isinstance(answer, ErrorAnswer) else ""
        if code == "OOM" and batch.function != SPARE:
            batch.function = SPARE
            self._send_again(batch, 0)
        elif code in LATER:
            self._send_again(batch, SECONDS_BETWEEN_TRIES)
        elif needs_new_link(answer):
            self._send_again(batch, 0)
            self._is_leaving = True
        elif code in UNKNOWN:
            if batch.front is self._front:
                self.gateway_is_unknown()
            for part in batch.parts:
                part.end_at_an_end()
        else:
            LOG.error("the Redis answered: %s", answer)
            batch.doubt()

    def _send_again(self, batch: Batch, seconds: float) -> None:
        self._refused_for_now.add(batch)
        self._loop.call_later(seconds, self._put_back, batch)

    def _put_back(self, batch: Batch) -> None:
        self._refused_for_now.remove(batch)
        self._again.append(batch)
        self._schedule()
