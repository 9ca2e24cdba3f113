"""The events of a queue, as the functions of broker.lua keep them until they are archived.

Whatever walks over many does it in pieces, between which others use the queue.
"""
from __future__ import annotations

from collections.abc import Iterator
from typing import NamedTuple

from rb_broker_formats.queue import FollowedQueue

from .ending import Failed
from .queue import Queue

CHUNK = 5_000
"""How many events or elements are read at a time."""
CUT_AT_ONCE = 50_000
"""How many events are taken out at a time."""
WRITTEN_AT_ONCE = 1_000

POSITION = """
local state = redis.call('HMGET', KEYS[4], 'cut', 'history', 'next', 'at')
state[5] = redis.call('LLEN', KEYS[5])
return state
"""
SET_OPENING = """
if redis.call('HGET', KEYS[4], 'cut') ~= ARGV[1] then return 0 end
redis.call('RENAME', KEYS[9], KEYS[8])
return 1
"""


class Conflict(Failed):
    """The files and the Redis do not go together. What the Redis has stays there."""


class Position(NamedTuple):
    """How far the events of a queue have been taken out of the Redis."""

    first: int
    """The number of the first event that it still has, counted from 0."""
    waiting: int
    """How many events it has."""
    settled: int
    """How many it had before those in hand were looked for."""
    in_hand: frozenset[bytes]
    """The origins of the jobs that were in hand then, and have been since."""


class ScannedQueue(FollowedQueue):
    """Elements that were read in pieces while the queue was used. They are right once all events have been followed
    since the first piece was read: what was read too early leaves, and what was read too late is offered."""

    def _clear(self) -> None:
        self.elements = {id: words for id, words in self.elements.items() if id >= self.next_id}

    def _test_size(self, size: int) -> None:
        pass

    def _leave(self, id: bytes) -> bytes:
        return self.elements.pop(int(id), b"")


class QueueEvents:
    """Those of one queue."""

    def __init__(self, queue: Queue) -> None:
        self._queue, self.name = queue, queue.name

    def position(self) -> Position:
        """How far the events have been taken out, and what is in hand then. Raises a `Conflict` if the queue keeps
        none."""
        first, _, _, settled = self._counts()
        in_hand = frozenset(it.split(b" ")[3] for it in members_of(self._queue, self._queue.held))
        return Position(first, self._counts()[3], settled, in_hand)

    def opening(self) -> FollowedQueue | None:
        """The queue in front of the first event. It is known if that is the first of all, or if it is kept."""
        lines: list[bytes] = []
        while some := self._queue.command("LRANGE", self._queue.opening, len(lines), len(lines) + CHUNK - 1):
            lines += some
        if lines:
            if int(lines[0].split(b" ")[3]) != len(lines) - 1:
                raise Conflict(f"{self.name}: another archive has taken events meanwhile")
            return FollowedQueue.of_opening(lines)
        is_first = self._queue.command("HGET", self._queue.state, "cut") in (None, b"0")
        return FollowedQueue() if is_first else None

    def lost_opening(self) -> int | None:
        """The number of the first event, if those before it went with what they began with, since there were too many."""
        first, dropped = self._queue.command("HMGET", self._queue.state, "cut", "dropped")
        is_lost = dropped is not None and dropped == first and not self._queue.command("EXISTS", self._queue.opening)
        return int(first) if is_lost else None

    def events(self, start: int, count: int) -> list[bytes]:
        """`count` events, from the one that has `start` others in front of it."""
        return list(self._queue.command("LRANGE", self._queue.history, start, start + count - 1))

    def cut(self, first: int, count: int) -> bool:
        """Takes out `count` events. Stops if `first`, or the next one, is not the number of the first one any more."""
        for start in range(first, first + count, CUT_AT_ONCE):
            end = min(start + CUT_AT_ONCE, first + count)
            if int(self._queue.call("rb_cut", start, end - start)) != end:
                return False
        return True

    def begin_anew(self) -> int:
        """Gives up the events that are there, and keeps the queue as it is behind them as the opening. Gives their
        number. After a kill it may be begun again. Raises a `Conflict` if another archive is at work."""
        first, next_id, last, start = self._counts()
        queue = ScannedQueue(next_id, last)
        for member in members_of(self._queue, self._queue.due):
            place, rest = member.split(b" ", 1)
            expiry, id = map(int, place.split(b":"))
            queue.elements[id] = b"%d %d %b" % (id, expiry, rest)
        while events := self.events(start, CHUNK):
            for event in events:
                queue.follow(event)
            start += len(events)
        queue.elements = dict(sorted(queue.elements.items()))
        kept = f"{self._queue.opening}:anew"
        self._queue.command("UNLINK", kept)
        lines = [it[:-1] for it in queue.opening()]
        for it in range(0, len(lines), WRITTEN_AT_ONCE):
            self._queue.command("RPUSH", kept, *lines[it:it + WRITTEN_AT_ONCE])
        keys = *self._queue.keys, kept
        if not self.cut(first, start) or not self._queue.command("EVAL", SET_OPENING, len(keys), *keys, first + start):
            raise Conflict(f"{self.name}: another archive has taken events meanwhile")
        return start

    def _counts(self) -> tuple[int, int, int, int]:
        """The number of the first event, the next id, the last moment, and how many events there are."""
        keys = self._queue.keys
        first, keeps, next_id, last, count = self._queue.command("EVAL", POSITION, len(keys), *keys)
        if keeps == b"no":
            raise Conflict(f"{self.name}: this queue keeps no events")
        return int(first or 0), int(next_id or 0), int(last or 0), count


def members_of(queue: Queue, key: str) -> Iterator[bytes]:
    """Those of a sorted set of a queue, of which some may come and go meanwhile."""
    after = b"-"
    while members := queue.command("ZRANGEBYLEX", key, after, "+", "LIMIT", 0, CHUNK):
        yield from members
        after = b"(" + members[-1]
