"""Whose calls a command of the Redis carries: a share for each session, and no more than it does in a while."""
from __future__ import annotations

from collections import deque
from collections.abc import Callable, Iterator

from .protocol import ErrorReply

Answered = Callable[[list[bytes] | None], None]
"""Gets the replies of what was submitted, or None where it is in doubt whether the calls were made."""

UNCOUNTED = (b"take", b"pollfor", b"wait")
"""What stands for TAKE, POLLFOR and WAIT of a session that may hold another job, as its gateway knows: broker.lua need
not count what it holds."""

FETCHES = (b"POLL", b"TAKE", b"POLLFOR", b"DRAIN", *UNCOUNTED)

FIRST_SHARE, SHARE = 1, 8
"""How many calls of a session go out before others have had their turn: at its first turn, and then."""

LEAST, MOST = 64, 1_024
"""How many calls a command carries at most. What it does not get done in its time is sent again."""

SLOW = 0.05
"""A command that takes more seconds is followed by shorter ones."""

NEW_FOR_EACH_OTHER = 24
"""So many who have just submitted come before one who has been served already, so these get a quarter of the calls."""

AT_AN_END = {b"DONE": ErrorReply.NOT_HELD, b"FAIL": ErrorReply.NOT_HELD, b"END": b"ENDED 0\n"}
"""What calls of a session are answered that has ended. The others have no reply."""


NONE: list[bytes] = []
"""The replies of a part that has none yet."""


def word_of(call: bytes) -> bytes:
    """What a call asks for."""
    return call.split(b" ")[1]


def without_fetch(call: bytes) -> bytes:
    """The call, or one that fetches nothing in its place."""
    return call.partition(b" ")[0] + b" WAIT" if word_of(call) in FETCHES else call


class Part:
    """Calls that were submitted together. They are made in their order, some at a time: the next ones go out once those
    before them are answered."""

    __slots__ = ("front", "calls", "replies", "count", "sessions", "answered")

    def __init__(self, front: bytes, calls: list[bytes], answered: Answered, sessions: int) -> None:
        """`front` names the gateway whose sessions make the calls; `sessions` is how many these are."""
        self.front, self.calls, self.replies = front, calls, NONE
        self.answered, self.sessions = answered, sessions
        self.count = len(calls)
        """How many calls are under way, or go out next."""

    def under_way(self) -> list[bytes]:
        """The calls that are under way."""
        start = len(self.replies)
        return self.calls[start:start + self.count]

    def end_at_an_end(self) -> None:
        """The sessions have ended, and no further call is made: what they held they do not hold any more."""
        words = [word_of(it) for it in self.calls[len(self.replies):]]
        self.answered([*self.replies, *(AT_AN_END[it] for it in words)] if AT_AN_END.keys() >= {*words} else None)

    def withhold(self, front: bytes, start: int) -> None:
        """Fetches nothing for the session before whose calls this stands, from this call on."""
        if self.sessions > 1 or self.calls[0].startswith(front):
            self.calls[start:] = [without_fetch(it) if it.startswith(front) else it for it in self.calls[start:]]


class Batch:
    """Calls that go out together."""

    __slots__ = ("parts", "count", "are_single", "front", "function", "sent")

    def __init__(self, parts: list[Part], count: int, function: bytes, are_single: bool = False) -> None:
        """Of these parts so many calls go out. They are single if each part has no other call than one of these."""
        self.parts, self.count, self.are_single = parts, count, are_single
        self.function, self.front, self.sent = function, parts[0].front, 0.0

    def calls(self) -> list[bytes]:
        """All calls, in their order."""
        if self.are_single:
            return [part.calls[0] for part in self.parts]
        return [call for part in self.parts for call in part.under_way()]

    def take(self, replies: list[bytes]) -> list[Part]:
        """Gives each part its replies. There may be fewer than calls: then the last ones were not made. Returns the parts
        that have all of theirs."""
        if self.are_single and len(replies) == self.count:
            for part, reply in zip(self.parts, replies):
                part.replies = [reply]
            return self.parts
        start, whole = 0, []
        for part in self.parts:
            end = start + part.count
            part.replies = part.replies + replies[start:end]
            part.count = len(part.calls) - len(part.replies)
            if len(part.replies) == len(part.calls):
                whole.append(part)
            start = end
        return whole

    def doubt(self) -> None:
        """Nobody knows whether the calls were made."""
        for part in self.parts:
            part.answered(None)


class Turns:
    """The parts whose next calls are to go out."""

    def __init__(self) -> None:
        self._new: deque[Part] = deque()
        self.new_calls = 0
        """How many calls the new parts have."""
        self.others: deque[Part] = deque()
        """Those of which calls have been made."""
        self.most = 4 * LEAST
        """How many calls go out next, at most."""

    def __bool__(self) -> bool:
        return bool(self._new or self.others)

    def __iter__(self) -> Iterator[Part]:
        yield from self._new
        yield from self.others

    def add(self, part: Part) -> None:
        """A part is new."""
        self._new.append(part)
        self.new_calls += part.count

    def take(self, function: bytes) -> Batch:
        """The calls that go out next, for this function. They are of one gateway's number. There must be some."""
        new, others, room, turn = self._new, self.others, self.most, 0
        if not others and self.new_calls <= room and new[0].front is new[-1].front:
            return self._all_new(function)
        front = (new or others)[0].front
        parts: list[Part] = []
        waiting: list[tuple[Part, int]] = []  # those with more calls than their share
        while room and (new or others):
            is_new = bool(new) and not (others and turn == NEW_FOR_EACH_OTHER)
            part = (new if is_new else others)[0]
            if part.front is not front:
                break
            turn = turn + 1 if is_new else 0
            parts.append((new if is_new else others).popleft())
            self.new_calls -= len(part.calls) if is_new else 0
            left = len(part.calls) - len(part.replies)
            part.count = min(left, (FIRST_SHARE if is_new else SHARE) * part.sessions, room) if left > 1 else left
            room -= part.count
            if part.count < left:
                waiting.append((part, left - part.count))
        for part, left in waiting:  # what others leave is shared in the same order
            more = min(left, room)
            part.count, room = part.count + more, room - more
        return Batch(parts, self.most - room, function)

    def _all_new(self, function: bytes) -> Batch:
        """The calls of all new parts: nobody has to wait for another turn."""
        batch = Batch([*self._new], self.new_calls, function, len(self._new) == self.new_calls)
        self._new.clear()
        self.new_calls = 0
        return batch

    def put_back(self, batch: Batch) -> None:
        """Those of whose parts calls are left have their turns again: whoever had none made is first."""
        left = [it for it in batch.parts if len(it.replies) < len(it.calls)]
        unserved = [it for it in left if not it.replies]
        self._new.extendleft(reversed(unserved))
        self.new_calls += sum(len(it.calls) for it in unserved)
        self.others.extend(it for it in left if it.replies)

    def adapt(self, sent: int, made: int, seconds: float) -> None:
        """So many of the calls of a command were made, in so many seconds."""
        if made < sent:
            self.most = max(made, LEAST)
        elif seconds > SLOW:
            self.most = max(self.most // 2, LEAST)
        elif sent >= self.most:
            self.most = min(2 * self.most, MOST)
